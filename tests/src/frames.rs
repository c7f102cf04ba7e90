//! Group: framing.

use crate::calls::Call;
use crate::case::Case;
use crate::lent::Room;
use crate::pictures;
use crate::rng::Rng;
use crate::run::Run;

pub fn group(run: &mut Run) {
    // All 2 by 2 pictures over five values, all 2 by 3 and 3 by 2 over three.
    for (w, h, values) in [(2, 2, 5), (2, 3, 3), (3, 2, 3), (3, 3, 2)] {
        for index in 0..usize::pow(values, (w * h) as u32) {
            if run.takes(index) {
                let px = (0..w * h).map(|place| (index / usize::pow(values, place as u32) % values) as u8).collect();
                let mut rng = run.rng();
                frame(run, &mut rng, w, h, px);
            }
        }
    }
    run.turns(60_000, |run, rng| {
        let (w, h) = pictures::sides(rng, 30);
        any(run, rng, w, h);
    });
    halves(run);
    all_values(run);
    run.turns(5_000, |run, rng| {
        let (w, h) = (rng.between(2, 200), rng.between(2, 20));
        stretches(run, rng, w, h);
    });
    for (index, value) in [0, 15, 16, 255].into_iter().enumerate() {
        if run.takes(index) {
            let mut rng = run.rng();
            bordered(run, &mut rng, 2048, 2048, &vec![value; border_samples(2048, 2048)]);
        }
    }
    run.turns(60, |run, rng| {
        let (long, short) = (2048, rng.between(2, 9));
        let (w, h) = if rng.once_in(2) { (long, short) } else { (short, long) };
        any(run, rng, w, h);
    });
}

/// Values on both sides of where the upper half of a byte changes, and the ends.
const EDGES: [u8; 12] = [0, 1, 14, 15, 16, 17, 127, 128, 239, 240, 254, 255];

fn border_samples(w: usize, h: usize) -> usize {
    2 * (w + h) - 4
}

/// Two values, exactly half and half, or one more of either: side by side, and mixed.
fn halves(run: &mut Run) {
    let sides = [(2, 2), (3, 5), (66, 3), (130, 67), (2048, 2)];
    let mut index = 0;
    for (w, h) in sides {
        for (a, b) in EDGES.into_iter().flat_map(|a| EDGES.map(|b| (a, b))) {
            for more in 0..3 {
                index += 1;
                if run.takes(index) {
                    let n = border_samples(w, h);
                    let mut border = vec![a; n];
                    border[n / 2 - 1 + more..].fill(b);
                    let mut rng = run.rng();
                    bordered(run, &mut rng, w, h, &border);
                    mix(&mut rng, &mut border);
                    bordered(run, &mut rng, w, h, &border);
                }
            }
        }
    }
}

/// All 256 values, each as often as the others, and with one in place of another.
fn all_values(run: &mut Run) {
    run.turns(600, |run, rng| {
        let side = *rng.one_of(&[65, 129]);
        let mut border: Vec<u8> = (0..border_samples(side, side)).map(|place| place as u8).collect();
        mix(rng, &mut border);
        border[0] = rng.byte();
        bordered(run, rng, side, side, &border);
    });
}

/// Stretches of like samples, some longer than are counted at once.
fn stretches(run: &mut Run, rng: &mut Rng, w: usize, h: usize) {
    let values = [*rng.one_of(&EDGES), *rng.one_of(&EDGES), *rng.one_of(&EDGES)];
    let mut border = Vec::new();
    while border.len() < border_samples(w, h) {
        let longest = *rng.one_of(&[3, 64, 65, 150]);
        border.resize(border.len() + rng.between(1, longest), *rng.one_of(&values));
    }
    bordered(run, rng, w, h, &border);
}

fn mix(rng: &mut Rng, border: &mut [u8]) {
    for last in (1..border.len()).rev() {
        border.swap(last, rng.below(last + 1));
    }
}

/// A picture with these samples on its border, row by row, and any inside.
fn bordered(run: &mut Run, rng: &mut Rng, w: usize, h: usize, border: &[u8]) {
    let mut left = border.iter();
    let sample = |place: usize| {
        let (x, y) = (place % w, place / w);
        let on_border = x == 0 || y == 0 || x == w - 1 || y == h - 1;
        if on_border {
            *left.next().expect("there is a value for each")
        } else {
            rng.byte()
        }
    };
    let px = (0..w * h).map(sample).collect();
    frame(run, rng, w, h, px);
}

fn any(run: &mut Run, rng: &mut Rng, w: usize, h: usize) {
    let most = *rng.one_of(&[1, 3, 255, 255]);
    let low = rng.below(256 - most);
    let px = (0..w * h).map(|_| (low + rng.below(most + 1)) as u8).collect();
    frame(run, rng, w, h, px);
}

fn frame(run: &mut Run, rng: &mut Rng, w: usize, h: usize, px: Vec<u8>) {
    let case = Case { call: Call::Frame, w, h, px, room: Room::about(rng, w * h), ..Case::default() };
    if let Some(outcome) = run.check(&case) {
        let wrong = outcome.number() == 0 && !framed(&case, &outcome.room);
        run.direct(&case, wrong.then(|| "not framed by the lower median".to_string()));
    }
}

/// Is the room the picture with all border samples at their lower median?
fn framed(case: &Case, room: &[u8]) -> bool {
    let (w, h) = (case.w, case.h);
    let median = room[0];
    let on_border =
        |place: &usize| place.is_multiple_of(w) || place % w == w - 1 || *place < w || *place >= w * (h - 1);
    let count =
        |wanted: &dyn Fn(u8) -> bool| (0..w * h).filter(on_border).filter(|&place| wanted(case.px[place])).count();
    let half = w + h - 2;
    // Fewer than half are below it, and at least half are not above it.
    let is_median = count(&|sample| sample < median) < half && count(&|sample| sample <= median) >= half;
    let placed = (0..w * h).all(|place| room[place] == if on_border(&place) { median } else { case.px[place] });
    is_median && placed && count(&|sample| sample == median) > 0
}
