//! Group: a border that is not all one value is told by the first sample that differs, and by its edge.

use crate::calls::{Call, Calls};
use crate::case::{Case, Said};
use crate::lent::Room;
use crate::pictures::Picture;
use crate::rng::Rng;
use crate::run::Run;

/// Sides about blocks of 64 samples.
const SIDES: [usize; 12] = [2, 3, 31, 62, 63, 64, 65, 66, 127, 128, 129, 193];

pub fn group(run: &mut Run) {
    // One sample or two that differ, at any places of small pictures.
    let mut index = 0;
    for (w, h) in (2..6).flat_map(|w| (2..6).map(move |h| (w, h))) {
        for (a, b) in (0..w * h).flat_map(|a| (a..w * h).map(move |b| (a, b))) {
            index += 1;
            if run.takes(index) {
                let mut rng = run.rng();
                spoilt(run, &mut rng, w, h, &[a, b]);
            }
        }
    }
    run.turns(6_000, |run, rng| {
        let (w, h) = (*rng.one_of(&SIDES), *rng.one_of(&SIDES));
        let places: Vec<usize> = (0..rng.between(1, 4)).map(|_| on_border(rng, w, h)).collect();
        spoilt(run, rng, w, h, &places);
    });
    // The largest pictures, the last corner alone among them.
    run.turns(12, |run, rng| {
        let (w, h) = *rng.one_of(&[(2048, 2048), (2048, 2), (2, 2048), (2048, 3), (3, 2048)]);
        let place = if rng.once_in(3) { w * h - 1 } else { on_border(rng, w, h) };
        spoilt(run, rng, w, h, &[place]);
    });
}

/// Any border place, corners more often than others.
fn on_border(rng: &mut Rng, w: usize, h: usize) -> usize {
    let (x, y) = (rng.below(w), rng.below(h));
    *rng.one_of(&[0, w - 1, w * h - w, w * h - 1, x, x, y * w, y * w, y * w + w - 1, y * w + w - 1, w * h - w + x])
}

/// A picture with these samples changed, listed and with its tree, in room that need not be enough.
fn spoilt(run: &mut Run, rng: &mut Rng, w: usize, h: usize, places: &[usize]) {
    let border = rng.byte();
    let mut picture = Picture::new(w, h, border, |_, _| rng.byte());
    places.iter().for_each(|&place| picture.px[place] = border ^ rng.between(1, 255) as u8);
    for call in [Call::List, Call::Tree] {
        let case = picture.case(call, &[border.min(254)], rng, Room::about);
        if run.check(&case).is_some() {
            run.demand(&case, told);
        }
    }
}

/// Number and place say the first border sample that differs from sample 0, or neither does and there is none.
fn told(subject: &dyn Calls, case: &Case) -> Result<u64, String> {
    let Said::Plain(answer) = case.run(subject).said else {
        return Err("it has no answer".into());
    };
    let (w, h, px) = (case.w, case.h, &case.px);
    let edges =
        |place: usize| [(4, place < w), (17, place >= w * h - w), (18, place % w == 0), (19, place % w == w - 1)];
    let differs = |place: usize| edges(place).iter().any(|edge| edge.1) && px[place] != px[0];
    let given = [4, 17, 18, 19].contains(&answer.number);
    let place = if given { answer.place as usize } else { w * h };
    match (0..place).find(|&earlier| differs(earlier)) {
        Some(earlier) => {
            Err(format!("sample {earlier} differs, and {} is given with place {}", answer.number, answer.place))
        }
        None if !given => Ok(1),
        None if place >= w * h || !differs(place) => Err(format!("place {place} does not differ")),
        None if edges(place).iter().find(|edge| edge.1).map(|edge| edge.0) != Some(answer.number) => {
            Err(format!("place {place} is not on the edge of {}", answer.number))
        }
        None => Ok(1),
    }
}
