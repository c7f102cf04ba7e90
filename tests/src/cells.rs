//! Group: the crossing of every edgel and the piece of every cell.

use second::Second;

use crate::calls::{Call, Calls};
use crate::case::{piece_bits, Case};
use crate::pictures;
use crate::rng::Rng;
use crate::run::Run;

/// What was met on the way.
#[derive(Default)]
struct Met {
    headings: [u64; 4],
    pieces: u64,
    straight: u64,
    branches: u64,
    /// Corners: the level is the saddle's, inside the cell.
    corners: u64,
    /// Cells with high corners facing each other.
    saddles: u64,
    /// Saddles whose height is the level's exactly.
    saddles_met: u64,
}

pub fn group(run: &mut Run) {
    let mut met = Met::default();
    run.turns(40_000, |run, rng| {
        let most = *rng.one_of(&[1, 2, 3, 5, 9, 20, 255]);
        let px: Vec<u8> = (0..4).map(|_| rng.below(most + 1) as u8).collect();
        let levels: Vec<u8> = (0..most as u8).chain([255]).collect();
        all_of_picture(run, &mut met, Case { w: 2, h: 2, px, ..Case::default() }, &levels);
    });
    run.turns(15_000, |run, rng| {
        let (w, h) = pictures::sides(rng, 9);
        let most = *rng.one_of(&[1, 4, 255]);
        let px: Vec<u8> = (0..w * h).map(|_| rng.below(most + 1) as u8).collect();
        let levels: Vec<u8> = (0..3).map(|_| rng.below(most + 1) as u8).collect();
        all_of_picture(run, &mut met, Case { w, h, px, ..Case::default() }, &levels);
    });
    run.turns(20_000, |run, rng| anywhere(run, rng));
    let [s, e, n, w] = met.headings;
    run.notes.push(format!("headings S {s} E {e} N {n} W {w}"));
    run.notes.push(format!(
        "pieces {}: straight {} branch {} corner {}",
        met.pieces, met.straight, met.branches, met.corners
    ));
    run.notes.push(format!("saddles {}, met exactly {}", met.saddles, met.saddles_met));
}

/// All codes, some beyond the edgels, and all cells, some beyond the picture.
fn all_of_picture(run: &mut Run, met: &mut Met, mut case: Case, levels: &[u8]) {
    for &level in levels {
        case.level = level;
        case.call = Call::Crossing;
        for code in 0..2 * (case.w * case.h) as u32 + 3 {
            case.code = code;
            crossing(run, met, &case);
        }
        case.call = Call::Piece;
        for (y, x) in (0..case.h).flat_map(|y| (0..case.w).map(move |x| (y, x))) {
            (case.x, case.y) = (x, y);
            piece(run, met, &case);
        }
        if run.over() {
            return;
        }
    }
}

fn crossing(run: &mut Run, met: &mut Met, case: &Case) {
    let (w, h, px) = (case.w, case.h, &case.px[..]);
    let said = run.subject.crossing(w, h, px, case.level, case.code);
    let truth = Second::TRUE.crossing(w, h, px, case.level, case.code);
    run.count(1);
    let same_floats = said.x.to_bits() == truth.x.to_bits() && said.y.to_bits() == truth.y.to_bits();
    if said != truth || !same_floats {
        return run.fail_compared(case);
    }
    if said.answer.number == 0 {
        met.headings[said.heading as usize % 4] += 1;
        // The surface has the level's height at num/den of the way, and no smaller numbers say so.
        let first = case.code as usize / 2;
        let last = first + if case.code % 2 == 1 { w } else { 1 };
        let (a, b) = (px[first] as i64, px[last] as i64);
        let (num, den) = (said.num as i64, said.den as i64);
        let exact = 2 * (a * den + (b - a) * num) == (2 * case.level as i64 + 1) * den;
        run.direct(case, (!exact).then(|| "the fraction misses the level".to_string()));
        let common = (2..=num.min(den - num)).find(|d| num % d == 0 && den % d == 0);
        run.direct(case, common.map(|d| format!("{d} divides both parts of the fraction")));
        // The floats are those of the fraction that is not reduced.
        let part = (2 * case.level as i64 + 1 - 2 * a).abs() as f64 / (2 * (a - b).abs()) as f64;
        let (x, y) = ((first % w) as f64, (first / w) as f64);
        let (x, y) = if case.code % 2 == 1 { (x, y + part) } else { (x + part, y) };
        let as_before = said.x.to_bits() == x.to_bits() && said.y.to_bits() == y.to_bits();
        run.direct(case, (!as_before).then(|| "the floats are not those before reducing".to_string()));
    }
}

fn piece(run: &mut Run, met: &mut Met, case: &Case) {
    let (w, h, px) = (case.w, case.h, &case.px[..]);
    let shape = run.subject.piece(w, h, px, case.level, case.x, case.y);
    let truth = Calls::piece(&Second::TRUE, w, h, px, case.level, case.x, case.y);
    run.count(1);
    if piece_bits(shape) != piece_bits(truth) {
        return run.fail_compared(case);
    }
    if shape.answer.number == 0 {
        met.pieces += 1;
        match shape.kind {
            1 => met.straight += 1,
            2 => met.corners += 1,
            3 => met.branches += 1,
            _ => run.direct(case, Some("done and refused".to_string())),
        }
        let at = |dx: usize, dy: usize| px[(case.y + dy) * w + case.x + dx] as i64;
        let [a, b, c, d] = [at(0, 0), at(1, 0), at(1, 1), at(0, 1)];
        let high = [a, b, c, d].map(|sample| sample > case.level as i64);
        if high == [true, false, true, false] || high == [false, true, false, true] {
            met.saddles += 1;
            let met_exactly = (2 * case.level as i64 + 1) * (a + c - b - d) == 2 * (a * c - b * d);
            met.saddles_met += met_exactly as u64;
            run.direct(case, (met_exactly != (shape.kind == 2)).then(|| "a saddle met is a corner".to_string()));
        }
    }
}

/// One crossing and one piece of any picture, with any numbers.
fn anywhere(run: &mut Run, rng: &mut Rng) {
    let (w, h) = match rng.below(20) {
        0 => (2048, rng.between(2, 3)),
        1 => (rng.between(2, 3), 2048),
        2 => (rng.between(0, 3), rng.between(0, 3)),
        _ => pictures::sides(rng, 20),
    };
    let length = if rng.once_in(20) { w * h + 1 } else { w * h };
    let px: Vec<u8> = (0..length).map(|_| rng.byte()).collect();
    let mut case = Case { call: Call::Crossing, w, h, px, level: rng.byte(), ..Case::default() };
    case.code = match rng.below(10) {
        0 => rng.next() as u32,
        1 => rng.below(1 << 23) as u32 | 1 << (23 + rng.below(9)),
        _ => rng.below(2 * w * h + 4) as u32,
    };
    run.check(&case);
    case.call = Call::Piece;
    case.x = if rng.once_in(10) { rng.next() as usize } else { rng.below(w + 2) };
    case.y = if rng.once_in(10) { usize::MAX - rng.below(2) } else { rng.below(h + 2) };
    run.check(&case);
}
