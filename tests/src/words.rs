//! Group: line part, membership and painting with any words.

use crate::calls::Call;
use crate::case::Case;
use crate::lent::Room;
use crate::pictures;
use crate::rng::Rng;
use crate::run::Run;

const FLAG: u32 = 1 << 31;

/// The code of an edgel of this size, any of them.
pub fn good_code(rng: &mut Rng, w: usize, h: usize) -> u32 {
    if rng.once_in(3) {
        (2 * (rng.below(h - 1) * w + rng.below(w)) + 1) as u32
    } else {
        (2 * (rng.below(h) * w + rng.below(w - 1))) as u32
    }
}

/// A code below 2^23 that names no edgel of this size.
pub fn bad_code(rng: &mut Rng, w: usize, h: usize) -> u32 {
    let code = match rng.below(3) {
        0 => 2 * (rng.below(h) * w + w - 1),
        1 => 2 * ((h - 1) * w + rng.below(w)) + 1,
        _ => rng.between(2 * w * h, (2 * w * h + 9).max((1 << 23) - 1)),
    };
    (code as u32).min((1 << 23) - 1)
}

/// Words that painting and writing let through.
pub fn good_words(rng: &mut Rng, w: usize, h: usize, levels: &[u8], count: usize) -> Vec<u32> {
    if levels.is_empty() {
        return vec![];
    }
    let often = rng.between(1, 20);
    let mut words: Vec<u32> = Vec::with_capacity(count);
    for _ in 0..count {
        let word = match words.last() {
            Some(&last) if rng.once_in(6) => last,
            _ => good_code(rng, w, h) | (*rng.one_of(levels) as u32) << 23,
        };
        words.push(if rng.once_in(often) { word | FLAG } else { word & !FLAG });
    }
    words
}

pub fn group(run: &mut Run) {
    run.turns(40_000, |run, rng| {
        let (w, h) = match rng.below(30) {
            0 => (2048, 2),
            1 => (2, 2048),
            2 => (rng.below(3), rng.below(3)),
            _ => pictures::sides(rng, 9),
        };
        let levels = some_levels(rng);
        let words = some_words(rng, w, h, &levels);
        part(run, rng, &words);
        members(run, rng, w, h, &words);
        paint(run, rng, w, h, levels, words);
    });
    run.turns(10, |run, rng| {
        let (w, h) = (2048, 2048);
        let levels = some_levels(rng);
        let words = good_words(rng, w, h, &levels, 5_000);
        members(run, rng, w, h, &words);
        paint(run, rng, w, h, levels, words);
    });
}

fn some_levels(rng: &mut Rng) -> Vec<u8> {
    match rng.below(5) {
        0 => pictures::all_levels(),
        1 => vec![],
        _ => {
            let mut levels: Vec<u8> = (0..rng.between(1, 9)).map(|_| rng.below(255) as u8).collect();
            levels.sort();
            levels.dedup();
            levels
        }
    }
}

/// Words: mostly good ones, at times with bad ones among them or wholly random.
fn some_words(rng: &mut Rng, w: usize, h: usize, levels: &[u8]) -> Vec<u32> {
    let count = *rng.one_of(&[0, 1, 2, 5, 20, 60]);
    if w < 2 || h < 2 || rng.once_in(10) {
        return (0..count).map(|_| rng.next() as u32).collect();
    }
    let mut words = good_words(rng, w, h, levels, count);
    let damages = if rng.once_in(4) { rng.between(1, 3) } else { 0 };
    for _ in 0..damages.min(words.len()) {
        let place = rng.below(words.len());
        words[place] = match rng.below(3) {
            0 => bad_code(rng, w, h) | words[place] & !((1 << 23) - 1),
            1 => words[place] ^ 1 << rng.below(32),
            _ => rng.next() as u32,
        };
    }
    words
}

fn part(run: &mut Run, rng: &mut Rng, words: &[u32]) {
    let lines = words.iter().filter(|&&word| word >= FLAG).count();
    for n in [0, rng.below(lines + 2), lines, usize::MAX] {
        run.check(&Case { call: Call::LinePart, words: words.to_vec(), n, ..Case::default() });
    }
}

fn members(run: &mut Run, rng: &mut Rng, w: usize, h: usize, words: &[u32]) {
    let lines = words.iter().filter(|&&word| word >= FLAG).count();
    for _ in 0..4 {
        let n = if rng.once_in(20) { usize::MAX } else { rng.below(lines + 1) };
        let x = if rng.once_in(20) { usize::MAX } else { rng.below(w + 1) };
        let y = if rng.once_in(20) { usize::MAX } else { rng.below(h + 1) };
        let case = Case { call: Call::Member, w, h, words: words.to_vec(), n, x, y, ..Case::default() };
        let Some(outcome) = run.check(&case) else { continue };
        let good = |&word: &u32| code_good(word, w, h);
        if outcome.number() == 8 {
            let place = words.iter().position(|word| !good(word));
            let said = outcome.said.answer().map(|answer| answer.place as usize);
            run.direct(&case, (place != said).then(|| "not the first bad word".to_string()));
        } else if outcome.number() != 1 {
            run.direct(&case, (!words.iter().all(good)).then(|| "a bad word was let through".to_string()));
        }
    }
}

/// Does the code of a word name an edgel of this size?
fn code_good(word: u32, w: usize, h: usize) -> bool {
    let place = (word as usize & ((1 << 23) - 1)) / 2;
    let (x, y) = (place % w, place / w);
    match word % 2 {
        0 => x + 1 < w && y < h,
        _ => y + 1 < h,
    }
}

fn paint(run: &mut Run, rng: &mut Rng, w: usize, h: usize, levels: Vec<u8>, words: Vec<u32>) {
    let border = rng.byte();
    let room = Room::about(rng, w * h);
    let case = Case { call: Call::Paint, w, h, border, levels, words, room, ..Case::default() };
    let Some(outcome) = run.check(&case) else { return };
    if outcome.number() == 0 && case.words.len() * w * h < 10_000 {
        let literal: Vec<u8> = (0..w * h).map(|place| painted(&case, place % w, place / w)).collect();
        run.direct(&case, (outcome.room[..w * h] != literal).then(|| format!("painted should be {literal:?}")));
    }
}

/// A painted sample by its definition.
fn painted(case: &Case, x: usize, y: usize) -> u8 {
    let turns = |k: u8| {
        let turned = |&&word: &&u32| {
            let (code, level) = (word as usize & ((1 << 23) - 1), (word >> 23) as u8);
            let place = code / 2;
            level == k && code % 2 == 0 && place / case.w == y && place % case.w < x
        };
        case.words.iter().filter(turned).count()
    };
    case.levels.iter().filter(|&&k| (case.border > k) ^ (turns(k) % 2 == 1)).count() as u8
}
