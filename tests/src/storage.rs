//! Group: damage that storage may do to a file, against the answer foretold.

use second::{Answer, Read};

use crate::blocks::{self, Parts, BLOCK, PAYLOAD};
use crate::calls::Call;
use crate::case::{Case, Said};
use crate::files::some_parts;
use crate::lent::Room;
use crate::pictures;
use crate::rng::Rng;
use crate::run::Run;
use crate::words::good_words;

pub fn group(run: &mut Run) {
    for (levels, count) in small() {
        run.turns(1, |run, rng| {
            let file = file_of(rng, &levels, count);
            every_value(run, rng, &file);
        });
    }
    run.turns(1, |run, rng| {
        let file = equal_payloads(rng, 3);
        every_value(run, rng, &file);
    });
    for count in [0, 127, 254, 255, 1_200] {
        run.turns(3, |run, rng| {
            let file = blocks::build(&some_parts(rng, count));
            every_bit(run, rng, &file);
            whole_blocks(run, rng, &file);
            cut(run, rng, &file);
        });
    }
    run.turns(6, |run, rng| {
        let blocks = rng.between(3, 9);
        let file = equal_payloads(rng, blocks);
        whole_blocks(run, rng, &file);
    });
    run.turns(60_000, |run, rng| {
        let count = *rng.one_of(&[0, 5, 127, 200, 300]);
        let file = blocks::build(&some_parts(rng, count));
        two_bytes(run, rng, &file);
        neighbours(run, rng, &file);
        burst(run, rng, &file);
        check_bytes(run, rng, &file);
    });
    run.turns(1, missed);
}

/// Levels and how many words: one, two and three blocks, and words up to the edges of a block.
fn small() -> Vec<(Vec<u8>, usize)> {
    let all = pictures::all_levels();
    vec![(vec![], 0), (vec![0], 1), (all.clone(), 0), (vec![0], 126), (vec![254], 127), (all, 128)]
}

/// A file of so many words at these levels.
fn file_of(rng: &mut Rng, levels: &[u8], count: usize) -> Vec<u8> {
    let (w, h) = pictures::sides(rng, 9);
    let words = good_words(rng, w, h, levels, count);
    blocks::build(&Parts { w, h, border: rng.byte(), levels: levels.to_vec(), words })
}

/// A file of so many blocks, in which all blocks of words have one payload.
fn equal_payloads(rng: &mut Rng, blocks: usize) -> Vec<u8> {
    let (w, h) = pictures::sides(rng, 9);
    let words = good_words(rng, w, h, &[7], 127).repeat(blocks - 1);
    blocks::build(&Parts { w, h, border: rng.byte(), levels: vec![7], words })
}

/// A damaged file is refused with this number and place, all else is 0, and the word places are kept.
fn refused(run: &mut Run, rng: &mut Rng, input: Vec<u8>, number: u32, place: usize, what: &str) {
    let size = *rng.one_of(&[0, 1, 3]);
    let case = Case { call: Call::Read, input, places: Room::exact(rng, size), ..Case::default() };
    let Some(outcome) = run.check(&case) else { return };
    let answer = Answer { number, place: place as u64, words: 0, lines: 0 };
    let foretold = Said::Read(Box::new(Read { answer, w: 0, h: 0, border: 0, count: 0, levels: [0; 255] }));
    let kept = outcome.unchanged && outcome.guards_whole;
    let wrong = outcome.said != foretold || !kept;
    run.direct(&case, wrong.then(|| format!("{what}: refusal {number} with place {place} was foretold")));
}

/// Every byte changed to every other value.
fn every_value(run: &mut Run, rng: &mut Rng, file: &[u8]) {
    for at in 0..file.len() {
        for change in 1..=255 {
            changed(run, rng, file, at, change);
        }
    }
}

/// Every bit turned over.
fn every_bit(run: &mut Run, rng: &mut Rng, file: &[u8]) {
    for at in 0..file.len() {
        for bit in 0..8 {
            changed(run, rng, file, at, 1 << bit);
        }
    }
}

fn changed(run: &mut Run, rng: &mut Rng, file: &[u8], at: usize, change: u8) {
    if run.takes(at * 255 + change as usize) {
        let mut damaged = file.to_vec();
        damaged[at] ^= change;
        refused(run, rng, damaged, 13, at / BLOCK, "one byte was changed");
    }
}

/// Every pair of blocks exchanged, every block over every other, every block lost, doubled or zero.
fn whole_blocks(run: &mut Run, rng: &mut Rng, file: &[u8]) {
    let count = file.len() / BLOCK;
    let block = |i: usize| &file[BLOCK * i..BLOCK * (i + 1)];
    let with = |pairs: &[(usize, usize)]| {
        let mut damaged = file.to_vec();
        pairs.iter().for_each(|&(i, j)| damaged[BLOCK * i..BLOCK * (i + 1)].copy_from_slice(block(j)));
        damaged
    };
    for i in 0..count {
        for j in (0..count).filter(|&j| j != i && !run.over()).collect::<Vec<_>>() {
            refused(run, rng, with(&[(i, j), (j, i)]), 13, i.min(j), "two blocks changed places");
            refused(run, rng, with(&[(i, j)]), 13, i, "a block stands over another");
        }
        if i + 1 < count {
            let lost = [&file[..BLOCK * i], &file[BLOCK * (i + 1)..]].concat();
            refused(run, rng, lost, 13, i, "a block was lost");
        }
        let doubled = [&file[..BLOCK * (i + 1)], &file[BLOCK * i..]].concat();
        refused(run, rng, doubled, 13, i + 1, "a block is there twice");
        let mut zero = file.to_vec();
        zero[BLOCK * i..BLOCK * (i + 1)].fill(0);
        refused(run, rng, zero, if i == 0 { 14 } else { 13 }, i, "a block is zero");
    }
}

/// Every shorter file, and some longer ones.
fn cut(run: &mut Run, rng: &mut Rng, file: &[u8]) {
    for length in 0..file.len() {
        if run.takes(length) {
            let number = if length == 0 || length % BLOCK > 0 { 12 } else { 14 };
            refused(run, rng, file[..length].to_vec(), number, 0, "the file was cut");
        }
    }
    for more in [1, 511, 512, 1024] {
        let mut longer = file.to_vec();
        longer.resize(file.len() + more, 0);
        if rng.once_in(2) {
            blocks::stamp(&mut longer);
        }
        let case = Case { call: Call::Read, input: longer, places: Room::exact(rng, 2_000), ..Case::default() };
        if let Some(outcome) = run.check(&case) {
            let taken = !matches!(outcome.number(), 12..=14);
            run.direct(&case, taken.then(|| "more stands behind the file, and it was taken".to_string()));
        }
    }
}

/// Two bytes of one payload, 8 to 24 apart, the first changed by 2 or more.
fn two_bytes(run: &mut Run, rng: &mut Rng, file: &[u8]) {
    let gap = rng.between(8, 24);
    let block = BLOCK * rng.below(file.len() / BLOCK);
    let at = block + rng.below(PAYLOAD - gap);
    let mut damaged = file.to_vec();
    (damaged[at], damaged[at + gap]) = (rng.byte(), rng.byte());
    if damaged[at].abs_diff(file[at]) >= 2 {
        refused(run, rng, damaged, 13, at / BLOCK, "two bytes were changed");
    }
}

/// Two neighbours in one payload, the second changed by at most twice the first, less 2.
fn neighbours(run: &mut Run, rng: &mut Rng, file: &[u8]) {
    let at = BLOCK * rng.below(file.len() / BLOCK) + rng.below(PAYLOAD - 1);
    let mut damaged = file.to_vec();
    (damaged[at], damaged[at + 1]) = (rng.byte(), rng.byte());
    let moved = |at: usize| damaged[at].abs_diff(file[at]) as u32;
    if moved(at + 1) + 2 <= 2 * moved(at) {
        refused(run, rng, damaged, 13, at / BLOCK, "two neighbours were changed");
    }
}

/// Up to eight bits in a row, anywhere in the file, the lowest bit of a byte first.
fn burst(run: &mut Run, rng: &mut Rng, file: &[u8]) {
    let edges =
        [BLOCK * rng.below(file.len() / BLOCK) + *rng.one_of(&[506, 507, 508, 510, 511]), rng.below(file.len())];
    let at = *rng.one_of(&edges);
    let pattern = (rng.between(1, 255) as u16) << rng.below(8);
    let mut damaged = file.to_vec();
    let (low, high) = (pattern as u8, (pattern >> 8) as u8);
    damaged[at] ^= low;
    if let Some(next) = damaged.get_mut(at + 1) {
        *next ^= high;
    }
    if let Some(first) = (0..file.len()).find(|&at| damaged[at] != file[at]) {
        refused(run, rng, damaged, 13, first / BLOCK, "up to eight bits in a row were changed");
    }
}

/// The check bytes of one block, any of them.
fn check_bytes(run: &mut Run, rng: &mut Rng, file: &[u8]) {
    let block = rng.below(file.len() / BLOCK);
    let mut damaged = file.to_vec();
    (PAYLOAD..BLOCK).for_each(|at| damaged[BLOCK * block + at] = rng.byte());
    if damaged != file {
        refused(run, rng, damaged, 13, block, "the check was changed");
    }
}

/// Where it stops: two neighbouring bytes changed make the levels 1 and 4 the levels 0 and 6.
fn missed(run: &mut Run, rng: &mut Rng) {
    let parts = Parts { w: 2, h: 2, border: 0, levels: vec![1, 4], words: vec![] };
    let mut damaged = blocks::build(&parts);
    (damaged[16], damaged[17]) = (0, 6);
    let same = damaged == blocks::build(&Parts { levels: vec![0, 6], ..parts });
    let case = Case { call: Call::Read, input: damaged, places: Room::exact(rng, 3), ..Case::default() };
    if let Some(outcome) = run.check(&case) {
        let told = !same || outcome.number() != 0;
        run.direct(&case, told.then(|| "the file of other levels was foretold".to_string()));
    }
}
