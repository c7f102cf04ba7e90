//! Group: outline files, written, read back, and damaged in every way.

use crate::blocks::{self, Parts, BLOCK};
use crate::calls::Call;
use crate::case::{Case, Outcome, Said};
use crate::lent::Room;
use crate::pictures;
use crate::rng::Rng;
use crate::run::Run;
use crate::words::{bad_code, good_words};

pub fn group(run: &mut Run) {
    // Short ones first, so that a failure shows on a short one.
    for count in [0, 1, 2, 126, 127, 128, 200] {
        run.turns(70, |run, rng| {
            let parts = some_parts(rng, count);
            let file = blocks::build(&parts);
            write_and_read(run, rng, &parts, &file);
            (0..file.len()).for_each(|at| one_byte(run, rng, &file, at));
        });
    }
    for count in [0, 3, 127, 254, 255, 700, 3_000] {
        run.turns(450, |run, rng| {
            let parts = some_parts(rng, count);
            let file = blocks::build(&parts);
            write_and_read(run, rng, &parts, &file);
            damages(run, rng, &parts, &file);
        });
    }
    run.turns(6_000, |run, rng| {
        let blocks = rng.below(4);
        let mut file: Vec<u8> = (0..BLOCK * blocks).map(|_| rng.byte()).collect();
        if rng.once_in(2) {
            blocks::stamp(&mut file);
        } else {
            file.resize(file.len() + rng.below(600), 0);
        }
        read(run, rng, &file, 300);
    });
}

/// Parts that writing lets through.
pub fn some_parts(rng: &mut Rng, count: usize) -> Parts {
    let (w, h) = match rng.below(4) {
        0 => (2048, 2048),
        1 => (rng.between(2, 2048), rng.between(2, 2048)),
        _ => pictures::sides(rng, 9),
    };
    let levels: Vec<u8> = match rng.below(5) {
        0 => pictures::all_levels(),
        1 => vec![rng.below(255) as u8],
        _ => (0..255).filter(|_| rng.once_in(9)).collect(),
    };
    let words = good_words(rng, w, h, &levels, count);
    Parts { w, h, border: rng.byte(), levels, words }
}

pub fn write_case(parts: &Parts, room: Room) -> Case {
    let Parts { w, h, border, levels, words } = parts.clone();
    Case { call: Call::Write, w, h, border, levels, words, room, ..Case::default() }
}

/// What reading the file of these parts must say and hand over.
fn reads_back(parts: &Parts, outcome: &Outcome) -> bool {
    let Said::Read(read) = &outcome.said else { return false };
    let lines = parts.words.iter().filter(|&&word| word >> 31 == 1).count() as u64;
    let count = parts.levels.len();
    read.answer.number == 0
        && read.answer.lines == lines
        && (read.w as usize, read.h as usize, read.border, read.count as usize)
            == (parts.w, parts.h, parts.border as u32, count)
        && read.levels[..count] == parts.levels
        && read.levels[count..].iter().all(|&level| level == 0)
        && outcome.words() == parts.words
}

fn write_and_read(run: &mut Run, rng: &mut Rng, parts: &Parts, file: &[u8]) {
    let case = write_case(parts, Room::about(rng, file.len()));
    if let Some(outcome) = run.check(&case) {
        let wrong = outcome.number() == 0 && outcome.room[..file.len()] != *file;
        run.direct(&case, wrong.then(|| "the file is not of the layout".to_string()));
    }
    let case = Case { call: Call::Read, input: file.to_vec(), ..Case::default() };
    let case = Case { places: Room::enough(rng, parts.words.len()), ..case };
    if let Some(outcome) = run.check(&case) {
        run.direct(&case, (!reads_back(parts, &outcome)).then(|| "the file does not read back".to_string()));
    }
    run.check(&Case { places: Room::about(rng, parts.words.len()), ..case });
}

/// Reads any file. A file that is taken must be the one that writing makes of what was read.
fn read(run: &mut Run, rng: &mut Rng, file: &[u8], places: usize) -> Option<Outcome> {
    let case = Case { call: Call::Read, input: file.to_vec(), places: Room::about(rng, places), ..Case::default() };
    let outcome = run.check(&case)?;
    if let (Said::Read(read), 0) = (&outcome.said, outcome.number()) {
        let levels = read.levels[..read.count as usize].to_vec();
        let (w, h, border) = (read.w as usize, read.h as usize, read.border as u8);
        let parts = Parts { w, h, border, levels, words: outcome.words().to_vec() };
        let written = write_case(&parts, Room::exact(rng, file.len())).run(run.subject);
        let wrong = blocks::build(&parts) != file || written.number() != 0 || written.room != file;
        run.direct(&case, wrong.then(|| "a file that writing does not make was taken".to_string()));
    }
    Some(outcome)
}

/// One byte changed to some other value: its block is refused.
fn one_byte(run: &mut Run, rng: &mut Rng, file: &[u8], at: usize) {
    if run.over() {
        return;
    }
    let mut input = file.to_vec();
    input[at] ^= rng.between(1, 255) as u8;
    let case = Case { call: Call::Read, input, places: Room::exact(rng, 200), ..Case::default() };
    if let Some(outcome) = run.check(&case) {
        let refused = outcome.said.answer().is_some_and(|a| a.number == 13 && a.place == (at / BLOCK) as u64);
        run.direct(&case, (!refused).then(|| format!("byte {at} was changed, and its block is not refused")));
    }
}

/// Larger damage, with the checks left as they are or set right again.
fn damages(run: &mut Run, rng: &mut Rng, parts: &Parts, file: &[u8]) {
    let words = parts.words.len();
    for _ in 0..20 {
        let at = rng.below(file.len());
        one_byte(run, rng, file, at);
    }
    for _ in 0..12 {
        let mut damaged = file.to_vec();
        damage_blocks(&mut damaged, rng);
        if rng.once_in(2) {
            blocks::stamp(&mut damaged);
        }
        read(run, rng, &damaged, words);
    }
    for _ in 0..8 {
        let mut damaged = file.to_vec();
        let at = rng.below(file.len());
        damaged[at] = rng.byte();
        blocks::stamp(&mut damaged);
        read(run, rng, &damaged, words);
    }
    let mut broken = file.to_vec();
    blocks::break_layout(&mut broken, rng);
    read(run, rng, &broken, words);
    if words > 0 {
        let mut bad = parts.clone();
        for _ in 0..rng.between(1, 3) {
            let place = rng.below(words);
            let level = bad.words[place] & 0xFF80_0000;
            bad.words[place] = if rng.once_in(2) { bad_code(rng, parts.w, parts.h) | level } else { rng.next() as u32 };
        }
        run.check(&write_case(&bad, Room::about(rng, file.len())));
        read(run, rng, &blocks::build(&bad), words);
    }
}

/// Blocks exchanged, doubled, cut out or appended, and files cut anywhere.
fn damage_blocks(file: &mut Vec<u8>, rng: &mut Rng) {
    let blocks = file.len() / BLOCK;
    let (a, b) = (rng.below(blocks), rng.below(blocks));
    let block: Vec<u8> = file[a * BLOCK..(a + 1) * BLOCK].to_vec();
    match rng.below(7) {
        0 => (0..BLOCK).for_each(|byte| file.swap(a * BLOCK + byte, b * BLOCK + byte)),
        1 => drop(file.splice(b * BLOCK..b * BLOCK, block)),
        2 => drop(file.drain(a * BLOCK..(a + 1) * BLOCK)),
        3 => file.extend(block),
        4 => file.resize(file.len() + BLOCK, 0),
        5 => file.truncate(rng.below(file.len() + 1)),
        _ => file[b * BLOCK..(b + 1) * BLOCK].copy_from_slice(&block),
    }
}
