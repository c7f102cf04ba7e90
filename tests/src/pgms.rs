//! Group: PGM files of both forms, with all that a header may hold, and damaged in every way.

use crate::calls::Call;
use crate::case::{Case, Said};
use crate::lent::Room;
use crate::pictures;
use crate::rng::Rng;
use crate::run::Run;

/// What a file is of.
#[derive(Clone)]
pub struct Parts {
    pub plain: bool,
    pub w: usize,
    pub h: usize,
    pub maximum: u8,
    pub px: Vec<u8>,
}

pub fn group(run: &mut Run) {
    short_texts(run);
    run.turns(3_000, |run, rng| {
        let parts = some_parts(rng);
        for plain in [false, true] {
            let parts = Parts { plain, ..parts.clone() };
            let file = build(rng, &parts);
            reads(run, rng, &parts, &file);
            let more = [&file[..], if plain { b" 9x#" } else { b"9 #\n" }].concat();
            reads(run, rng, &parts, &more);
            (0..12).for_each(|_| damaged(run, rng, &parts, &file));
        }
    });
    run.turns(40, long_numbers);
    run.turns(3_000, |run, rng| {
        let length = rng.below(40);
        let input = (0..length).map(|_| *rng.one_of(b"P52P5 \t\n\r#0123456789 x\x0b")).collect();
        check(run, rng, input, 6);
    });
}

/// Any parts that a file can have.
pub fn some_parts(rng: &mut Rng) -> Parts {
    let (w, h) = if rng.once_in(40) { (rng.between(2, 300), rng.between(2, 300)) } else { pictures::sides(rng, 6) };
    let maximum = *rng.one_of(&[1, 2, 9, 10, 15, 99, 100, 127, 254, 255, 255]);
    let px = (0..w * h).map(|_| if rng.once_in(4) { maximum } else { rng.below(maximum as usize + 1) as u8 }).collect();
    Parts { plain: rng.once_in(2), w, h, maximum, px }
}

/// A file of these parts: any white space, comments, leading zeros.
pub fn build(rng: &mut Rng, parts: &Parts) -> Vec<u8> {
    let mut file = if parts.plain { b"P2".to_vec() } else { b"P5".to_vec() };
    for number in [parts.w, parts.h, parts.maximum as usize] {
        gap(rng, &mut file);
        digits(rng, &mut file, number);
    }
    file.push(*rng.one_of(b" \t\n\r"));
    for (at, &sample) in parts.px.iter().enumerate() {
        if !parts.plain {
            file.push(sample);
            continue;
        }
        // No white space is due before the first: one byte of it ended the header.
        let least = (at > 0) as usize;
        for _ in 0..least + rng.below(3) * rng.below(2) {
            file.push(*rng.one_of(b" \n\t\r"));
        }
        digits(rng, &mut file, sample as usize);
    }
    file
}

/// White space and comments, at least one of them.
fn gap(rng: &mut Rng, file: &mut Vec<u8>) {
    for _ in 0..=rng.below(3) * rng.below(2) {
        if rng.once_in(3) {
            file.push(b'#');
            for _ in 0..rng.below(5) {
                file.push(*rng.one_of(b"c 1#\t\x00\xffP"));
            }
            file.push(*rng.one_of(b"\n\r"));
        } else {
            file.push(*rng.one_of(b" \t\n\r"));
        }
    }
}

/// A number, at times with leading zeros.
fn digits(rng: &mut Rng, file: &mut Vec<u8>, number: usize) {
    let zeros = if rng.once_in(6) { rng.below(4) } else { 0 };
    file.extend(format!("{}{number}", "0".repeat(zeros)).bytes());
}

fn case_of(input: Vec<u8>, room: Room) -> Case {
    Case { call: Call::Pgm, input, room, ..Case::default() }
}

fn check(run: &mut Run, rng: &mut Rng, input: Vec<u8>, samples: usize) {
    run.check(&case_of(input, Room::about(rng, samples)));
}

/// The file is read as its parts, which both forms of it hand back alike.
fn reads(run: &mut Run, rng: &mut Rng, parts: &Parts, file: &[u8]) {
    let count = parts.w * parts.h;
    let case = case_of(file.to_vec(), Room::enough(rng, count));
    if let Some(outcome) = run.check(&case) {
        let said = match outcome.said {
            Said::Pgm(grey) => (grey.answer.number, grey.w as usize, grey.h as usize, grey.maximum as u8),
            _ => (1, 0, 0, 0),
        };
        let wrong = said != (0, parts.w, parts.h, parts.maximum) || outcome.room[..count] != parts.px;
        run.direct(&case, wrong.then(|| "the file is not read as the picture that it is of".to_string()));
    }
    check(run, rng, file.to_vec(), count);
}

/// A few bytes changed, put in, taken out or cut off, the header more often than the samples.
fn damaged(run: &mut Run, rng: &mut Rng, parts: &Parts, file: &[u8]) {
    let mut input = file.to_vec();
    for _ in 0..rng.between(1, 2) {
        let most = if rng.once_in(2) { input.len() } else { input.len().min(24) };
        let at = rng.below(most + 1);
        let byte = if rng.once_in(3) { rng.byte() } else { *rng.one_of(b"P52 \t\n\r#0199x\x0b\x0c-") };
        match rng.below(4) {
            0 if at < input.len() => input[at] = byte,
            1 => input.insert(at, byte),
            2 if at < input.len() => drop(input.remove(at)),
            _ => input.truncate(at),
        }
    }
    check(run, rng, input, parts.w * parts.h);
}

/// Numbers of very many digits, as a side, as the maximum and as a sample.
fn long_numbers(run: &mut Run, rng: &mut Rng) {
    let many = rng.between(1, 70_000);
    let zeros = "0".repeat(many);
    let nines = "9".repeat(many);
    for number in [format!("{zeros}2"), format!("{nines}2"), format!("1{zeros}2"), zeros] {
        for text in [
            format!("P2 {number} 2 9 1 2 3 4"),
            format!("P2 2 {number} 9 1 2 3 4"),
            format!("P2 2 2 {number} 1 2 3 4"),
            format!("P2 2 2 9 1 2 {number} 4"),
            format!("P5 2 2 {number}"),
        ] {
            check(run, rng, text.into_bytes(), 4);
        }
    }
}

/// Every short text after some beginnings.
fn short_texts(run: &mut Run) {
    const BYTES: &[u8] = b"P52 #\n019x\r";
    let mut rng = run.rng();
    let mut index = 0;
    for start in
        ["", "P", "P5", "P2 2", "P5 2 2", "P2 2 2 ", "P5 2 2 1", "P2 2 2 9 1 0 1", "P5 2 2 48 1 0", "P2 2 2 9 1 0 1 "]
    {
        for length in 0..=4u32 {
            for number in 0..BYTES.len().pow(length) {
                index += 1;
                if !run.takes(index) {
                    continue;
                }
                let tail = (0..length).map(|at| BYTES[number / BYTES.len().pow(at) % BYTES.len()]);
                check(run, &mut rng, start.bytes().chain(tail).collect(), 4);
            }
        }
    }
}
