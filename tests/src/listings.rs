//! Group: the listing program on inputs that are valid, refused or not of the form.

use crate::calls::Call;
use crate::case::{Case, Said};
use crate::pictures::{self, Picture};
use crate::rng::Rng;
use crate::run::Run;

/// How many inputs were printed, refused by a number, and not of the form.
type Met = [u64; 3];

pub fn group(run: &mut Run) {
    let mut met = [0; 3];
    inputs(run, &mut met);
    run.notes.push(format!("listed {}, refused by number {}, not of the form {}", met[0], met[1], met[2]));
}

fn inputs(run: &mut Run, met: &mut Met) {
    // Small ones first, so that a failure shows on a small one.
    for most in 3..=12 {
        run.turns(1_400, |run, rng| any(run, met, rng, most));
    }
    run.turns(60, |run, rng| {
        let side = rng.between(20, 128);
        let picture = pictures::any(rng, side, 128);
        let mut levels = pictures::levels(rng, &picture);
        levels.truncate(9);
        listing(run, met, text(&picture, &levels));
    });
    edges_of_numbers(run, met);
    edges_of_form(run, met);
    edges_of_room(run, met);
}

/// An input of the form, refused or malformed.
fn any(run: &mut Run, met: &mut Met, rng: &mut Rng, most: usize) {
    let (w, h) = pictures::sides(rng, most);
    let picture = pictures::any(rng, w, h);
    let levels = pictures::levels(rng, &picture);
    let mut input = text(&picture, &levels);
    match rng.below(3) {
        0 => {}
        1 => refused(rng, &mut input, &picture, levels),
        _ => malformed(rng, &mut input),
    }
    listing(run, met, input);
}

fn text(picture: &Picture, levels: &[u8]) -> Vec<u8> {
    let levels: Vec<String> = levels.iter().map(u8::to_string).collect();
    with_sides(&levels.join(" "), picture.w, picture.h, &picture.px)
}

fn with_sides(levels: &str, w: usize, h: usize, px: &[u8]) -> Vec<u8> {
    let mut input = format!("{levels}\nP5\n{w} {h}\n255\n").into_bytes();
    input.extend(px);
    input
}

fn listing(run: &mut Run, met: &mut Met, input: Vec<u8>) {
    let case = Case { call: Call::Listing, input, ..Case::default() };
    if let Some(outcome) = run.check(&case) {
        let Said::Listing(printed) = &outcome.said else { return };
        let class = if printed == b"refused input\n" { 2 } else { printed.starts_with(b"refused") as usize };
        met[class] += 1;
        run.direct(&case, (!printed.ends_with(b"\n")).then(|| "the last line has no end".to_string()));
    }
}

/// Of the form, but refused by a number.
fn refused(rng: &mut Rng, input: &mut Vec<u8>, picture: &Picture, mut levels: Vec<u8>) {
    let mut changed = picture.clone();
    match rng.below(4) {
        0 => {
            let place = rng.below(changed.px.len());
            changed.px[place] ^= rng.between(1, 255) as u8;
        }
        1 => {
            let place = rng.below(levels.len() + 1);
            levels.insert(place, rng.byte());
            levels.truncate(255);
        }
        2 => {
            let level = *rng.one_of(&["", "0", "255", "3 3"]);
            let (w, h) =
                *rng.one_of(&[(0, 0), (0, 65535), (65535, 0), (1, 9), (9, 1), (2049, 7), (16384, 1), (3, 5000)]);
            *input = with_sides(level, w, h, &vec![rng.byte(); w * h]);
            return;
        }
        _ => {
            let (w, h) = (rng.below(6), rng.below(6));
            let px: Vec<u8> = (0..w * h).map(|_| rng.below(2) as u8).collect();
            *input = with_sides("0", w, h, &px);
            return;
        }
    }
    *input = text(&changed, &levels);
}

/// Changes the bytes of an input, most often in its head.
fn malformed(rng: &mut Rng, input: &mut Vec<u8>) {
    for _ in 0..rng.between(1, 2) {
        let bound = if rng.once_in(4) { input.len() } else { input.len().min(20) };
        let at = rng.below(bound + 1);
        let byte = *rng.one_of(b"  \n\r\t0123456789+-#P5x\0\xff");
        match rng.below(6) {
            0 | 1 => input.insert(at, byte),
            2 if at < input.len() => drop(input.remove(at)),
            3 => input.truncate(at),
            4 => input.extend(vec![byte; rng.between(1, 3)]),
            _ if at < input.len() => input[at] = byte,
            _ => input.push(byte),
        }
    }
}

/// The most levels, the largest sides, the most samples, and one more of each.
fn edges_of_numbers(run: &mut Run, met: &mut Met) {
    let even = vec![0; 16_384];
    let levels = |count: usize| (0..count).map(|k| k.to_string()).collect::<Vec<_>>().join(" ");
    for count in [0, 1, 254, 255, 256, 257] {
        listing(run, met, with_sides(&levels(count), 2, 2, &even[..4]));
    }
    let tall = [(128, 128), (2048, 8), (8, 2048), (2049, 7), (2049, 8), (127, 129), (129, 128)];
    for (w, h) in tall.into_iter().chain([(16_385, 1), (65_535, 65_535)]) {
        listing(run, met, with_sides("0", w, h, &even[..(w * h).min(even.len())]));
    }
}

/// Heads that are just of the form, or just not.
fn edges_of_form(run: &mut Run, met: &mut Met) {
    let mut listings = |form: &dyn Fn(&str) -> String, parts: &[&str]| {
        parts.iter().for_each(|part| listing(run, met, form(part).into_bytes()));
    };
    let firsts = ["", " ", "0 ", " 0", "0  1", "00", "01", "256", "1000", "-1", "0,1", "0\t1", "0\r", "0 1 2 #", "0x1"];
    listings(&|first| format!("{first}\nP5\n2 2\n255\n\0\0\0\0"), &firsts);
    listings(
        &|first| format!("{first}\nP5\n2 2\n255\n\0\0\0\0"),
        &["18446744073709551617", "255", "254", "9 10", "10 9"],
    );
    let sides =
        ["65536 0", "0 65536", "02 2", "2 02", "2  2", " 2 2", "2 2 ", "+2 2", "2\t2", "2", "99999999999999999999 0"];
    listings(&|sides| format!("0\nP5\n{sides}\n255\n\0\0\0\0"), &sides);
    listings(&|sides| format!("0\nP5\n{sides}\n255\n"), &["65536 0", "0 65536", "0 65535", "99999999999999999999 0"]);
    let cut = ["", "\n", "0", "0\n", "0\nP5", "0\nP5\n", "0\nP5\n2 2", "0\nP5\n2 2\n255", "0\nP5\n2 2\n255\n"];
    listings(&|whole| whole.to_string(), &cut);
    listings(&|letters| format!("0\n{letters}\n2 2\n255\n\0\0\0\0"), &["P5", "P2", "p5", "P6", "P5 ", "P5\n# x"]);
    let maxima = ["255", "254", "256", "0255", "65535", "255 ", "# 255", "255\n"];
    listings(&|maximum| format!("0\nP5\n2 2\n{maximum}\n\0\0\0\0"), &maxima);
}

/// Single samples give four words a level. The room is for 16,384 words.
fn edges_of_room(run: &mut Run, met: &mut Met) {
    for (ones, twos) in [(3969, 0), (3842, 127), (3841, 127), (3840, 129), (3843, 126)] {
        listing(run, met, text(&single_samples(ones, twos), &[0, 1]));
    }
}

/// Samples of 1 and of 2, none beside another.
fn single_samples(ones: usize, twos: usize) -> Picture {
    let mut count = 0;
    Picture::new(128, 128, 0, |x, y| {
        let stands = x % 2 == 1 && y % 2 == 1;
        count += stands as usize;
        match stands {
            true if count <= twos => 2,
            true if count <= ones + twos => 1,
            _ => 0,
        }
    })
}
