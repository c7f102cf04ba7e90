//! Group: every refusal of every call, alone and with others, so that the order is seen.

use crate::blocks::{self, Parts, LIMIT};
use crate::calls::Call;
use crate::case::Case;
use crate::files::write_case;
use crate::lent::Room;
use crate::pgms;
use crate::pictures::{self, Picture};
use crate::rng::Rng;
use crate::run::Run;
use crate::words::{bad_code, good_words};

/// Makes one refusal true of a case, whatever else is true of it.
type Spoil = fn(&mut Case, &mut Rng);

/// A call, a case that is done, and its refusals in their order.
struct Table {
    call: Call,
    base: fn(&mut Rng) -> Case,
    order: &'static [(u32, Spoil)],
}

/// The numbers of the border's edges. Which of them is given goes by the first sample that differs, not by their order.
const EDGES: [u32; 4] = [4, 17, 18, 110];

const TABLES: [Table; 10] = [
    Table {
        call: Call::List,
        base: list_base,
        order: &[
            (1, sides),
            (2, samples),
            (3, levels),
            (4, top),
            (17, bottom),
            (18, left),
            (19, right),
            (5, work),
            (6, places),
        ],
    },
    Table {
        call: Call::Tree,
        base: tree_base,
        order: &[
            (1, sides),
            (2, samples),
            (3, levels),
            (4, top),
            (17, bottom),
            (18, left),
            (19, right),
            (5, work),
            (6, places),
            (7, entries),
        ],
    },
    Table { call: Call::Frame, base: frame_base, order: &[(1, sides), (2, samples), (9, sample_room)] },
    Table {
        call: Call::Crossing,
        base: crossing_base,
        order: &[(1, sides), (2, samples), (3, level), (8, code), (10, flat)],
    },
    Table {
        call: Call::Piece,
        base: piece_base,
        order: &[(1, sides), (2, samples), (3, level), (11, cell), (10, flat)],
    },
    Table { call: Call::Member, base: member_base, order: &[(1, sides), (8, word_code), (11, line_or_sample)] },
    Table { call: Call::Paint, base: paint_base, order: &[(1, sides), (3, levels), (8, word), (9, sample_room)] },
    Table {
        call: Call::Write,
        base: write_base,
        order: &[(1, sides), (3, levels), (16, too_many), (8, word), (15, file_room)],
    },
    Table {
        call: Call::Read,
        base: read_base,
        order: &[(12, length), (13, check), (14, layout), (8, stored_word), (6, places)],
    },
    Table {
        call: Call::Pgm,
        base: pgm_base,
        order: &[(22, header), (1, pgm_side), (9, sample_room), (23, above), (24, missing)],
    },
];

pub fn group(run: &mut Run) {
    run.turns(300, |run, rng| {
        for table in &TABLES {
            for set in 0..1u32 << table.order.len() {
                let heavy = table.order.iter().enumerate().any(|(place, spoil)| spoil.0 == 16 && set >> place & 1 == 1);
                if !heavy || run.first_turn() {
                    all_of(run, rng, table, set);
                }
            }
        }
    });
}

/// The case with all refusals of a set. The first in the order must be given.
fn all_of(run: &mut Run, rng: &mut Rng, table: &Table, set: u32) {
    let mut case = (table.base)(rng);
    let chosen = || table.order.iter().enumerate().filter(|(place, _)| set >> place & 1 == 1).map(|(_, spoil)| spoil);
    chosen().collect::<Vec<_>>().into_iter().rev().for_each(|spoil| spoil.1(&mut case, rng));
    let first = chosen().next().map_or(0, |spoil| spoil.0);
    let expected = if EDGES.contains(&first) { edge(&case) } else { first };
    if let Some(outcome) = run.check(&case) {
        let said = outcome.number();
        let wrong = said != expected;
        let truths: Vec<u32> = chosen().map(|spoil| spoil.0).collect();
        run.direct(&case, wrong.then(|| format!("{said} is given, of {truths:?} in this order")));
    }
}

/// A case that is done, refused in each way that its call knows, one at a time.
pub fn each_refused(case: &Case, rng: &mut Rng) -> Vec<Case> {
    let table = TABLES.iter().find(|table| table.call == case.call);
    let ways = table.map_or(&[][..], |table| table.order);
    let spoilt = ways.iter().map(|(_, spoil)| {
        let mut spoilt = case.clone();
        spoil(&mut spoilt, rng);
        spoilt
    });
    spoilt.collect()
}

/// A picture with an inner sample that differs from the border, and a level between.
fn picture(rng: &mut Rng) -> (Picture, Vec<u8>) {
    let (w, h) = (rng.between(3, 7), rng.between(3, 7));
    let border = rng.byte();
    let picture = Picture::new(w, h, border, |_, _| border.wrapping_add(rng.between(1, 255) as u8));
    let low = border.min(picture.px[w + 1]);
    let mut levels: Vec<u8> = (0..255).filter(|&k| k == low || rng.once_in(60)).collect();
    levels.dedup();
    (picture, levels)
}

fn list_base(rng: &mut Rng) -> Case {
    let (picture, levels) = picture(rng);
    picture.case(Call::List, &levels, rng, Room::enough)
}

fn tree_base(rng: &mut Rng) -> Case {
    let (picture, levels) = picture(rng);
    picture.case(Call::Tree, &levels, rng, Room::enough)
}

fn frame_base(rng: &mut Rng) -> Case {
    let Picture { w, h, px } = picture(rng).0;
    Case { call: Call::Frame, w, h, px, room: Room::enough(rng, w * h), ..Case::default() }
}

/// The edgel west of the first inner sample is crossed.
fn crossing_base(rng: &mut Rng) -> Case {
    let Picture { w, h, px } = picture(rng).0;
    let level = px[0].min(px[w + 1]);
    Case { call: Call::Crossing, w, h, px, level, code: 2 * w as u32, ..Case::default() }
}

fn piece_base(rng: &mut Rng) -> Case {
    Case { call: Call::Piece, ..crossing_base(rng) }
}

fn parts(rng: &mut Rng) -> Parts {
    let (w, h) = pictures::sides(rng, 9);
    let levels: Vec<u8> = (0..255).filter(|&k| k == 77 || rng.once_in(40)).collect();
    let count = rng.between(1, 200);
    let mut words = good_words(rng, w, h, &levels, count);
    words[0] |= 1 << 31;
    Parts { w, h, border: rng.byte(), levels, words }
}

fn member_base(rng: &mut Rng) -> Case {
    let Parts { w, h, words, .. } = parts(rng);
    let (n, x, y) = (0, rng.below(w), rng.below(h));
    Case { call: Call::Member, w, h, words, n, x, y, ..Case::default() }
}

fn paint_base(rng: &mut Rng) -> Case {
    let parts = parts(rng);
    let room = Room::enough(rng, parts.w * parts.h);
    Case { call: Call::Paint, ..write_case(&parts, room) }
}

fn write_base(rng: &mut Rng) -> Case {
    let parts = parts(rng);
    let room = Room::enough(rng, blocks::build(&parts).len());
    write_case(&parts, room)
}

fn read_base(rng: &mut Rng) -> Case {
    let parts = parts(rng);
    let places = Room::enough(rng, parts.words.len());
    Case { call: Call::Read, input: blocks::build(&parts), places, w: parts.w, h: parts.h, ..Case::default() }
}

fn sides(case: &mut Case, rng: &mut Rng) {
    let side = *rng.one_of(&[0, 1, 2049, 4096, 65_536, 1 << 32, usize::MAX]);
    match rng.below(3) {
        0 => case.w = side,
        1 => case.h = side,
        _ => (case.w, case.h) = (side, side),
    }
}

fn samples(case: &mut Case, rng: &mut Rng) {
    match rng.below(4) {
        0 => case.px.push(case.px[0]),
        1 => case.px.clear(),
        2 => case.px.extend(case.px.clone()),
        _ => drop(case.px.pop()),
    }
}

fn levels(case: &mut Case, rng: &mut Rng) {
    match rng.below(4) {
        0 => case.levels.push(255),
        1 => case.levels.push(case.levels[0]),
        2 => case.levels.insert(0, 254),
        _ => case.levels = vec![7; 256],
    }
}

fn level(case: &mut Case, _rng: &mut Rng) {
    case.level = 255;
}

/// One sample of the border is another. Sides are at least 3, so every edge has a sample that is no corner.
fn hot(case: &mut Case, rng: &mut Rng, x: usize, y: usize) {
    case.px[y * case.w + x] ^= rng.between(1, 255) as u8;
}

fn top(case: &mut Case, rng: &mut Rng) {
    let x = rng.below(case.w);
    hot(case, rng, x, 0);
}

fn bottom(case: &mut Case, rng: &mut Rng) {
    let x = rng.below(case.w);
    hot(case, rng, x, case.h - 1);
}

fn left(case: &mut Case, rng: &mut Rng) {
    let y = rng.between(1, case.h - 2);
    hot(case, rng, 0, y);
}

fn right(case: &mut Case, rng: &mut Rng) {
    let y = rng.between(1, case.h - 2);
    hot(case, rng, case.w - 1, y);
}

/// The number for the border of a case: that of the edge on which the first sample is that differs from sample 0.
fn edge(case: &Case) -> u32 {
    let (w, h) = (case.w, case.h);
    let differs = |place: &usize| case.px[*place] != case.px[0];
    let number = |place: usize| match (place % w, place / w) {
        (_, 0) => Some(4),
        (_, y) if y == h - 1 => Some(17),
        (0, _) => Some(18),
        (x, _) if x == w - 1 => Some(19),
        _ => None,
    };
    (0..w * h).filter(differs).find_map(number).expect("a border that is not all one value")
}

fn shorter(room: &mut Room, needed: usize, rng: &mut Rng) {
    room.size = if rng.once_in(2) { needed - 1 } else { rng.below(needed) };
}

fn work(case: &mut Case, rng: &mut Rng) {
    shorter(&mut case.work, case.w * case.h, rng);
}

fn sample_room(case: &mut Case, rng: &mut Rng) {
    shorter(&mut case.room, case.w * case.h, rng);
}

/// So few places that they are too few even when other refusals change the need.
fn places(case: &mut Case, rng: &mut Rng) {
    case.places.size = rng.below(1 + (case.call != Call::Read) as usize);
}

fn entries(case: &mut Case, _rng: &mut Rng) {
    case.entries.size = 0;
}

fn file_room(case: &mut Case, rng: &mut Rng) {
    shorter(&mut case.room, 512 * (1 + case.words.len().div_ceil(127)), rng);
}

fn code(case: &mut Case, rng: &mut Rng) {
    let high_bits = (rng.between(1, 511) as u32) << 23;
    case.code = if rng.once_in(2) { bad_code(rng, case.w, case.h) } else { case.code + high_bits };
}

fn flat(case: &mut Case, _rng: &mut Rng) {
    let value = case.px[0];
    case.px.fill(value);
}

fn cell(case: &mut Case, rng: &mut Rng) {
    match rng.below(3) {
        0 => case.x = *rng.one_of(&[case.w - 1, case.w, usize::MAX]),
        1 => case.y = *rng.one_of(&[case.h - 1, case.h, usize::MAX]),
        _ => (case.x, case.y) = (usize::MAX, usize::MAX),
    }
}

fn word_code(case: &mut Case, rng: &mut Rng) {
    let place = rng.below(case.words.len());
    case.words[place] = bad_code(rng, case.w, case.h) | case.words[place] & 0xFF80_0000;
}

/// A bad code, or a level that is not listed.
fn word(case: &mut Case, rng: &mut Rng) {
    let place = rng.below(case.words.len());
    match rng.once_in(2) {
        true => word_code(case, rng),
        false => case.words[place] |= 255 << 23,
    }
}

fn line_or_sample(case: &mut Case, rng: &mut Rng) {
    match rng.below(4) {
        0 => case.n = usize::MAX,
        1 => case.n = case.words.len(),
        2 => case.x = *rng.one_of(&[case.w, usize::MAX]),
        _ => case.y = *rng.one_of(&[case.h, usize::MAX]),
    }
}

fn too_many(case: &mut Case, _rng: &mut Rng) {
    case.words.resize(LIMIT + 1, case.words[0]);
}

fn stored_word(case: &mut Case, rng: &mut Rng) {
    let words = (case.input.len() / 512 - 1) * 127;
    let stored = u32::from_le_bytes([case.input[12], case.input[13], case.input[14], case.input[15]]) as usize;
    let at = blocks::word_at(rng.below(stored.min(words)));
    let bad = bad_code(rng, case.w, case.h) | 77 << 23;
    case.input[at..at + 4].copy_from_slice(&bad.to_le_bytes());
    blocks::stamp(&mut case.input);
}

fn layout(case: &mut Case, rng: &mut Rng) {
    blocks::break_layout(&mut case.input, rng);
}

fn check(case: &mut Case, rng: &mut Rng) {
    let at = rng.below(case.input.len());
    case.input[at] ^= 1 << rng.below(8);
}

fn length(case: &mut Case, rng: &mut Rng) {
    match rng.below(3) {
        0 => case.input.clear(),
        1 => case.input.truncate(case.input.len() - rng.between(1, 511)),
        _ => case.input.push(0),
    }
}

/// Both forms, written plainly, so that the parts below are easily found. A sample of P5 can be above its maximum.
fn pgm_base(rng: &mut Rng) -> Case {
    let mut parts = pgms::some_parts(rng);
    parts.maximum = parts.maximum.min(254);
    parts.px.iter_mut().for_each(|sample| *sample = (*sample).min(parts.maximum));
    pgm_case(&parts, rng)
}

/// The file of these parts, and room for its samples.
pub fn pgm_case(parts: &pgms::Parts, rng: &mut Rng) -> Case {
    let (w, h) = (parts.w, parts.h);
    let mut input = format!("P{} {w} {h} {}\n", if parts.plain { 2 } else { 5 }, parts.maximum).into_bytes();
    match parts.plain {
        true => parts.px.iter().for_each(|sample| input.extend(format!("{sample} ").bytes())),
        false => input.extend(&parts.px),
    }
    Case { call: Call::Pgm, w, h, input, room: Room::enough(rng, w * h), ..Case::default() }
}

/// The bytes of a header's word: 0 the magic, 3 the maximum, 4 the first sample of P2.
fn word_at(input: &[u8], n: usize) -> std::ops::Range<usize> {
    let mut at = 0;
    for word in 0.. {
        let start = at + input[at..].iter().take_while(|byte| byte.is_ascii_whitespace()).count();
        let end = start + input[start..].iter().take_while(|byte| !byte.is_ascii_whitespace()).count();
        if word == n {
            return start..end;
        }
        at = end;
    }
    unreachable!()
}

fn header(case: &mut Case, rng: &mut Rng) {
    match rng.below(3) {
        0 => case.input[1] = b'6',
        _ => drop(case.input.splice(word_at(&case.input, 3), rng.one_of(&["0", "000", "256", "65535"]).bytes())),
    }
}

fn pgm_side(case: &mut Case, rng: &mut Rng) {
    let side = word_at(&case.input, rng.between(1, 2));
    case.input.splice(side, rng.one_of(&["0", "1", "2049", "99999999999999999999999"]).bytes());
}

fn above(case: &mut Case, _rng: &mut Rng) {
    let maximum = word_at(&case.input, 3);
    let digits = case.input[maximum.clone()].iter();
    let above = digits.fold(0, |number, digit| number * 10 + (digit - b'0') as usize) + 1;
    match case.input[1] {
        b'2' => drop(case.input.splice(word_at(&case.input, 4), above.to_string().bytes())),
        _ => case.input[maximum.end + 1] = above as u8,
    }
}

/// The last sample is not there.
fn missing(case: &mut Case, rng: &mut Rng) {
    if case.input[1] == b'2' {
        case.input.pop();
        while case.input.last().is_some_and(u8::is_ascii_digit) {
            case.input.pop();
        }
        if rng.once_in(2) {
            case.input.extend(b"#9\n1");
        }
    } else {
        case.input.pop();
    }
}
