//! The times of one picture at some levels.

use std::hint::black_box;

use crate::desk::{Call, Desk};
use crate::library;
use crate::pictures::{levels, Picture};
use crate::plain;
use crate::timing::{once, Pace};

/// Seconds a tree may take to be timed.
const TREE_LIMIT: f64 = 5.0;

/// What was seen; times in seconds.
pub struct Figures {
    pub picture: &'static str,
    pub side: usize,
    pub samples: usize,
    pub levels: usize,
    pub words: usize,
    pub lines: usize,
    pub list: f64,
    pub comparison: f64,
    pub paint: Beside,
    /// None where it would take too long.
    pub tree: Option<Beside>,
    /// None where the list is too long for a file, or empty.
    pub file: Option<FileFigures>,
    /// One pass over all samples for each level; only for a picture where nothing is crossed.
    pub passes: Option<f64>,
}

/// A call, timed in turns with listing.
pub struct Beside {
    pub time: f64,
    list: f64,
}

impl Beside {
    /// The call's time against listing.
    pub fn ratio(&self) -> f64 {
        self.time / self.list
    }
}

pub struct FileFigures {
    pub bytes: usize,
    pub write: f64,
    pub read: f64,
    pub check: f64,
    pub plain: f64,
}

/// Framing, timed in turns with a plain copy of the samples; times in seconds.
pub struct Framing {
    pub picture: &'static str,
    pub samples: usize,
    pub frame: f64,
    pub copy: f64,
}

/// Everything about a picture, at each number of levels.
pub fn whole(picture: &Picture, counts: &[usize], pace: Pace) -> Vec<Figures> {
    let mut seen: Vec<Figures> = Vec::new();
    for &count in counts {
        eprintln!("bench: {}, levels: {count}", picture.name);
        let mut desk = Desk::new(picture, levels(count));
        let mut figures = lists(picture, &mut desk, count, pace);
        if desk.words() == 0 {
            let [passes] = pace.share(0.3).least([Call::Passes], |call| desk.run(call));
            figures.passes = Some(passes);
        } else {
            figures.file = file(&mut desk, pace.share(0.5));
            // The tree takes about as long a word as it took for fewer levels.
            let before = seen.last().map_or(Some(0.0), |f| Some(f.tree.as_ref()?.time / f.words as f64));
            if before.is_some_and(|word| word * (figures.words as f64) < TREE_LIMIT) {
                figures.tree = Some(beside(&mut desk, Call::Tree, pace.share(0.3)));
            }
        }
        seen.push(figures);
    }
    seen
}

/// Framing a picture that has a constant border: what comes out is the picture itself.
pub fn framing(picture: &Picture, pace: Pace) -> Framing {
    eprintln!("bench: {}, framing", picture.name);
    let (w, h, px) = (picture.w, picture.h, &picture.px);
    let mut room = vec![0; picture.samples()];
    let answer = library::frame(w, h, px, &mut room);
    assert!(answer.number == 0 && room == *px, "{} is not framed right", picture.name);
    let [frame, copy] = pace.share(0.5).least([true, false], |frames| {
        if frames {
            black_box(library::frame(w, h, px, &mut room));
        } else {
            plain::copy(black_box(px), black_box(&mut room));
        }
    });
    Framing { picture: picture.name, samples: picture.samples(), frame, copy }
}

/// Reading PGM files, timed in turns with a plain copy of the samples and a plain parser of the text; times in seconds.
pub struct Reading {
    pub picture: &'static str,
    /// Of the plain file.
    pub bytes: usize,
    pub binary: f64,
    /// The binary file with a maximum below 255, so that samples are looked at.
    pub below: f64,
    pub copy: f64,
    pub plain: f64,
    pub parser: f64,
}

/// The picture as PGM files of both forms.
pub fn reading(picture: &Picture, pace: Pace) -> Reading {
    eprintln!("bench: {}, PGM files", picture.name);
    let below: Vec<u8> = picture.px.iter().map(|&v| v.min(254)).collect();
    let head = |form: usize, most: usize| format!("P{form}\n{} {}\n{most}\n", picture.w, picture.h).into_bytes();
    let files = [[head(5, 255), picture.px.clone()].concat(), [head(5, 254), below.clone()].concat()];
    let rows = picture.px.chunks(17).map(|row| row.iter().map(|v| format!("{v} ")).collect::<String>() + "\n");
    let (start, text) = (head(2, 255).len(), [head(2, 255), rows.collect::<String>().into_bytes()].concat());
    let mut room = vec![0; picture.samples()];
    for (file, due) in [(&files[0], &picture.px), (&files[1], &below), (&text, &picture.px)] {
        assert!(library::pgm(file, &mut room).answer.number == 0 && room == *due, "a PGM is not read right");
    }
    let [binary, below, copy] = pace.share(0.4).least([0, 1, 2], |call| match call {
        0 | 1 => drop(black_box(library::pgm(&files[call], &mut room))),
        _ => plain::copy(black_box(&picture.px), black_box(&mut room)),
    });
    let [plain, parser] = pace.share(0.4).least([true, false], |reads| match reads {
        true => drop(black_box(library::pgm(&text, &mut room))),
        false => assert!(plain::parse(black_box(&text[start..]), 255, black_box(&mut room)) == 0),
    });
    Reading { picture: picture.name, bytes: text.len(), binary, below, copy, plain, parser }
}

/// How listing, painting and the tree grow: the middle of a picture at several sizes.
pub fn growth(picture: &Picture, sides: &[usize], count: usize, pace: Pace) -> Vec<Figures> {
    let grown = sides.iter().map(|&side| {
        eprintln!("bench: {}, levels: {count}, side: {side}", picture.name);
        let part = picture.middle(side);
        let mut desk = Desk::new(&part, levels(count));
        let mut figures = lists(&part, &mut desk, count, pace.share(0.4));
        figures.tree = Some(beside(&mut desk, Call::Tree, pace.share(0.3)));
        figures
    });
    grown.collect()
}

/// Listing, the comparison and painting.
fn lists(picture: &Picture, desk: &mut Desk, count: usize, pace: Pace) -> Figures {
    let lines = desk.check_list();
    let [list, comparison] = pace.share(0.6).least([Call::List, Call::Comparison], |call| desk.run(call));
    let paint = beside(desk, Call::Paint, pace.share(0.4));
    Figures {
        picture: picture.name,
        side: picture.w,
        samples: picture.samples(),
        levels: count,
        words: desk.words(),
        lines,
        list,
        comparison,
        paint,
        tree: None,
        file: None,
        passes: None,
    }
}

fn file(desk: &mut Desk, pace: Pace) -> Option<FileFigures> {
    if !desk.check_file() {
        return None;
    }
    let calls = [Call::Write, Call::Read, Call::Check, Call::PlainCheck];
    let [write, read, check, plain] = pace.least(calls, |call| desk.run(call));
    Some(FileFigures { bytes: desk.file().len(), write, read, check, plain })
}

/// A call in turns with listing; only once where that takes long.
fn beside(desk: &mut Desk, call: Call, pace: Pace) -> Beside {
    let first = once(|| desk.run(call)).process;
    let pace = if first > pace.seconds { Pace { at_least: 1, ..pace } } else { pace };
    let [list, time] = pace.least([Call::List, call], |call| desk.run(call));
    Beside { time, list }
}
