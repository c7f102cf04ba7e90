//! A case: one call with all it takes. An outcome: all it says and leaves.

use std::fmt;
use std::panic::{self, catch_unwind, AssertUnwindSafe};
use std::sync::atomic::{AtomicBool, Ordering};

use second::{Answer, Grey, Read};

use crate::calls::{Call, Calls, Part, Shape};
use crate::lent::{Lent, Room};
use crate::show::show;

/// One call. Fields that the call does not take stay empty.
#[derive(Clone, Default, PartialEq)]
pub struct Case {
    pub call: Call,
    pub w: usize,
    pub h: usize,
    pub px: Vec<u8>,
    pub levels: Vec<u8>,
    pub words: Vec<u32>,
    /// A file to read, or the input of the listing.
    pub input: Vec<u8>,
    pub level: u8,
    pub border: u8,
    pub code: u32,
    pub n: usize,
    pub x: usize,
    pub y: usize,
    /// Work bytes of list and tree.
    pub work: Room,
    /// Word places of list, tree and reading.
    pub places: Room,
    /// Tree places.
    pub entries: Room,
    /// Sample room of framing, painting and reading a PGM, file room of writing.
    pub room: Room,
}

/// What a call says. Floats are kept as bits.
#[derive(Clone, PartialEq)]
pub enum Said {
    Plain(Answer),
    Crossing { answer: Answer, heading: u32, num: u32, den: u32, x: u64, y: u64 },
    Piece { answer: Answer, kind: u32, floats: [u64; 3] },
    Part(Part),
    Member(Answer, bool),
    Read(Box<Read>),
    Pgm(Grey),
    Listing(Vec<u8>),
    Panicked,
}

/// What a call says and what it leaves in lent memory.
#[derive(Clone, PartialEq)]
pub struct Outcome {
    pub said: Said,
    pub work: Vec<u8>,
    pub places: Vec<u32>,
    pub entries: Vec<u32>,
    pub room: Vec<u8>,
    pub guards_whole: bool,
    /// No lent memory is changed.
    pub unchanged: bool,
}

impl Said {
    /// The answer in it, for calls that have one.
    pub fn answer(&self) -> Option<Answer> {
        match self {
            Said::Plain(answer) | Said::Member(answer, _) => Some(*answer),
            Said::Crossing { answer, .. } | Said::Piece { answer, .. } => Some(*answer),
            Said::Read(read) => Some(read.answer),
            Said::Pgm(grey) => Some(grey.answer),
            Said::Part(_) | Said::Listing(_) | Said::Panicked => None,
        }
    }
}

impl Outcome {
    pub fn number(&self) -> u32 {
        self.said.answer().map_or(0, |answer| answer.number)
    }

    /// Was any memory lent?
    pub fn lent(&self) -> bool {
        !(self.work.is_empty() && self.places.is_empty() && self.entries.is_empty() && self.room.is_empty())
    }

    /// The words that list, tree or reading handed over.
    pub fn words(&self) -> &[u32] {
        let count = self.said.answer().map_or(0, |answer| answer.words as usize);
        &self.places[..count.min(self.places.len())]
    }
}

/// Is a call of a case at work?
static IN_CASE: AtomicBool = AtomicBool::new(false);

/// A call that panics is a failing case and is shown as one. Only other panics are printed.
pub fn panics_in_cases_are_silent() {
    let print = panic::take_hook();
    panic::set_hook(Box::new(move |info| {
        if !IN_CASE.load(Ordering::Relaxed) {
            print(info);
        }
    }));
}

/// A piece with the bits of its floats.
pub fn piece_bits(shape: Shape) -> Said {
    let Shape { answer, kind, floats } = shape;
    Said::Piece { answer, kind, floats: floats.map(f64::to_bits) }
}

impl Case {
    /// Runs the call with guarded memory.
    pub fn run(&self, calls: &dyn Calls) -> Outcome {
        let mut work = Lent::new(self.work);
        let mut places = Lent::new(self.places);
        let mut entries = Lent::new(self.entries);
        let mut room = Lent::new(self.room);
        IN_CASE.store(true, Ordering::Relaxed);
        let said =
            catch_unwind(AssertUnwindSafe(|| self.say(calls, work.part(), places.part(), entries.part(), room.part())));
        IN_CASE.store(false, Ordering::Relaxed);
        let guards = [work.guards_whole(), places.guards_whole(), entries.guards_whole(), room.guards_whole()];
        let unchanged = work.unchanged() && places.unchanged() && entries.unchanged() && room.unchanged();
        Outcome {
            said: said.unwrap_or(Said::Panicked),
            work: work.after(),
            places: places.after(),
            entries: entries.after(),
            room: room.after(),
            guards_whole: guards == [true; 4],
            unchanged,
        }
    }

    /// How much there is to read in it.
    pub fn size(&self) -> usize {
        let lists = self.px.len() + self.levels.len() + self.words.len() + self.input.len();
        lists + self.rooms().map(|(_, room)| room.size).sum::<usize>()
    }

    /// The rooms that have places, by name.
    fn rooms(&self) -> impl Iterator<Item = (&'static str, Room)> {
        let names = ["work", "places", "entries", "room"];
        let rooms = [self.work, self.places, self.entries, self.room];
        names.into_iter().zip(rooms).filter(|(_, room)| room.size > 0)
    }

    fn say(
        &self, calls: &dyn Calls, work: &mut [u8], places: &mut [u32], entries: &mut [u32], room: &mut [u8],
    ) -> Said {
        let (w, h, px, levels, words) = (self.w, self.h, &self.px[..], &self.levels[..], &self.words[..]);
        match self.call {
            Call::List => Said::Plain(calls.list(w, h, px, levels, work, places)),
            Call::Tree => Said::Plain(calls.tree(w, h, px, levels, work, places, entries)),
            Call::Frame => Said::Plain(calls.frame(w, h, px, room)),
            Call::Paint => Said::Plain(calls.paint(w, h, self.border, levels, words, room)),
            Call::Write => Said::Plain(calls.write(w, h, self.border, levels, words, room)),
            Call::Crossing => {
                let c = calls.crossing(w, h, px, self.level, self.code);
                let (x, y) = (c.x.to_bits(), c.y.to_bits());
                Said::Crossing { answer: c.answer, heading: c.heading, num: c.num, den: c.den, x, y }
            }
            Call::Piece => piece_bits(calls.piece(w, h, px, self.level, self.x, self.y)),
            Call::LinePart => Said::Part(calls.line_part(words, self.n)),
            Call::Member => {
                let (answer, inside) = calls.member(w, h, words, self.n, self.x, self.y);
                Said::Member(answer, inside)
            }
            Call::Read => Said::Read(Box::new(calls.read(&self.input, places))),
            Call::Pgm => Said::Pgm(calls.pgm(&self.input, room)),
            Call::Listing => Said::Listing(calls.listing(&self.input)),
        }
    }
}

impl fmt::Display for Case {
    fn fmt(&self, f: &mut fmt::Formatter) -> fmt::Result {
        use Call::*;
        let takes = |calls: &[Call]| calls.contains(&self.call);
        write!(f, "{:?}", self.call)?;
        if !takes(&[LinePart, Read, Pgm, Listing]) {
            write!(f, " w {} h {}", self.w, self.h)?;
        }
        if takes(&[List, Tree, Frame, Crossing, Piece]) {
            write!(f, " samples {}", show(&self.px))?;
        }
        if takes(&[Paint, Write]) {
            write!(f, " border {}", self.border)?;
        }
        if takes(&[List, Tree, Paint, Write]) {
            write!(f, " levels {}", show(&self.levels))?;
        }
        if takes(&[LinePart, Member, Paint, Write]) {
            write!(f, " words {}", show(&self.words))?;
        }
        match self.call {
            Crossing => write!(f, " level {} code {}", self.level, self.code)?,
            Piece => write!(f, " level {} x {} y {}", self.level, self.x, self.y)?,
            LinePart => write!(f, " n {}", self.n)?,
            Member => write!(f, " n {} x {} y {}", self.n, self.x, self.y)?,
            Read => write!(f, " file {}", show(&self.input))?,
            Pgm | Listing => write!(f, " input \"{}\"", self.input.escape_ascii())?,
            _ => {}
        }
        for (name, room) in self.rooms() {
            write!(f, " {name} {room}")?;
        }
        Ok(())
    }
}
