//! The outlines of a matte: the list call and the tree call, with the memory that they ask for.

use crate::error::Error;
use crate::library::{self, Answer, CrossingAnswer};
use crate::matte::Matte;
use crate::room::{room, Room};
use crate::{levels, words};

pub struct Outlines<'a> {
    pub matte: &'a Matte,
    pub levels: &'a [u8],
    pub words: Room<u32>,
    pub lines: usize,
    /// The work bytes, free for other use once it is listed.
    work: Room<u8>,
}

/// The list, with the tree entry of each line.
pub struct Tree<'a> {
    pub list: Outlines<'a>,
    pub entries: Room<u32>,
}

impl<'a> Outlines<'a> {
    pub fn of(matte: &'a Matte, levels: &'a [u8]) -> Result<Outlines<'a>, Error> {
        Outlines::by(matte, levels, |work, words| {
            Ok(library::list(matte.w, matte.h, matte.samples(), levels, work, words))
        })
    }

    /// By a call that lists. It is asked with no word places how many it needs, and then lent so many.
    fn by(
        matte: &'a Matte, levels: &'a [u8], mut call: impl FnMut(&mut [u8], &mut [u32]) -> Result<Answer, Error>,
    ) -> Result<Outlines<'a>, Error> {
        let mut work = room(matte.samples().len())?;
        let mut words = Room::default();
        let mut answer = call(&mut work, &mut words)?;
        if answer.number == 6 {
            words = room(answer.place)?;
            answer = call(&mut work, &mut words)?;
        }
        matte.allow(&answer)?;
        Ok(Outlines { matte, levels, words, lines: answer.lines, work })
    }

    /// The border value: every border sample has it, or the matte was refused.
    pub fn border(&self) -> u8 {
        self.matte.samples()[0]
    }

    /// The outline file, which takes the work bytes' place where they are enough for it.
    pub fn file(&mut self) -> Result<&[u8], Error> {
        let (matte, border) = (self.matte, self.border());
        // As the header for C has it. Asking the call would let it look at every word twice.
        let bytes = words::file_bytes(self.words.len());
        if self.work.len() < bytes {
            self.work = room(bytes)?;
        }
        self.work.truncate(bytes);
        let answer = library::write(matte.w, matte.h, border, self.levels, &self.words, &mut self.work);
        if answer.number == 16 {
            return Err(Error::numbered(&matte.name, self.too_many(), 16));
        }
        matte.allow(&answer)?;
        Ok(&self.work)
    }

    /// Why it fits no file.
    fn too_many(&self) -> String {
        let there = self.words.len();
        let halves = self.levels.split_at(self.levels.len() / 2);
        let (low, high) = (levels::shown(halves.0), levels::shown(halves.1));
        let parts = format!("store it in parts, as --levels {low} and {high}");
        format!("a file holds up to 16,777,215 words, and these are {there}: {parts}")
    }

    /// Where a word of the list crosses.
    pub fn crossing(&self, word: u32) -> Result<CrossingAnswer, Error> {
        let (w, h, px) = (self.matte.w, self.matte.h, self.matte.samples());
        let crossing = library::crossing(w, h, px, words::level(word), words::code(word));
        self.matte.allow(&crossing.answer)?;
        Ok(crossing)
    }
}

impl<'a> Tree<'a> {
    pub fn of(matte: &'a Matte, levels: &'a [u8]) -> Result<Tree<'a>, Error> {
        let mut entries = Room::default();
        let list = Outlines::by(matte, levels, |work, words| {
            let mut call =
                |entries: &mut [u32]| library::tree(matte.w, matte.h, matte.samples(), levels, work, words, entries);
            let asked = call(&mut []);
            if asked.number != 7 {
                return Ok(asked);
            }
            entries = room(asked.place)?;
            Ok(call(&mut entries))
        })?;
        entries.truncate(list.lines);
        Ok(Tree { list, entries })
    }
}
