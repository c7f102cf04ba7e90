//! A matte, read from a PGM.

use std::ffi::OsStr;

use crate::error::Error;
use crate::library::{self, Answer};
use crate::pgm::{self, Picture};
use crate::room::{room, Room};
use crate::{input, words};

pub struct Matte {
    pub name: String,
    pub w: usize,
    pub h: usize,
    /// The greatest value that the file says; samples are as they stand there.
    pub maximum: u32,
    px: Room<u8>,
}

impl Matte {
    /// As it stands in the file.
    pub fn open(path: &OsStr) -> Result<Matte, Error> {
        let name = input::name(path);
        let bytes = input::read(path, pgm::LONGEST)?;
        let Picture { w, h, maximum, px } = pgm::read(&name, &bytes)?;
        Ok(Matte { name, w, h, maximum, px })
    }

    pub fn samples(&self) -> &[u8] {
        &self.px
    }

    /// The same picture with a border of one value.
    pub fn framed(self) -> Result<Matte, Error> {
        let mut framed = room(self.samples().len())?;
        self.allow(&library::frame(self.w, self.h, self.samples(), &mut framed))?;
        Ok(Matte { px: framed, ..self })
    }

    /// An answer of a call on this picture: done, or why not.
    pub fn allow(&self, answer: &Answer) -> Result<(), Error> {
        let text = match answer.number {
            0 => return Ok(()),
            3 => return Err(Error::by_call("--levels", answer)),
            4 | 17 | 18 | 19 => self.border(answer),
            _ => return Err(Error::by_call(&self.name, answer)),
        };
        Err(Error::numbered(&self.name, text, answer.number))
    }

    /// Why the border was refused: where its first sample is that differs, and on which edge.
    fn border(&self, answer: &Answer) -> String {
        let (px, (x, y)) = (self.samples(), words::place(answer.place, self.w));
        let (edge, value, first) = (edge(answer.number), px[answer.place], px[0]);
        format!(
            "the border must be of one value, and x {x}, y {y} in its {edge} is {value} where x 0, y 0 is {first}: clean that edge of the gate and scan again, or use --frame"
        )
    }
}

/// The edge that a refusal of the border names.
fn edge(number: u32) -> &'static str {
    match number {
        4 => "top row",
        17 => "bottom row",
        18 => "left column",
        _ => "right column",
    }
}
