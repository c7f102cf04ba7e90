//! A stored outline file, read by the read call.

use std::ffi::OsStr;

use crate::error::Error;
use crate::input;
use crate::library;
use crate::room::{room, Room};
use crate::words;

/// The bytes of the longest outline file.
const LONGEST: usize = words::file_bytes(16_777_215);

pub struct Stored {
    pub name: String,
    pub w: usize,
    pub h: usize,
    pub border: u8,
    pub levels: Vec<u8>,
    pub words: Room<u32>,
    pub lines: usize,
}

impl Stored {
    pub fn open(path: &OsStr) -> Result<Stored, Error> {
        let name = input::name(path);
        let file = input::read(path, LONGEST + 1)?;
        if file.len() > LONGEST {
            return Err(Error::refused(
                name,
                format!("no outline file has more than {LONGEST} bytes: look at the name"),
            ));
        }
        let asked = library::read(&file, &mut []);
        let needed = match asked.answer.number {
            0 => 0,
            6 => asked.answer.place,
            _ => return Err(Error::by_call(name, &asked.answer)),
        };
        let mut words = room(needed)?;
        let read = library::read(&file, &mut words);
        if read.answer.number != 0 {
            return Err(Error::by_call(name, &read.answer));
        }
        let levels = read.levels[..read.count as usize].to_vec();
        let (w, h, border) = (read.width as usize, read.height as usize, read.border as u8);
        Ok(Stored { name, w, h, border, levels, words, lines: read.answer.lines })
    }
}
