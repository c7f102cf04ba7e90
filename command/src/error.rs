//! What went wrong, in one line on standard error: where, what, what to do, and the number where a call refused.

use std::fmt::Display;
use std::io::{self, ErrorKind, Write};

use crate::library::Answer;

/// The status of a refusal, and of wrong use.
const REFUSED: u8 = 1;
const WRONG_USE: u8 = 2;

pub struct Error {
    text: String,
    status: u8,
}

impl Error {
    pub fn usage(text: impl Into<String>) -> Error {
        Error { text: text.into(), status: WRONG_USE }
    }

    /// Refused, without a number of its own.
    pub fn refused(place: impl Display, text: impl Display) -> Error {
        Error { text: format!("{place}: {text}"), status: REFUSED }
    }

    /// Refused with a number that the library has.
    pub fn numbered(place: impl Display, text: impl Display, number: u32) -> Error {
        Error::refused(place, format!("{text} (refusal {number})"))
    }

    /// A call's refusal.
    pub fn by_call(place: impl Display, answer: &Answer) -> Error {
        Error::numbered(place, said(answer), answer.number)
    }

    pub fn reading(place: impl Display, error: &io::Error) -> Error {
        Error::refused(place, format!("it cannot be read: {}", plain(error)))
    }

    pub fn writing(place: impl Display, error: &io::Error) -> Error {
        Error::refused(place, format!("it cannot be written: {}", plain(error)))
    }

    pub fn status(&self) -> u8 {
        self.status
    }

    /// Says it. Where even standard error is closed, nothing is left to do.
    pub fn tell(&self) {
        let _ = writeln!(io::stderr(), "loafcanyon: {}", self.text);
    }
}

/// What a number says, and what to do.
fn said(answer: &Answer) -> String {
    let place = answer.place;
    match answer.number {
        1 => "a side is not 2 to 2,048: cut the picture, or join it to another".into(),
        3 => "levels are 0 to 254, each above the one before: sort them, drop repeats and 255".into(),
        8 => format!("word {place} names no edgel of this size or no level of the file: fetch the file again"),
        12 => "it is empty or no multiple of 512 bytes, so it was cut, or is no outline file: fetch it again".into(),
        13 => {
            let (from, to) = (place * 512, place * 512 + 511);
            format!("block {place} is damaged, bytes {from} to {to}: fetch the file again")
        }
        14 => "its blocks do not make an outline file: list the matte again, or fetch the file again".into(),
        _ => format!("the call refused what it was lent, with place {place}: this is a fault of the command"),
    }
}

/// The system's error in plain words, and what to do.
fn plain(error: &io::Error) -> String {
    let known = match error.kind() {
        ErrorKind::NotFound => "there is no such file or folder: look at the name",
        ErrorKind::PermissionDenied => "you may not: ask its owner, or choose another place",
        ErrorKind::IsADirectory => "it is a folder: name a file",
        ErrorKind::NotADirectory => "a part of its path is a file: look at the name",
        ErrorKind::StorageFull => "the disk is full: make room and run it again",
        ErrorKind::QuotaExceeded => "you may store no more there: make room and run it again",
        ErrorKind::FileTooLarge => "no file may be so large there: choose another place, or fewer levels",
        ErrorKind::ReadOnlyFilesystem => "the disk may not be written: choose another place",
        ErrorKind::BrokenPipe => "nobody reads it any more: let the reader go on to the end",
        ErrorKind::OutOfMemory => "there is not enough memory: close other programs",
        _ => return format!("{error}: look at the disk"),
    };
    known.into()
}
