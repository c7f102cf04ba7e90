//! Printing of lists and outcomes, whole but short.

use std::fmt::{self, Display, Write};

use crate::case::{Outcome, Said};
use crate::lent::{Fill, Room};

/// Most runs of equal values that are printed of one list.
const MOST: usize = 4096;

/// A list with its runs of equal values drawn together.
pub fn show<T: Display + PartialEq>(list: &[T]) -> String {
    let mut text = String::from("[");
    for (count, run) in list.chunk_by(|a, b| a == b).enumerate() {
        if count == MOST {
            let _ = write!(text, " … {} in all", list.len());
            break;
        }
        let gap = if count == 0 { "" } else { " " };
        let _ = match run.len() {
            1..=3 => write!(text, "{gap}{}", run.iter().map(T::to_string).collect::<Vec<_>>().join(" ")),
            length => write!(text, "{gap}{}×{length}", run[0]),
        };
    }
    text.push(']');
    text
}

impl Display for Room {
    fn fmt(&self, f: &mut fmt::Formatter) -> fmt::Result {
        match self.fill {
            Fill::Same(value) => write!(f, "{} of {value}", self.size),
            Fill::Any(seed) => write!(f, "{} from {seed:#x}", self.size),
        }
    }
}

impl Display for Said {
    fn fmt(&self, f: &mut fmt::Formatter) -> fmt::Result {
        if let Some(a) = self.answer() {
            write!(f, "number {} place {} words {} lines {}", a.number, a.place, a.words, a.lines)?;
        }
        match self {
            Said::Plain(_) => Ok(()),
            Said::Crossing { heading, num, den, x, y, .. } => {
                let (x, y) = (f64::from_bits(*x), f64::from_bits(*y));
                write!(f, " heading {heading} num {num} den {den} x {x:?} y {y:?}")
            }
            Said::Piece { kind, floats, .. } => write!(f, " kind {kind} floats {:?}", floats.map(f64::from_bits)),
            Said::Part(part) => write!(f, "start {} count {}", part.start, part.count),
            Said::Member(_, inside) => write!(f, " inside {inside}"),
            Said::Read(read) => {
                let (w, h, border, count) = (read.w, read.h, read.border, read.count);
                write!(f, " w {w} h {h} border {border} count {count} levels {}", show(&read.levels))
            }
            Said::Pgm(grey) => write!(f, " w {} h {} maximum {}", grey.w, grey.h, grey.maximum),
            Said::Listing(text) => write!(f, "\"{}\"", text.escape_ascii()),
            Said::Panicked => write!(f, "panicked"),
        }
    }
}

impl Display for Outcome {
    fn fmt(&self, f: &mut fmt::Formatter) -> fmt::Result {
        write!(f, "{}", self.said)?;
        if self.unchanged {
            return f.write_str(if self.lent() { ", lent memory unchanged" } else { "" });
        }
        if !self.work.is_empty() {
            write!(f, " work {}", show(&self.work))?;
        }
        if !self.places.is_empty() {
            write!(f, " places {}", show(&self.places))?;
        }
        if !self.entries.is_empty() {
            write!(f, " entries {}", show(&self.entries))?;
        }
        if !self.room.is_empty() {
            write!(f, " room {}", show(&self.room))?;
        }
        if !self.guards_whole {
            write!(f, " and the guards are broken")?;
        }
        Ok(())
    }
}
