//! How far it is with many files: on a terminal alone.

use std::io::{self, IsTerminal, Write};

pub struct Counter {
    total: usize,
    shown: bool,
}

impl Counter {
    pub fn new(total: usize) -> Counter {
        Counter { total, shown: total > 1 && io::stderr().is_terminal() }
    }

    pub fn show(&self, done: usize) {
        if self.shown {
            let _ = write!(io::stderr(), "\r{done} of {} files", self.total);
        }
    }

    /// Empties the line, so that something else can be printed there.
    pub fn clear(&self) {
        if self.shown {
            let _ = write!(io::stderr(), "\r{:40}\r", "");
        }
    }
}
