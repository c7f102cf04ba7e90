//! The second program: every call of the build paper, written once more in plain Rust.
//!
//! It is meant to be read beside the paper. It takes the paper's words as names and its
//! definitions as code. It does not try to be fast. The lists are found as orbits of the turn
//! rule, so that a mistake in a row by row scan cannot be repeated here.

mod crossing;
mod edgel;
mod fault;
mod file;
mod follow;
mod form;
mod frame;
mod lines;
mod list;
mod listing;
mod paint;
mod pgm;
mod piece;
mod refusal;
mod tree;
mod word;

pub use crossing::Crossing;
pub use fault::Fault;
pub use file::Read;
pub use pgm::Grey;
pub use piece::{Centre, Piece};
pub use refusal::Answer;

/// The program. With a fault it is one of the wrong variants that tests must catch.
#[derive(Clone, Copy, Debug)]
pub struct Second {
    pub fault: Fault,
}

impl Second {
    /// The true program.
    pub const TRUE: Second = Second { fault: Fault::None };

    /// Is this the variant with the given fault?
    pub(crate) fn wrong(&self, fault: Fault) -> bool {
        self.fault == fault
    }
}
