//! The commands, a file each.

mod check;
mod frame;
mod info;
mod list;
mod paint;
mod pick;
mod svg;
mod tree;

use std::ops::RangeInclusive;

use crate::args::Args;
use crate::error::Error;

pub struct Command {
    pub name: &'static str,
    /// What it takes beside options, in words and as a count.
    pub takes: &'static str,
    pub named: RangeInclusive<usize>,
    pub options: &'static [&'static str],
    pub help: &'static str,
    pub run: fn(&Args) -> Result<(), Error>,
}

pub const COMMANDS: [Command; 8] = [
    list::COMMAND,
    tree::COMMAND,
    svg::COMMAND,
    paint::COMMAND,
    check::COMMAND,
    info::COMMAND,
    frame::COMMAND,
    pick::COMMAND,
];
