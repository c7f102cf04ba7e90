//! `info`: what an outline file says of itself.

use crate::args::Args;
use crate::commands::Command;
use crate::error::Error;
use crate::stored::Stored;
use crate::{levels, output};

pub const COMMAND: Command = Command {
    name: "info",
    takes: "one outline file",
    named: 1..=1,
    options: &[],
    help: include_str!("../../help/info.txt"),
    run,
};

/// The one edition that the read call takes.
const EDITION: &str = "OLR1";

fn run(args: &Args) -> Result<(), Error> {
    let stored = Stored::open(&args.named()[0])?;
    output::print(|out| {
        writeln!(out, "size {} by {}", stored.w, stored.h)?;
        writeln!(out, "border {}", stored.border)?;
        writeln!(out, "levels {}: {}", stored.levels.len(), levels::shown(&stored.levels))?;
        writeln!(out, "words {}", stored.words.len())?;
        writeln!(out, "lines {}", stored.lines)?;
        writeln!(out, "edition {EDITION}")
    })
}
