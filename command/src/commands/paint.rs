//! `paint`: the painted picture of an outline file.

use crate::args::Args;
use crate::commands::Command;
use crate::error::Error;
use crate::room::room;
use crate::stored::Stored;
use crate::{library, output, pgm};

pub const COMMAND: Command = Command {
    name: "paint",
    takes: "one outline file",
    named: 1..=1,
    options: &["-o"],
    help: include_str!("../../help/paint.txt"),
    run,
};

fn run(args: &Args) -> Result<(), Error> {
    let path = args.output_file()?;
    let Stored { name, w, h, border, levels, words, .. } = Stored::open(&args.named()[0])?;
    let mut px = room(w * h)?;
    let answer = library::paint(w, h, border, &levels, &words, &mut px);
    if answer.number != 0 {
        return Err(Error::by_call(name, &answer));
    }
    output::save(path, |out| pgm::write(out, w, h, 255, &px))
}
