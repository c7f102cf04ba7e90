//! `frame`: the framed picture.

use crate::args::Args;
use crate::commands::Command;
use crate::error::Error;
use crate::matte::Matte;
use crate::{output, pgm};

pub const COMMAND: Command = Command {
    name: "frame",
    takes: "one picture",
    named: 1..=1,
    options: &["-o"],
    help: include_str!("../../help/frame.txt"),
    run,
};

fn run(args: &Args) -> Result<(), Error> {
    let path = args.output_file()?;
    let framed = Matte::open(&args.named()[0])?.framed()?;
    output::save(path, |out| pgm::write(out, framed.w, framed.h, framed.maximum, framed.samples()))
}
