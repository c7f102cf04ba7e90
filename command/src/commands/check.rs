//! `check`: whether outline files are whole.

use crate::args::Args;
use crate::commands::Command;
use crate::counter::Counter;
use crate::error::Error;
use crate::output;
use crate::stored::Stored;

pub const COMMAND: Command = Command {
    name: "check",
    takes: "one outline file or more",
    named: 1..=usize::MAX,
    options: &[],
    help: include_str!("../../help/check.txt"),
    run,
};

fn run(args: &Args) -> Result<(), Error> {
    let files = args.named();
    if let [one] = files {
        return fine(&Stored::open(one)?);
    }
    let counter = Counter::new(files.len());
    let mut bad = 0;
    for (n, path) in files.iter().enumerate() {
        counter.show(n + 1);
        let read = Stored::open(path);
        counter.clear();
        match read {
            Ok(stored) => fine(&stored)?,
            Err(error) => {
                error.tell();
                bad += 1;
            }
        }
    }
    match bad {
        0 => Ok(()),
        _ => Err(Error::refused("check", format!("{bad} of {} files are not fine: see above", files.len()))),
    }
}

fn fine(stored: &Stored) -> Result<(), Error> {
    output::print(|out| writeln!(out, "{}: fine", stored.name))
}
