//! The proved outliner as one command. It reads and writes files, lends memory and prints; what it prints comes from the calls.
//!
//! A command is one file under `commands/`. What they share has a file each: arguments, levels, PGM, input, output, errors.

mod args;
mod commands;
mod counter;
mod error;
mod input;
mod levels;
#[allow(dead_code)]
#[path = "../../crates/host/loafcanyon.rs"]
mod library;
mod matte;
mod outlines;
mod output;
mod pgm;
mod room;
mod rows;
mod stored;
mod words;

use std::ffi::OsString;
use std::process::ExitCode;

use args::Args;
use commands::{Command, COMMANDS};
use error::Error;

const HELP: &str = include_str!("../help/loafcanyon.txt");

fn main() -> ExitCode {
    let args: Vec<OsString> = std::env::args_os().skip(1).collect();
    match run(&args) {
        Ok(()) => ExitCode::SUCCESS,
        Err(error) => {
            error.tell();
            ExitCode::from(error.status())
        }
    }
}

fn run(args: &[OsString]) -> Result<(), Error> {
    let Some((first, rest)) = args.split_first() else {
        return Err(Error::usage("say which command: loafcanyon --help lists them"));
    };
    match first.to_str() {
        Some("--help" | "-h" | "help") => output::print(|out| write!(out, "{HELP}")),
        Some("--version") => output::print(|out| writeln!(out, "loafcanyon {}", env!("CARGO_PKG_VERSION"))),
        _ => named(first)?.run(rest),
    }
}

fn named(name: &OsString) -> Result<&'static Command, Error> {
    let unknown = || Error::usage(format!("there is no command '{}': loafcanyon --help lists them", name.display()));
    COMMANDS.iter().find(|command| *name == *command.name).ok_or_else(unknown)
}

impl Command {
    fn run(&self, rest: &[OsString]) -> Result<(), Error> {
        if rest.iter().take_while(|arg| *arg != "--").any(|arg| arg == "--help" || arg == "-h") {
            return output::print(|out| write!(out, "{}", self.help));
        }
        (self.run)(&Args::parse(rest, self)?)
    }
}
