//! Arguments: what is named, and the options that a command knows.

use std::ffi::{OsStr, OsString};

use crate::commands::Command;
use crate::error::Error;
use crate::levels;
use crate::matte::Matte;

/// The options that take a value; all others stand alone.
const VALUED: [&str; 2] = ["--levels", "-o"];

pub struct Args {
    command: &'static str,
    named: Vec<OsString>,
    options: Vec<(&'static str, OsString)>,
}

impl Args {
    pub fn parse(given: &[OsString], command: &Command) -> Result<Args, Error> {
        let mut args = Args { command: command.name, named: Vec::new(), options: Vec::new() };
        let mut given = given.iter();
        while let Some(arg) = given.next() {
            match arg.to_str() {
                Some("--") => args.named.extend(given.by_ref().cloned()),
                Some(option) if option.starts_with('-') && option != "-" => {
                    args.option(option, command, || given.next().cloned())?;
                }
                _ => args.named.push(arg.clone()),
            }
        }
        if !command.named.contains(&args.named.len()) {
            return Err(args.wrong(format!("it takes {}", command.takes)));
        }
        Ok(args)
    }

    /// One option: `--levels L` or `--levels=L`.
    fn option(&mut self, text: &str, command: &Command, next: impl FnOnce() -> Option<OsString>) -> Result<(), Error> {
        let (name, joined) = match text.split_once('=') {
            Some((name, value)) => (name, Some(OsString::from(value))),
            None => (text, None),
        };
        let unknown = || self.wrong(format!("it has no option {name}"));
        let option = *command.options.iter().find(|option| **option == name).ok_or_else(unknown)?;
        if self.has(option) {
            return Err(self.wrong(format!("{option} is there twice")));
        }
        let value = match (VALUED.contains(&option), joined) {
            (true, Some(value)) => Some(value),
            (true, None) => next(),
            (false, None) => Some(OsString::new()),
            (false, Some(_)) => return Err(self.wrong(format!("{option} takes no value"))),
        };
        let value = value.ok_or_else(|| self.wrong(format!("a value is missing after {option}")))?;
        self.options.push((option, value));
        Ok(())
    }

    /// Wrong use of this command.
    pub fn wrong(&self, text: String) -> Error {
        let name = self.command;
        Error::usage(format!("{name}: {text}: loafcanyon {name} --help says more"))
    }

    fn value(&self, name: &str) -> Option<&OsStr> {
        self.options.iter().find(|(option, _)| *option == name).map(|(_, value)| value.as_os_str())
    }

    pub fn has(&self, name: &str) -> bool {
        self.value(name).is_some()
    }

    pub fn named(&self) -> &[OsString] {
        &self.named
    }

    /// The levels, which a command that takes them must be given.
    pub fn levels(&self) -> Result<Vec<u8>, Error> {
        let text = self.value("--levels").ok_or_else(|| self.wrong("say which levels, as --levels 64,128".into()))?;
        levels::parse(&text.to_string_lossy()).map_err(|text| self.wrong(format!("--levels: {text}")))
    }

    /// The output file, if one is named.
    pub fn output(&self) -> Option<&OsStr> {
        self.value("-o")
    }

    /// The output file, where there must be one.
    pub fn output_file(&self) -> Result<&OsStr, Error> {
        self.output().ok_or_else(|| self.wrong("say where to write, as -o FILE, or -o - for standard output".into()))
    }

    /// The matte that is named first, framed if that is asked for.
    pub fn matte(&self) -> Result<Matte, Error> {
        let matte = Matte::open(&self.named[0])?;
        if self.has("--frame") {
            matte.framed()
        } else {
            Ok(matte)
        }
    }

    /// A number that is named.
    pub fn number(&self, at: usize, what: &str) -> Result<usize, Error> {
        let text = self.named[at].to_string_lossy();
        text.parse().map_err(|_| self.wrong(format!("'{text}' is no {what}")))
    }
}
