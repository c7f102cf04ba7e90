//! Writing: to standard output, or to a file that takes its name only once it is whole.

use std::ffi::{OsStr, OsString};
use std::fmt::Arguments;
use std::fs::{self, File, OpenOptions};
use std::io::{self, BufWriter, Write};
use std::os::fd::AsFd;
use std::path::{Path, PathBuf};

use crate::error::Error;

const PRINTED: &str = "standard output";

/// What is written to, with the name that messages use.
pub struct Sink {
    name: String,
    out: BufWriter<File>,
}

impl Sink {
    fn new(name: String, file: File) -> Sink {
        Sink { name, out: BufWriter::with_capacity(1 << 16, file) }
    }

    /// So that `write!` and `writeln!` take it.
    pub fn write_fmt(&mut self, text: Arguments) -> Result<(), Error> {
        let written = self.out.write_fmt(text);
        self.told(written)
    }

    pub fn bytes(&mut self, bytes: &[u8]) -> Result<(), Error> {
        let written = self.out.write_all(bytes);
        self.told(written)
    }

    fn flush(&mut self) -> Result<(), Error> {
        let written = self.out.flush();
        self.told(written)
    }

    fn told<T>(&self, written: io::Result<T>) -> Result<T, Error> {
        written.map_err(|error| Error::writing(&self.name, &error))
    }
}

/// Writes to standard output.
pub fn print(fill: impl FnOnce(&mut Sink) -> Result<(), Error>) -> Result<(), Error> {
    let file = io::stdout().as_fd().try_clone_to_owned().map_err(|error| Error::writing(PRINTED, &error))?;
    through(Sink::new(PRINTED.into(), file.into()), fill)
}

/// Writes a file: beside, then renamed, so that nothing half written has its name. `-` is standard output, and what
/// is there and is no plain file, like a device, is written as it stands.
pub fn save(path: &OsStr, fill: impl FnOnce(&mut Sink) -> Result<(), Error>) -> Result<(), Error> {
    if path == "-" {
        return print(fill);
    }
    let name = path.display().to_string();
    let told = |error: io::Error| Error::writing(&name, &error);
    match fs::metadata(path) {
        Ok(there) if there.is_dir() => Err(told(io::ErrorKind::IsADirectory.into())),
        Ok(there) if !there.is_file() => {
            let file = OpenOptions::new().write(true).open(path).map_err(told)?;
            through(Sink::new(name, file), fill)
        }
        Ok(_) => {
            // Behind a link, the file itself is replaced, and the link stays.
            let target = fs::canonicalize(path).map_err(told)?;
            OpenOptions::new().write(true).open(&target).map_err(told)?;
            replace(name, &target, fill)
        }
        Err(_) => replace(name, Path::new(path), fill),
    }
}

fn through(mut sink: Sink, fill: impl FnOnce(&mut Sink) -> Result<(), Error>) -> Result<(), Error> {
    fill(&mut sink)?;
    sink.flush()
}

fn replace(name: String, target: &Path, fill: impl FnOnce(&mut Sink) -> Result<(), Error>) -> Result<(), Error> {
    let beside = beside(target);
    let told = |error: io::Error| Error::writing(&name, &error);
    let file = OpenOptions::new().write(true).create_new(true).open(&beside).map_err(told)?;
    let written = whole(Sink::new(name.clone(), file), target, fill);
    let renamed = written.and_then(|()| fs::rename(&beside, target).map_err(told));
    if renamed.is_err() {
        let _ = fs::remove_file(&beside);
    }
    renamed
}

/// Fills the file until it is safe on the disk, with the rights of the file that it replaces.
fn whole(mut sink: Sink, target: &Path, fill: impl FnOnce(&mut Sink) -> Result<(), Error>) -> Result<(), Error> {
    fill(&mut sink)?;
    sink.flush()?;
    if let Ok(there) = fs::metadata(target) {
        sink.told(sink.out.get_ref().set_permissions(there.permissions()))?;
    }
    sink.told(sink.out.get_ref().sync_all())
}

/// A name of its own in the same folder.
fn beside(target: &Path) -> PathBuf {
    let mut name = OsString::from(".");
    name.push(target.file_name().unwrap_or_default());
    name.push(format!(".{}.part", std::process::id()));
    target.with_file_name(name)
}
