//! Running the command in a folder of its own, and counting what holds.

use std::fs;
use std::io::Write;
use std::path::PathBuf;
use std::process::{Command, Stdio};

pub struct Desk {
    pub program: PathBuf,
    pub folder: PathBuf,
    pub passed: usize,
    pub failed: usize,
}

/// What a run gave.
#[derive(Debug)]
pub struct Seen {
    /// None where a signal ended it.
    pub status: Option<i32>,
    pub out: Vec<u8>,
    pub err: String,
}

impl Seen {
    pub fn text(&self) -> String {
        String::from_utf8_lossy(&self.out).into_owned()
    }

    /// Done, and nothing said on standard error.
    pub fn done(&self) -> bool {
        self.status == Some(0) && self.err.is_empty()
    }

    /// One line on standard error, with every part in it, and this status.
    pub fn told(&self, status: i32, parts: &[&str]) -> bool {
        let line = self.err.starts_with("loafcanyon: ") && self.err.ends_with('\n') && self.err.lines().count() == 1;
        self.status == Some(status) && line && parts.iter().all(|part| self.err.contains(part))
    }
}

impl Desk {
    pub fn new(program: PathBuf, folder: PathBuf) -> Desk {
        Desk { program, folder, passed: 0, failed: 0 }
    }

    /// The command, ready to run in the folder.
    pub fn command(&self, args: &[&str]) -> Command {
        let mut command = Command::new(&self.program);
        command.args(args).current_dir(&self.folder).stdin(Stdio::null());
        command
    }

    pub fn run(&self, args: &[&str]) -> Seen {
        ran(&mut self.command(args))
    }

    /// The same with bytes on standard input.
    pub fn run_on(&self, args: &[&str], input: &[u8]) -> Seen {
        let mut command = self.command(args);
        let streams = command.stdin(Stdio::piped()).stdout(Stdio::piped()).stderr(Stdio::piped());
        let mut child = streams.spawn().expect("the command starts");
        // The command may end before it has read everything.
        let _ = child.stdin.take().expect("its input is a pipe").write_all(input);
        whole(child.wait_with_output().expect("the command ends"))
    }

    pub fn put(&self, name: &str, bytes: &[u8]) {
        fs::write(self.folder.join(name), bytes).expect("the folder can be written");
    }

    /// A file that the command wrote; empty where there is none.
    pub fn got(&self, name: &str) -> Vec<u8> {
        fs::read(self.folder.join(name)).unwrap_or_default()
    }

    pub fn there(&self, name: &str) -> bool {
        self.folder.join(name).exists()
    }

    pub fn remove(&self, name: &str) {
        let _ = fs::remove_file(self.folder.join(name));
    }

    /// Files that were written beside and not renamed.
    pub fn left_over(&self) -> bool {
        let files = fs::read_dir(&self.folder).expect("the folder is there");
        files.flatten().any(|file| file.file_name().to_string_lossy().ends_with(".part"))
    }

    pub fn holds(&mut self, what: &str, holds: bool) {
        if holds {
            self.passed += 1;
        } else {
            self.failed += 1;
            println!("{what}: this failed");
        }
    }

    /// Both are equal; else it says where they part.
    pub fn same(&mut self, what: &str, seen: &[u8], due: &[u8]) {
        if seen != due {
            let at = seen.iter().zip(due).take_while(|(a, b)| a == b).count();
            println!("{what}: {} bytes where {} are due, unlike from byte {at} on", seen.len(), due.len());
        }
        self.holds(what, seen == due);
    }

    /// A run that must be refused, with this status and these parts of its one line, and that leaves no file `out`.
    pub fn refuses(&mut self, args: &[&str], status: i32, parts: &[&str]) {
        let seen = self.run(args);
        let what = format!("{args:?} is told with {status} and {parts:?}, and gave {seen:?}");
        self.holds(&what, seen.told(status, parts) && seen.out.is_empty());
        self.holds(&format!("{args:?} leaves no file"), !self.there("out") && !self.left_over());
        self.remove("out");
    }
}

pub fn ran(command: &mut Command) -> Seen {
    whole(command.output().expect("the command starts"))
}

pub fn whole(output: std::process::Output) -> Seen {
    let err = String::from_utf8_lossy(&output.stderr).into_owned();
    Seen { status: output.status.code(), out: output.stdout, err }
}
