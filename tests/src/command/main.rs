//! The suite of the command: each command on real files, held to the second program's answers; bad input of every kind; and, where
//! they are installed, what Netpbm and a renderer of SVG make of its files.
//!
//! `command_suite PROGRAM FOLDER` runs it. The last line is `N passed, M failed`.

mod bad;
mod broken;
mod desk;
mod expected;
mod good;
mod pictures;
#[allow(dead_code)]
#[path = "../rng.rs"]
mod rng;
mod tools;
mod wrong;

use std::process::ExitCode;

use desk::Desk;

fn main() -> ExitCode {
    let args: Vec<String> = std::env::args().skip(1).collect();
    let [program, folder] = args.as_slice() else {
        println!("command_suite: say the program and a folder\n0 passed, 1 failed");
        return ExitCode::from(2);
    };
    let mut desk = Desk::new(program.into(), folder.into());
    good::all(&mut desk);
    wrong::all(&mut desk);
    bad::all(&mut desk);
    broken::all(&mut desk);
    tools::all(&mut desk);
    println!("{} passed, {} failed", desk.passed, desk.failed);
    ExitCode::from((desk.failed > 0) as u8)
}
