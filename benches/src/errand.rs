//! The command `list -o` on a matte in a file, beside the calls that it makes and plain reading and writing of the same bytes.
//! The command is a process of its own, and has its memory new from the system; the calls are lent the same memory in every repeat.

use std::hint::black_box;
use std::io::Read;
use std::path::PathBuf;
use std::process::{Command, Stdio};
use std::{env, fs, process};

use crate::desk::{Call, Desk};
use crate::pictures::{levels, Picture};
use crate::timing::Pace;

/// What was seen; times in seconds.
pub struct Errand {
    pub picture: &'static str,
    pub levels: usize,
    pub command: f64,
    pub calls: f64,
}

#[derive(Clone, Copy)]
enum Way {
    Command,
    Calls,
}

/// A folder of its own, with the matte in it; it goes when this goes.
struct Folder(PathBuf);

impl Drop for Folder {
    fn drop(&mut self) {
        let _ = fs::remove_dir_all(&self.0);
    }
}

pub fn errand(picture: &Picture, count: usize, pace: Pace) -> Errand {
    eprintln!("bench: {}, levels: {count}, by the command", picture.name);
    let folder = Folder(env::temp_dir().join(format!("loafcanyon-bench-{}", process::id())));
    fs::create_dir(&folder.0).expect("there is a place for temporary files");
    let [matte, by_command, by_calls] = ["matte.pgm", "command.olr", "calls.olr"].map(|name| folder.0.join(name));
    let header = format!("P5\n{} {}\n255\n", picture.w, picture.h);
    fs::write(&matte, [header.as_bytes(), &picture.px].concat()).expect("the matte is written");

    let names: Vec<String> = levels(count).iter().map(u8::to_string).collect();
    let program = env::current_exe().expect("this program is a file").with_file_name("loafcanyon");
    let mut command = Command::new(program);
    command.arg("list").arg(&matte).args(["--levels", &names.join(","), "-o"]).arg(&by_command).stdout(Stdio::null());
    let mut desk = Desk::new(picture, levels(count));
    desk.check_list();
    assert!(desk.check_file(), "the list fits a file");
    let mut read = Vec::new();

    let [command, calls] = pace.least([Way::Command, Way::Calls], |way| match way {
        Way::Command => assert!(command.status().is_ok_and(|status| status.success()), "the command is done"),
        Way::Calls => {
            read.clear();
            let mut file = fs::File::open(&matte).expect("the matte is there");
            black_box(file.read_to_end(&mut read).expect("the matte is read"));
            desk.run(Call::List);
            desk.run(Call::Write);
            fs::write(&by_calls, desk.file()).expect("the outline file is written");
        }
    });
    assert!(fs::read(&by_command).expect("it is there") == desk.file(), "the command writes another file");
    Errand { picture: picture.name, levels: count, command, calls }
}
