//! What goes wrong while it runs: a full disk, a closed pipe, no memory, no place to write, more words than a file holds.

use std::fs::File;
use std::process::{Command, Stdio};

use crate::desk::{ran, whole, Desk};
use crate::expected::Expected;
use crate::pictures::{noisy_matte, soft_matte};
use crate::rng::Rng;

pub fn all(desk: &mut Desk) {
    let mut rng = Rng::new(4, 1);
    let picture = soft_matte(&mut rng, 90, 80);
    desk.put("m.pgm", &picture.pgm());
    desk.put("m.olr", &Expected::of(&picture, &[99]).file());
    full_disk(desk);
    cut_short(desk);
    closed_pipe(desk);
    no_place(desk);
    no_rights(desk);
    many_words(desk, &mut rng);
    counter(desk);
}

/// Every command that prints, and every one that writes.
const PRINTS: [&[&str]; 8] = [
    &["list", "m.pgm", "--levels", "99"],
    &["list", "m.pgm", "--levels", "99", "--text"],
    &["tree", "m.pgm", "--levels", "99"],
    &["tree", "m.pgm", "--levels", "99", "--json"],
    &["pick", "m.pgm", "45", "40", "--levels", "99"],
    &["check", "m.olr"],
    &["info", "m.olr"],
    &["--help"],
];
const WRITES: [&[&str]; 4] = [
    &["list", "m.pgm", "--levels", "99", "-o"],
    &["svg", "m.pgm", "--levels", "99", "-o"],
    &["frame", "m.pgm", "-o"],
    &["paint", "m.olr", "-o"],
];

fn full_disk(desk: &mut Desk) {
    for args in PRINTS {
        let full = File::options().write(true).open("/dev/full").expect("the device is there");
        let mut command = desk.command(args);
        let output = command.stdout(full).stderr(Stdio::piped()).spawn().and_then(|child| child.wait_with_output());
        let seen = whole(output.expect("the command ends"));
        desk.holds(&format!("{args:?} to a full disk: {seen:?}"), seen.told(1, &["standard output", "disk is full"]));
    }
    for args in WRITES {
        let seen = desk.run(&[args, &["/dev/full"]].concat());
        desk.holds(&format!("{args:?} /dev/full: {seen:?}"), seen.told(1, &["/dev/full", "disk is full"]));
    }
    let device = std::fs::metadata("/dev/full").is_ok_and(|full| !full.is_file());
    desk.holds("the device is still one", device);
}

/// Writing ends within the file, as on a disk that gets full: what was there before stays, and nothing else.
fn cut_short(desk: &mut Desk) {
    for args in WRITES {
        desk.put("kept", b"old");
        let mut shell = Command::new("sh");
        shell.current_dir(&desk.folder).arg("-c").arg("trap '' XFSZ; ulimit -f 1; exec \"$0\" \"$@\"");
        let seen = ran(shell.arg(&desk.program).args(args).arg("kept"));
        let kept = desk.got("kept") == b"old" && !desk.left_over();
        desk.holds(&format!("{args:?} cut short: {seen:?}"), kept && seen.told(1, &["kept", "so large"]));
    }
    desk.remove("kept");
}

/// The reader is gone before anything is written.
fn closed_pipe(desk: &mut Desk) {
    for args in PRINTS.into_iter().chain([&["frame", "m.pgm", "-o", "-"][..]]) {
        let (reader, writer) = std::io::pipe().expect("there are pipes");
        drop(reader);
        let mut command = desk.command(args);
        let output = command.stdout(writer).stderr(Stdio::piped()).spawn().and_then(|child| child.wait_with_output());
        let seen = whole(output.expect("the command ends"));
        desk.holds(&format!("{args:?} to a closed pipe: {seen:?}"), seen.told(1, &["standard output", "nobody reads"]));
    }
}

fn no_place(desk: &mut Desk) {
    for args in WRITES {
        for (path, part) in [("nowhere/out", "no such"), ("folder", "folder"), ("m.pgm/out", "is a file")] {
            let seen = desk.run(&[args, &[path]].concat());
            desk.holds(&format!("{args:?} {path}: {seen:?}"), seen.told(1, &[path, "cannot be written", part]));
        }
    }
    desk.holds("nothing is left over", !desk.left_over());
}

/// Files that may not be read or written. They may, for the administrator: that is said.
fn no_rights(desk: &mut Desk) {
    use std::os::unix::fs::PermissionsExt;
    desk.put("locked", b"old");
    let path = desk.folder.join("locked");
    std::fs::set_permissions(&path, PermissionsExt::from_mode(0o000)).expect("the file is there");
    if File::open(&path).is_ok() {
        println!("skipped: files without rights, since this user may read and write them all");
    } else {
        desk.refuses(&["frame", "locked", "-o", "out"], 1, &["locked", "cannot be read", "you may not"]);
        for args in WRITES {
            let seen = desk.run(&[args, &["locked"]].concat());
            let told = seen.told(1, &["locked", "cannot be written", "you may not"]);
            desk.holds(&format!("{args:?} to a locked file: {seen:?}"), told && !desk.left_over());
        }
    }
    desk.remove("locked");
}

/// More words than a file holds: it lists, and says that no file was written. And more than there is memory for.
fn many_words(desk: &mut Desk, rng: &mut Rng) {
    let picture = noisy_matte(rng, 340, 340);
    desk.put("noise.pgm", &picture.pgm());
    let seen = desk.run(&["list", "noise.pgm", "--levels", "all", "-o", "out"]);
    let parts = ["noise.pgm", "16,777,215", "--levels 0-126 and 127-254", "(refusal 16)"];
    desk.holds("too many words for a file", seen.told(1, &parts) && !desk.there("out") && !desk.left_over());
    let words = seen.text().lines().find_map(|line| line.strip_prefix("words ")?.parse::<usize>().ok());
    desk.holds("they are listed", words.is_some_and(|words| words > 16_777_215));
    let half = desk.run(&["list", "noise.pgm", "--levels", "0-126", "-o", "out"]);
    desk.holds("half of them fit", half.done() && desk.run(&["check", "out"]).done());
    desk.remove("out");
    let mut shell = Command::new("sh");
    shell.current_dir(&desk.folder).arg("-c").arg("ulimit -v 50000; exec \"$0\" list noise.pgm --levels all");
    let seen = ran(shell.arg(&desk.program));
    desk.holds(&format!("too little memory: {seen:?}"), seen.told(1, &["memory", "fewer levels"]));
}

/// On a terminal, many files have a counter.
fn counter(desk: &mut Desk) {
    let inner = format!("'{}' check m.olr m.olr", desk.program.display());
    let mut terminal = Command::new("script");
    terminal.current_dir(&desk.folder).args(["-qec", &inner, "/dev/null"]).stdin(Stdio::null());
    match terminal.output() {
        Ok(output) => {
            let text = String::from_utf8_lossy(&output.stdout).into_owned();
            desk.holds("a counter on a terminal", output.status.success() && text.contains("\r2 of 2 files\r"));
        }
        Err(_) => println!("skipped: the counter on a terminal, since the command 'script' is missing"),
    }
}
