//! Files that are not taken: status 1, one line that says where and what, nothing written.

use crate::desk::Desk;
use crate::expected::Expected;
use crate::pictures::{noise, soft_matte, Picture};
use crate::rng::Rng;

pub fn all(desk: &mut Desk) {
    std::fs::create_dir(desk.folder.join("folder")).expect("the folder can be written");
    let mut rng = Rng::new(3, 1);
    pictures(desk, &soft_matte(&mut rng, 12, 10));
    border(desk, &mut rng);
    outline_files(desk, &soft_matte(&mut rng, 40, 40));
    desk.put("m.pgm", &soft_matte(&mut rng, 12, 10).pgm());
    for (x, y) in [("12", "1"), ("1", "10"), ("99999999999", "0")] {
        desk.refuses(&["pick", "m.pgm", x, y, "--levels", "1"], 1, &["no sample at", "12 by 10", "(refusal 11)"]);
    }
}

/// Each command that takes a picture refuses the file bad.pgm so.
fn refused(desk: &mut Desk, name: &str, parts: &[&str]) {
    let commands: [&[&str]; 6] = [
        &["list", "--levels", "9", "-o", "out"],
        &["list", "--levels", "9", "--frame", "--text"],
        &["tree", "--levels", "9"],
        &["svg", "--levels", "9", "-o", "out"],
        &["pick", "1", "1", "--levels", "9"],
        &["frame", "-o", "out"],
    ];
    for command in commands {
        let args = [&command[..1], &[name], &command[1..]].concat();
        desk.refuses(&args, 1, &[&[name], parts].concat());
    }
}

fn pictures(desk: &mut Desk, picture: &Picture) {
    refused(desk, "missing.pgm", &["no such file"]);
    refused(desk, "folder", &["folder"]);
    refused(desk, "/dev/zero", &["does not begin with P5 or P2", "(refusal 22)"]);
    let whole = picture.pgm();
    let with = |header: &str| [header.as_bytes(), &picture.px].concat();
    let short =
        [(0, "does not begin with P5"), (1, "does not begin with P5"), (2, "byte 2"), (4, "byte 4"), (12, "byte 12")];
    for (length, part) in short {
        desk.put("bad.pgm", &whole[..length]);
        refused(desk, "bad.pgm", &[part, "(refusal 22)"]);
    }
    let last = format!("ends at byte {}", whole.len() - 1);
    let cases: [(Vec<u8>, &[&str]); 15] = [
        (whole[..whole.len() - 1].to_vec(), &[&last, "before its last sample", "(refusal 24)"]),
        (with("P5\n13 10\n255\n"), &["ends at byte 133", "(refusal 24)"]),
        (with("P5\n1 120\n255\n"), &["side", "(refusal 1)"]),
        (with("P5\n0 0\n255\n"), &["side", "(refusal 1)"]),
        (with("P5\n2049 2\n255\n"), &["side", "(refusal 1)"]),
        (with("P5\n99999999999999999999 2\n255\n"), &["side", "(refusal 1)"]),
        (with("P6\n12 10\n255\n"), &["does not begin with P5"]),
        (b"P2\n3 2\n255\n1 2 3 4 5".to_vec(), &["ends at byte 20", "(refusal 24)"]),
        (b"P2\n3 2\n255\n1 2 3 # 4\n5 6".to_vec(), &["byte 17 is no part of a sample", "(refusal 24)"]),
        (b"P2\n3 2\n9\n1 2 3 10 5 6".to_vec(), &["sample at byte 15 is above", "(refusal 23)"]),
        (with("P5\n# a comment 12 10 255 "), &["ends at byte", "within its header", "(refusal 22)"]),
        (with("P5\n12 10\n0\n"), &["at byte 9", "not 1 to 255", "(refusal 22)"]),
        (with("P5\n12 10\n65535\n"), &["at byte 9", "not 1 to 255", "(refusal 22)"]),
        (with("P5\n-12 10\n255\n"), &["byte 3 is not what the header has", "(refusal 22)"]),
        (with("P512 10\n255\n"), &["byte 2 is not what the header has", "(refusal 22)"]),
    ];
    for (bytes, parts) in cases {
        desk.put("bad.pgm", &bytes);
        refused(desk, "bad.pgm", parts);
    }
    let mut endless = b"P5\n12 10\n255\n".to_vec();
    endless.resize(80_000_000, 0);
    let seen = desk.run_on(&["list", "-", "--levels", "9"], &endless);
    desk.holds("bytes after the last sample are not read", seen.done());
    let mut spaces = b"P2\n12 10\n255\n".to_vec();
    spaces.resize(80_000_000, b' ');
    let seen = desk.run_on(&["list", "-", "--levels", "9"], &spaces);
    desk.holds("too long an input", seen.told(1, &["standard input", "no more are read", "(refusal 24)"]));
}

/// A border that is not of one value is told with its first sample that differs, and by its edge.
fn border(desk: &mut Desk, rng: &mut Rng) {
    let (top, bottom) = (("top row", 4), ("bottom row", 17));
    let (left, right) = (("left column", 18), ("right column", 19));
    let places =
        [(7, 0, top), (11, 0, top), (0, 4, left), (11, 5, right), (0, 9, bottom), (6, 9, bottom), (11, 9, bottom)];
    for (x, y, (edge, number)) in places {
        let mut picture = noise(rng, 12, 10);
        for i in (0..120).filter(|i| i / 12 == 0 || i / 12 == 9 || i % 12 == 0 || i % 12 == 11) {
            picture.px[i] = if i < y * 12 + x { 70 } else { 71 };
        }
        desk.put("bad.pgm", &picture.pgm());
        let place = format!("x {x}, y {y} in its {edge} is 71 where x 0, y 0 is 70");
        let refusal = format!("(refusal {number})");
        for command in [&["list", "bad.pgm", "-o", "out"][..], &["tree", "bad.pgm"], &["pick", "bad.pgm", "1", "1"]] {
            desk.refuses(&[command, &["--levels", "9"]].concat(), 1, &["bad.pgm", &place, "--frame", &refusal]);
        }
        desk.refuses(&["svg", "bad.pgm", "--levels", "9", "-o", "out"], 1, &[&place, &refusal]);
    }
}

/// Each command that takes an outline file refuses it so.
fn refused_file(desk: &mut Desk, name: &str, parts: &[&str]) {
    let parts = [&[name], parts].concat();
    desk.refuses(&["check", name], 1, &parts);
    desk.refuses(&["info", name], 1, &parts);
    desk.refuses(&["paint", name, "-o", "out"], 1, &parts);
}

fn outline_files(desk: &mut Desk, picture: &Picture) {
    refused_file(desk, "missing.olr", &["no such file"]);
    refused_file(desk, "folder", &["folder"]);
    refused_file(desk, "/dev/zero", &["no outline file has more than"]);
    let file = Expected::of(picture, &[60, 120, 180]).file();
    let blocks = file.len() / 512;
    for (length, parts) in [
        (0, ["empty", "(refusal 12)"]),
        (file.len() - 1, ["512 bytes", "(refusal 12)"]),
        (100, ["512 bytes", "(refusal 12)"]),
        (file.len() - 512, ["outline file", "(refusal 14)"]),
    ] {
        desk.put("bad.olr", &file[..length]);
        refused_file(desk, "bad.olr", &parts);
    }
    desk.put("bad.olr", &[&file[..], &file[..512]].concat());
    refused_file(desk, "bad.olr", &[&format!("block {blocks} is damaged"), "(refusal 13)"]);
    desk.put("bad.olr", &picture.pgm());
    refused_file(desk, "bad.olr", &["(refusal 12)"]);
    for place in [0, 5, 511, 512, 1023, 1500, file.len() - 1] {
        let mut damaged = file.clone();
        damaged[place] ^= 16;
        desk.put("bad.olr", &damaged);
        let (block, from) = (place / 512, place / 512 * 512);
        let said = format!("block {block} is damaged, bytes {from} to {}", from + 511);
        refused_file(desk, "bad.olr", &[&said, "(refusal 13)"]);
    }
    desk.put("good.olr", &file);
    let seen = desk.run(&["check", "good.olr", "bad.olr", "missing.olr", "good.olr"]);
    let last = format!("block {} is damaged", blocks - 1);
    let told = seen.err.lines().collect::<Vec<_>>();
    let lines =
        matches!(told[..], [a, b, c] if a.contains(&last) && b.contains("no such file") && c.contains("2 of 4"));
    desk.holds("check of four files", seen.status == Some(1) && lines);
    desk.holds("check of four files, the fine ones", seen.text() == "good.olr: fine\ngood.olr: fine\n");
}
