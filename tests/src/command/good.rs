//! Every command on pictures that it takes.

use crate::desk::Desk;
use crate::expected::{framed, Expected};
use crate::pictures::{noise, noisy_matte, soft_matte, Picture};
use crate::rng::Rng;

const HEADS: &str = "line level parent kind crossings lead\n";

/// Levels as they are typed, as they are shown, and as they are.
fn some_levels() -> Vec<(&'static str, &'static str, Vec<u8>)> {
    vec![
        ("64,128", "64,128", vec![64, 128]),
        ("100", "100", vec![100]),
        ("0-254/16", "0,16,32,48,64,80,96,112,128,144,160,176,192,208,224,240", (0..255).step_by(16).collect()),
        ("3,10-12,200-201", "3,10-12,200,201", vec![3, 10, 11, 12, 200, 201]),
        ("all", "0-254", (0..255).collect()),
        ("0-254", "0-254", (0..255).collect()),
    ]
}

pub fn all(desk: &mut Desk) {
    let mut rng = Rng::new(1, 1);
    let pictures = [noisy_matte(&mut rng, 13, 9), soft_matte(&mut rng, 60, 45), soft_matte(&mut rng, 150, 130)];
    for picture in &pictures {
        desk.put("m.pgm", &picture.pgm());
        for (typed, shown, levels) in some_levels() {
            outlines(desk, &Expected::of(picture, &levels), typed, shown);
        }
    }
    let flat = Picture { w: 5, h: 4, px: vec![7; 20] };
    desk.put("m.pgm", &flat.pgm());
    outlines(desk, &Expected::of(&flat, &[6, 7]), "6,7", "6,7");
    island(desk);
    let loose = noise(&mut rng, 40, 30);
    framing(desk, &loose);
    sides(desk, &mut rng);
    standard_streams(desk, &pictures[1]);
    replacing(desk, &pictures[1]);
    helps(desk);
}

/// A hole in a white matte is lower, what stands in the hole upper.
fn island(desk: &mut Desk) {
    let px = vec![9, 9, 9, 9, 9, 9, 0, 0, 0, 9, 9, 0, 9, 0, 9, 9, 0, 0, 0, 9, 9, 9, 9, 9, 9];
    let picture = Picture { w: 5, h: 5, px };
    desk.put("m.pgm", &picture.pgm());
    let seen = desk.run(&["tree", "m.pgm", "--levels", "4"]);
    desk.holds("tree of a hole with an island", seen.text() == format!("{HEADS}0 4 - D 12 0,1\n1 4 0 U 4 1,2\n"));
    outlines(desk, &Expected::of(&picture, &[4]), "4", "4");
}

/// All that is asked of one matte, which stands in m.pgm.
fn outlines(desk: &mut Desk, due: &Expected, typed: &str, shown: &str) {
    let Picture { w, h, .. } = *due.picture;
    let what = |name: &str| format!("{name}, {w} by {h}, levels {typed}");
    let seen = desk.run(&["list", "m.pgm", "--levels", typed, "-o", "m.olr"]);
    desk.holds(&what("list is done"), seen.done());
    desk.same(&what("list"), &seen.out, due.summary(shown).as_bytes());
    desk.same(&what("list -o"), &desk.got("m.olr"), &due.file());
    let seen = desk.run(&["list", "--text", "--levels", typed, "m.pgm"]);
    desk.same(&what("list --text"), &seen.out, due.text().as_bytes());
    let rows: String = (0..due.entries.len()).map(|n| due.row(n)).collect();
    let seen = desk.run(&["tree", "m.pgm", "--levels", typed]);
    desk.same(&what("tree"), &seen.out, format!("{HEADS}{rows}").as_bytes());
    let seen = desk.run(&["tree", "m.pgm", "--json", "--levels", typed]);
    desk.same(&what("tree --json"), &seen.out, due.json().as_bytes());
    for (x, y) in [(0, 0), (w / 2, h / 2), (w / 3, h / 2), (w - 2, h - 2), (1, 1)] {
        let seen = desk.run(&["pick", "m.pgm", &x.to_string(), &y.to_string(), "--levels", typed]);
        let rows: String = due.around(x, y).into_iter().map(|n| due.row(n)).collect();
        desk.same(&what(&format!("pick {x} {y}")), &seen.out, format!("{HEADS}{rows}").as_bytes());
    }
    drawn(desk, due, typed);
    stored(desk, due, &what("of the file"), shown);
}

/// The file m.olr.
fn stored(desk: &mut Desk, due: &Expected, what: &str, shown: &str) {
    let seen = desk.run(&["paint", "m.olr", "-o", "m.out"]);
    desk.holds(&format!("paint is done {what}"), seen.done() && seen.out.is_empty());
    desk.same(&format!("paint {what}"), &desk.got("m.out"), &due.painted().pgm());
    if due.levels.len() == 255 {
        desk.same(&format!("paint {what} is the matte"), &desk.got("m.out"), &due.picture.pgm());
    }
    let seen = desk.run(&["info", "m.olr"]);
    desk.same(&format!("info {what}"), &seen.out, format!("{}edition OLR1\n", due.head(shown)).as_bytes());
    let seen = desk.run(&["check", "m.olr"]);
    desk.holds(&format!("check {what}"), seen.done() && seen.text() == "m.olr: fine\n");
}

/// The drawing has the picture's size, a path a line, and every crossing to within half a thousandth.
fn drawn(desk: &mut Desk, due: &Expected, typed: &str) {
    let seen = desk.run(&["svg", "m.pgm", "--levels", typed, "-o", "m.svg"]);
    desk.holds(&format!("svg at {typed} is done"), seen.done() && seen.out.is_empty());
    let text = String::from_utf8(desk.got("m.svg")).unwrap_or_default();
    let Picture { w, h, .. } = due.picture;
    let size = format!("width=\"{w}\" height=\"{h}\" viewBox=\"-0.5 -0.5 {w} {h}\"");
    let paths: Vec<&str> = text.lines().filter_map(|line| line.strip_prefix("<path d=\"M")).collect();
    let lines = due.lines();
    let ends = text.starts_with("<?xml") && text.ends_with("</g>\n</svg>\n");
    desk.holds(&format!("svg at {typed} is whole"), ends && text.contains(&size) && paths.len() == lines.len());
    let alike = paths.iter().zip(&lines).all(|(path, line)| along(path, line, due));
    desk.holds(&format!("svg at {typed} has the crossings"), alike);
}

fn along(path: &str, line: &[u32], due: &Expected) -> bool {
    let Some(path) = path.strip_suffix("Z\"/>") else { return false };
    let points: Vec<&str> = path.split('L').collect();
    let near = |text: &str, number: f64| text.parse::<f64>().is_ok_and(|seen| (seen - number).abs() < 0.000_500_001);
    let at = |(point, &word): (&&str, &u32)| {
        let crossing = due.crossing(word);
        point.split_once(' ').is_some_and(|(x, y)| near(x, crossing.x) && near(y, crossing.y))
    };
    points.len() == line.len() && points.iter().zip(line).all(at)
}

fn framing(desk: &mut Desk, loose: &Picture) {
    let due = framed(loose);
    desk.put("loose.pgm", &loose.pgm());
    let seen = desk.run(&["frame", "loose.pgm", "-o", "framed.pgm"]);
    desk.holds("frame is done", seen.done() && seen.out.is_empty());
    desk.same("frame", &desk.got("framed.pgm"), &due.pgm());
    let due = Expected::of(&due, &[50, 128]);
    let seen = desk.run(&["list", "loose.pgm", "--frame", "--text", "--levels", "50,128"]);
    desk.same("list --frame", &seen.out, due.text().as_bytes());
    desk.run(&["svg", "loose.pgm", "--frame", "--levels", "50,128", "-o", "a.svg"]);
    desk.run(&["svg", "framed.pgm", "--levels", "50,128", "-o", "b.svg"]);
    desk.same("svg --frame", &desk.got("a.svg"), &desk.got("b.svg"));
    let commands: [&[&str]; 2] = [&["tree", "--levels", "50,128"], &["pick", "20", "15", "--levels", "50,128"]];
    for command in commands {
        let with = |rest: &[&'static str]| [&command[..1], rest, &command[1..]].concat();
        let (seen, due) = (desk.run(&with(&["loose.pgm", "--frame"])), desk.run(&with(&["framed.pgm"])));
        desk.holds(&format!("{} --frame is done", command[0]), seen.done() && due.done());
        desk.same(&format!("{} --frame", command[0]), &seen.out, &due.out);
    }
}

/// The least and the greatest sides, and white space in the header.
fn sides(desk: &mut Desk, rng: &mut Rng) {
    for (w, h) in [(2, 2), (2, 2048), (2048, 2), (2048, 2048)] {
        let picture = if w * h > 5000 { Picture { w, h, px: vec![9; w * h] } } else { noisy_matte(rng, w, h) };
        desk.put("m.pgm", &picture.pgm());
        let seen = desk.run(&["list", "m.pgm", "--levels", "8", "-o", "m.olr"]);
        desk.same(&format!("list {w} by {h}"), &seen.out, Expected::of(&picture, &[8]).summary("8").as_bytes());
    }
    let mut spaced = b"P5 \t3\r\n\n3\n 255\t".to_vec();
    spaced.extend([0, 0, 0, 0, 9, 0, 0, 0, 0]);
    let seen = desk.run_on(&["list", "-", "--levels", "5", "--text"], &spaced);
    desk.holds(
        "white space in the header",
        seen.text() == "3 3 0 1 4 1\n0 5 0 U 4\n0 1 S 11 18\n1 1 E 7 18\n1 1 N 7 18\n1 0 W 11 18\n",
    );
    // Samples stay as they are, whatever the greatest value.
    for text in [
        "P2#c\n3 3 15\n0 0 0\r\n0 009 0 0 0 0",
        "P2 3 3 255 0 0 0 0 9 0 0 0 0 and more",
        "P2\n# two\n# lines\r3 3\n9\n0 0 0 0 9 0 0 0 0\n",
    ] {
        let plain = desk.run_on(&["list", "-", "--levels", "5", "--text"], text.as_bytes());
        desk.holds("a plain PGM", plain.done() && plain.text() == seen.text());
    }
    for command in [&["tree", "-"][..], &["svg", "-", "-o", "-"], &["pick", "-", "1", "1"]] {
        let with = |input: &[u8]| desk.run_on(&[command, &["--levels", "5"]].concat(), input);
        let (seen, due) = (with(b"P2 3 3 9 0 0 0 0 9 0 0 0 0"), with(&spaced));
        desk.same("a plain PGM as the binary one", &seen.out, &due.out);
    }
    let seen = desk.run_on(&["frame", "-", "-o", "-"], b"P2 3 2 9\n1 2 3 4 5 9");
    desk.same("frame keeps the greatest value", &seen.out, b"P5\n3 2\n9\n\x03\x03\x03\x03\x03\x03");
}

fn standard_streams(desk: &mut Desk, picture: &Picture) {
    let due = Expected::of(picture, &[64, 128]);
    let seen = desk.run_on(&["list", "-", "--levels=64,128", "-o", "in.olr"], &picture.pgm());
    desk.same("list of standard input", &seen.out, due.summary("64,128").as_bytes());
    desk.same("its file", &desk.got("in.olr"), &due.file());
    let seen = desk.run_on(&["list", "-", "--levels", "64,128", "-o", "-"], &picture.pgm());
    desk.same("list to standard output", &seen.out, &due.file());
    let seen = desk.run_on(&["paint", "-", "-o", "-"], &due.file());
    desk.same("paint from input to output", &seen.out, &due.painted().pgm());
    let seen = desk.run_on(&["check", "-"], &due.file());
    desk.holds("check of standard input", seen.done() && seen.text() == "standard input: fine\n");
    desk.put("-dash.olr", &due.file());
    let seen = desk.run(&["check", "--", "-dash.olr", "in.olr"]);
    desk.holds("check of two files", seen.done() && seen.text() == "-dash.olr: fine\nin.olr: fine\n");
}

/// A file that is there is replaced, with its rights; a link to it stays a link.
fn replacing(desk: &mut Desk, picture: &Picture) {
    use std::os::unix::fs::{symlink, PermissionsExt};
    desk.put("m.pgm", &picture.pgm());
    desk.put("old.svg", b"old");
    let old = desk.folder.join("old.svg");
    std::fs::set_permissions(&old, PermissionsExt::from_mode(0o640)).expect("the file is there");
    symlink("old.svg", desk.folder.join("link.svg")).expect("the folder can be written");
    let seen = desk.run(&["svg", "m.pgm", "--levels", "100", "-o", "link.svg"]);
    let link = desk.folder.join("link.svg").is_symlink();
    let rights = std::fs::metadata(&old).map(|file| file.permissions().mode() & 0o777);
    desk.holds("a file is replaced behind a link", seen.done() && link && desk.got("old.svg").starts_with(b"<?xml"));
    desk.holds("the rights stay", rights.is_ok_and(|rights| rights == 0o640) && !desk.left_over());
}

fn helps(desk: &mut Desk) {
    let whole = desk.run(&["--help"]);
    desk.holds("--help", whole.done());
    for name in ["list", "tree", "svg", "paint", "check", "info", "frame", "pick"] {
        let help = desk.run(&[name, "--help"]);
        let usage = format!("loafcanyon {name} ");
        desk.holds(&format!("{name} --help"), help.done() && help.text().starts_with(&usage));
        desk.holds(&format!("--help names {name}"), whole.text().contains(&usage));
    }
    let seen = desk.run(&["--version"]);
    desk.holds("--version", seen.done() && seen.text() == format!("loafcanyon {}\n", env!("CARGO_PKG_VERSION")));
}
