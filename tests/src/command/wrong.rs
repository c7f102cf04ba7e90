//! Wrong use: status 2, one line, nothing written.

use crate::desk::Desk;
use crate::pictures::soft_matte;
use crate::rng::Rng;

pub fn all(desk: &mut Desk) {
    desk.put("m.pgm", &soft_matte(&mut Rng::new(2, 1), 20, 20).pgm());
    desk.refuses(&[], 2, &["which command"]);
    desk.refuses(&["trace"], 2, &["no command 'trace'"]);
    desk.refuses(&["--levels"], 2, &["no command '--levels'"]);
    for (name, rest) in [("list", "m.pgm"), ("tree", "m.pgm"), ("svg", "m.pgm"), ("pick", "m.pgm 1 1")] {
        let args: Vec<&str> = [name].into_iter().chain(rest.split(' ')).collect();
        desk.refuses(&args, 2, &[name, "say which levels"]);
    }
    for name in ["paint", "frame"] {
        desk.refuses(&[name, "m.pgm"], 2, &[name, "say where to write"]);
    }
    desk.refuses(&["svg", "m.pgm", "--levels", "1"], 2, &["say where to write"]);
    names(desk);
    options(desk);
    levels(desk);
}

/// Too few names, or too many.
fn names(desk: &mut Desk) {
    desk.refuses(&["list", "--levels", "1"], 2, &["one matte"]);
    desk.refuses(&["list", "m.pgm", "m.pgm", "--levels", "1"], 2, &["one matte"]);
    desk.refuses(&["tree", "--levels", "1"], 2, &["one matte"]);
    desk.refuses(&["svg", "--levels", "1", "-o", "out"], 2, &["one matte"]);
    desk.refuses(&["paint", "-o", "out"], 2, &["one outline file"]);
    desk.refuses(&["paint", "a", "b", "-o", "out"], 2, &["one outline file"]);
    desk.refuses(&["check"], 2, &["one outline file or more"]);
    desk.refuses(&["info"], 2, &["one outline file"]);
    desk.refuses(&["frame", "-o", "out"], 2, &["one picture"]);
    desk.refuses(&["pick", "m.pgm", "1", "--levels", "1"], 2, &["a matte, x and y"]);
    desk.refuses(&["pick", "m.pgm", "one", "1", "--levels", "1"], 2, &["'one' is no x"]);
    desk.refuses(&["pick", "m.pgm", "1", "1.5", "--levels", "1"], 2, &["'1.5' is no y"]);
}

fn options(desk: &mut Desk) {
    desk.refuses(&["list", "m.pgm", "--level", "1"], 2, &["no option --level"]);
    desk.refuses(&["check", "m.pgm", "-o", "out"], 2, &["no option -o"]);
    desk.refuses(&["pick", "m.pgm", "-1", "1", "--levels", "1"], 2, &["no option -1"]);
    desk.refuses(&["list", "m.pgm", "--levels"], 2, &["missing after --levels"]);
    desk.refuses(&["list", "m.pgm", "--levels", "1", "-o"], 2, &["missing after -o"]);
    desk.refuses(&["list", "m.pgm", "--levels", "1", "--levels", "2"], 2, &["--levels is there twice"]);
    desk.refuses(&["list", "m.pgm", "--levels", "1", "--text", "-o", "-"], 2, &["not both"]);
    desk.refuses(&["list", "m.pgm", "--text=1", "--levels", "2"], 2, &["--text takes no value"]);
}

/// Levels that are no levels are wrong use; those that the call refuses have its number.
fn levels(desk: &mut Desk) {
    for text in [
        "", "abc", "256", "-1", "+1", "1,,2", "1,", "5-3", "1-", "-", "3/2", "1-9/0", "1-9/", "1.5", "All", "1 2",
        "1-2-3",
    ] {
        let option = format!("--levels={text}");
        desk.refuses(&["list", "m.pgm", &option, "-o", "out"], 2, &["--levels: '", "--help"]);
    }
    for text in ["255", "3,3", "9,3", "0-255", "1-9,5"] {
        for command in [&["list", "m.pgm", "-o", "out"][..], &["tree", "m.pgm"], &["svg", "m.pgm", "-o", "out"]] {
            desk.refuses(&[command, &["--levels", text]].concat(), 1, &["--levels", "(refusal 3)"]);
        }
    }
}
