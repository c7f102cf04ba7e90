//! `list`: a summary of the outlines or the listing's rows, and the outline file.

use crate::args::Args;
use crate::commands::Command;
use crate::error::Error;
use crate::outlines::{Outlines, Tree};
use crate::output::{self, Sink};
use crate::rows::kind;
use crate::{levels, words};

pub const COMMAND: Command = Command {
    name: "list",
    takes: "one matte",
    named: 1..=1,
    options: &["--levels", "-o", "--text", "--frame"],
    help: include_str!("../../help/list.txt"),
    run,
};

/// The letters of the headings, by their numbers.
const HEADINGS: [char; 4] = ['S', 'E', 'N', 'W'];

fn run(args: &Args) -> Result<(), Error> {
    let (text_too, printed) = (args.has("--text"), args.output().is_some_and(|path| path == "-"));
    if text_too && printed {
        return Err(args.wrong("standard output takes the file or the text, and not both".into()));
    }
    let (levels, matte) = (args.levels()?, args.matte()?);
    if text_too {
        let mut tree = Tree::of(&matte, &levels)?;
        let stored = store(args, &mut tree.list);
        output::print(|out| text(out, &tree))?;
        return stored;
    }
    let mut list = Outlines::of(&matte, &levels)?;
    let stored = store(args, &mut list);
    if !printed {
        output::print(|out| summary(out, &list))?;
    }
    stored
}

/// Writes the outline file, if one is asked for. What hinders it is said after the outlines.
fn store(args: &Args, list: &mut Outlines) -> Result<(), Error> {
    match args.output() {
        Some(path) => {
            let file = list.file()?;
            output::save(path, |out| out.bytes(file))
        }
        None => Ok(()),
    }
}

fn summary(out: &mut Sink, list: &Outlines) -> Result<(), Error> {
    writeln!(out, "size {} by {}", list.matte.w, list.matte.h)?;
    writeln!(out, "border {}", list.border())?;
    writeln!(out, "levels {}: {}", list.levels.len(), levels::shown(list.levels))?;
    writeln!(out, "words {}", list.words.len())?;
    writeln!(out, "lines {}", list.lines)?;
    let lines = words::lines(&list.words).enumerate();
    // The first of the longest: where two are equal, the later one stays behind.
    let longest = lines.reduce(|best, line| if line.1.len() > best.1.len() { line } else { best });
    if let Some((n, line)) = longest {
        writeln!(out, "largest line {n}: level {}, {} crossings", words::level(line[0]), line.len())?;
    }
    Ok(())
}

/// The rows of the listing program, for any size.
fn text(out: &mut Sink, tree: &Tree) -> Result<(), Error> {
    let Tree { list, entries } = tree;
    let (w, h) = (list.matte.w, list.matte.h);
    writeln!(out, "{w} {h} {} {} {} {}", list.border(), list.levels.len(), list.words.len(), list.lines)?;
    for (n, (line, &entry)) in words::lines(&list.words).zip(entries.iter()).enumerate() {
        let (level, kind) = (words::level(line[0]), kind(words::lower(entry)));
        writeln!(out, "{n} {level} {} {kind} {}", words::around(entry), line.len())?;
        for &word in line {
            let (x, y) = words::end(words::code(word), w);
            let crossing = list.crossing(word)?;
            let heading = HEADINGS[crossing.heading as usize];
            writeln!(out, "{x} {y} {heading} {} {}", crossing.num, crossing.den)?;
        }
    }
    Ok(())
}
