//! `pick`: the lines that a sample is inside.

use crate::args::Args;
use crate::commands::Command;
use crate::error::Error;
use crate::outlines::Tree;
use crate::rows::{Row, HEADS};
use crate::{library, output, words};

pub const COMMAND: Command = Command {
    name: "pick",
    takes: "a matte, x and y",
    named: 3..=3,
    options: &["--levels", "--frame"],
    help: include_str!("../../help/pick.txt"),
    run,
};

fn run(args: &Args) -> Result<(), Error> {
    let levels = args.levels()?;
    let (x, y) = (args.number(1, "x")?, args.number(2, "y")?);
    let matte = args.matte()?;
    let tree = Tree::of(&matte, &levels)?;
    if x >= matte.w || y >= matte.h {
        let text = format!("there is no sample at x {x}, y {y}: it has {} by {}", matte.w, matte.h);
        return Err(Error::numbered(&matte.name, text, 11));
    }
    let rows = around(&tree, x, y)?;
    output::print(|out| {
        writeln!(out, "{HEADS}")?;
        rows.iter().try_for_each(|row| row.print(out))
    })
}

/// The lines around the sample, the innermost last. One lies in the next, so they stand by their depth in the tree.
fn around(tree: &Tree, x: usize, y: usize) -> Result<Vec<Row>, Error> {
    let matte = tree.list.matte;
    let mut found = Vec::new();
    for (n, (line, row)) in words::lines(&tree.list.words).zip(tree.rows()).enumerate() {
        // The line's own words are a list of one line; in the whole list the call would look at every word again.
        let member = library::member(matte.w, matte.h, line, 0, x, y);
        matte.allow(&member.answer)?;
        if member.inside {
            found.push((depth(&tree.entries, n), row));
        }
    }
    found.sort_by_key(|(depth, _)| *depth);
    Ok(found.into_iter().map(|(_, row)| row).collect())
}

/// How many lines are around a line.
fn depth(entries: &[u32], n: usize) -> usize {
    let parent = |n: &usize| (words::around(entries[*n]) as usize).checked_sub(1);
    std::iter::successors(parent(&n), parent).count()
}
