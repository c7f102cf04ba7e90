//! `tree`: a row a line.

use crate::args::Args;
use crate::commands::Command;
use crate::error::Error;
use crate::outlines::Tree;
use crate::output::{self, Sink};
use crate::rows::HEADS;

pub const COMMAND: Command = Command {
    name: "tree",
    takes: "one matte",
    named: 1..=1,
    options: &["--levels", "--json", "--frame"],
    help: include_str!("../../help/tree.txt"),
    run,
};

fn run(args: &Args) -> Result<(), Error> {
    let (levels, matte) = (args.levels()?, args.matte()?);
    let tree = Tree::of(&matte, &levels)?;
    output::print(|out| if args.has("--json") { json(out, &tree) } else { text(out, &tree) })
}

fn text(out: &mut Sink, tree: &Tree) -> Result<(), Error> {
    writeln!(out, "{HEADS}")?;
    tree.rows().try_for_each(|row| row.print(out))
}

/// One array, an object a line.
fn json(out: &mut Sink, tree: &Tree) -> Result<(), Error> {
    write!(out, "[")?;
    for (n, row) in tree.rows().enumerate() {
        write!(out, "{}\n  ", if n == 0 { "" } else { "," })?;
        row.print_json(out)?;
    }
    writeln!(out, "\n]")
}
