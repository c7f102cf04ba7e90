//! `svg`: a whole SVG document, one path a line.

use crate::args::Args;
use crate::commands::Command;
use crate::error::Error;
use crate::outlines::Outlines;
use crate::output::{self, Sink};
use crate::words;

pub const COMMAND: Command = Command {
    name: "svg",
    takes: "one matte",
    named: 1..=1,
    options: &["--levels", "-o", "--frame"],
    help: include_str!("../../help/svg.txt"),
    run,
};

fn run(args: &Args) -> Result<(), Error> {
    let (levels, path, matte) = (args.levels()?, args.output_file()?, args.matte()?);
    let list = Outlines::of(&matte, &levels)?;
    output::save(path, |out| document(out, &list))
}

/// Samples are the centres of pixels, so the view begins half a sample before the first.
fn document(out: &mut Sink, list: &Outlines) -> Result<(), Error> {
    let (w, h) = (list.matte.w, list.matte.h);
    let sides = format!("width=\"{w}\" height=\"{h}\" viewBox=\"-0.5 -0.5 {w} {h}\"");
    writeln!(out, "<?xml version=\"1.0\" encoding=\"UTF-8\"?>")?;
    writeln!(out, "<svg xmlns=\"http://www.w3.org/2000/svg\" version=\"1.1\" {sides}>")?;
    writeln!(out, "<g fill=\"none\" stroke=\"#d40000\" stroke-width=\"0.5\" stroke-linejoin=\"round\">")?;
    words::lines(&list.words).try_for_each(|line| path(out, list, line))?;
    writeln!(out, "</g>\n</svg>")
}

/// One line. Thousandths keep every crossing off the samples: none is nearer to one than 1/510.
fn path(out: &mut Sink, list: &Outlines, line: &[u32]) -> Result<(), Error> {
    write!(out, "<path d=\"")?;
    for (n, &word) in line.iter().enumerate() {
        let crossing = list.crossing(word)?;
        let step = if n == 0 { 'M' } else { 'L' };
        write!(out, "{step}{:.3} {:.3}", crossing.x, crossing.y)?;
    }
    writeln!(out, "Z\"/>")
}
