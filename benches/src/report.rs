//! The tables.

use crate::bars::Bar;
use crate::border::Refusal;
use crate::errand::Errand;
use crate::measure::{Figures, FileFigures, Framing, Reading};

/// One row for each picture and number of levels.
fn rows(title: &str, heads: &str, seen: &[Figures], row: impl Fn(&Figures) -> Option<String>) {
    println!("\n{title}\n{:<8} {:>6} {heads}", "picture", "levels");
    for f in seen {
        if let Some(row) = row(f) {
            println!("{:<8} {:>6} {row}", f.picture, f.levels);
        }
    }
}

pub fn lists(seen: &[Figures]) {
    let heads = format!("{:>9} {:>8} {:>8} {:>9} {:>16}", "words", "lines", "ns/word", "ns/sample", "list/comparison");
    rows("Listing", &heads, seen, |f| {
        let word = if f.words == 0 { "-".into() } else { format!("{:.2}", f.list * 1e9 / f.words as f64) };
        let (sample, ratio) = (f.list * 1e9 / f.samples as f64, f.list / f.comparison);
        Some(format!("{:>9} {:>8} {word:>8} {sample:>9.2} {ratio:>16.2}", f.words, f.lines))
    });
}

pub fn paints(seen: &[Figures]) {
    let heads = format!("{:>9} {:>9} {:>11}", "ms", "ns/sample", "paint/list");
    rows("Painting back", &heads, seen, |f| {
        let (sample, ratio) = (f.paint.time * 1e9 / f.samples as f64, f.paint.ratio());
        Some(format!("{:>9.2} {sample:>9.2} {ratio:>11.2}", f.paint.time * 1e3))
    });
}

impl FileFigures {
    /// The speed of a call that took so long, against a share of the plain loop's.
    pub fn against(&self, time: f64, share: f64) -> f64 {
        self.plain / time / share
    }

    fn speed(&self, time: f64) -> f64 {
        self.bytes as f64 / time * 1e-9
    }
}

pub fn files(seen: &[Figures]) {
    let speeds = format!("{:>9} {:>6} {:>6} {:>6} {:>6}", "MB", "write", "read", "check", "plain");
    let heads = format!("{speeds} {:>11} {:>10} {:>12}", "write/half", "read/half", "check/plain");
    rows("The file, GB/s; half: half the speed of the plain loop that checks the blocks", &heads, seen, |f| {
        let g = f.file.as_ref()?;
        let [write, read, check, plain] = [g.write, g.read, g.check, g.plain].map(|time| g.speed(time));
        let speeds = format!("{:>9.2} {write:>6.2} {read:>6.2} {check:>6.2} {plain:>6.2}", g.bytes as f64 * 1e-6);
        let [write, read] = [g.write, g.read].map(|time| g.against(time, 0.5));
        Some(format!("{speeds} {write:>11.2} {read:>10.2} {:>12.2}", g.against(g.check, 1.0)))
    });
}

pub fn trees(seen: &[Figures]) {
    let heads = format!("{:>9} {:>9} {:>10}", "ms", "ns/word", "tree/list");
    rows("The tree (it lists too)", &heads, seen, |f| {
        let tree = f.tree.as_ref()?;
        let word = tree.time * 1e9 / f.words as f64;
        Some(format!("{:>9.2} {word:>9.2} {:>10.2}", tree.time * 1e3, tree.ratio()))
    });
}

pub fn flat(seen: &[Figures]) {
    let heads = format!("{:>21} {:>11}", "ns/sample and level", "list/passes");
    rows("Nothing crossed; passes: the least and the greatest of all samples, once a level", &heads, seen, |f| {
        let passes = f.passes?;
        Some(format!("{:>21.3} {:>11.2}", f.time_by_level(), f.list / passes))
    });
}

pub fn framing(f: &Framing) {
    println!("\nFraming\n{:<8} {:>9} {:>9} {:>11}", "picture", "ms", "ns/sample", "frame/copy");
    let sample = f.frame * 1e9 / f.samples as f64;
    println!("{:<8} {:>9.2} {sample:>9.2} {:>11.2}", f.picture, f.frame * 1e3, f.ratio());
}

pub fn refusal(r: &Refusal) {
    println!("\nRefused for the last corner of the border");
    println!("{:<8} {:>9} {:>11} {:>12}", "picture", "us", "look, us", "refuse/look");
    println!("{:<8} {:>9.2} {:>11.2} {:>12.2}", r.picture, r.refuse * 1e6, r.look * 1e6, r.ratio());
}

pub fn reading(r: &Reading) {
    println!("\nPGM files\n{:<8} {:>9} {:>9} {:>9} {:>9}", "picture", "P5 ms", "below 255", "P2 ms", "ns/byte");
    let byte = r.plain * 1e9 / r.bytes as f64;
    let [binary, below, plain] = [r.binary, r.below, r.plain].map(|time| time * 1e3);
    println!("{:<8} {binary:>9.2} {below:>9.2} {plain:>9.2} {byte:>9.2}", r.picture);
}

pub fn growth(seen: &[Figures]) {
    let Some(first) = seen.first() else { return };
    println!("\nGrowth: {} at {} levels, ns/sample", first.picture, first.levels);
    println!("{:<8} {:>8} {:>8} {:>8}", "side", "list", "paint", "tree");
    for f in seen {
        let sample = |time: f64| time * 1e9 / f.samples as f64;
        let tree = f.tree.as_ref().map_or("-".into(), |tree| format!("{:.2}", sample(tree.time)));
        println!("{:<8} {:>8.2} {:>8.2} {tree:>8}", f.side, sample(f.list), sample(f.paint.time));
    }
}

impl Errand {
    /// The command's time against that of its calls and of plain reading and writing.
    pub fn ratio(&self) -> f64 {
        self.command / self.calls
    }
}

pub fn errand(seen: &Errand) {
    println!(
        "\nThe command list -o; calls: the list call, the write call, plain reading and writing of the same bytes"
    );
    println!("{:<8} {:>6} {:>9} {:>9} {:>14}", "picture", "levels", "ms", "calls", "command/calls");
    let [command, calls] = [seen.command, seen.calls].map(|time| time * 1e3);
    println!("{:<8} {:>6} {command:>9.2} {calls:>9.2} {:>14.2}", seen.picture, seen.levels, seen.ratio());
}

pub fn bars(bars: &[Bar]) {
    println!("\n{:<52} {:>14} {:>8}", "Bar", "limit", "seen");
    for bar in bars {
        let limit = format!("{} {:.3}", if bar.at_most { "at most" } else { "at least" }, bar.limit);
        println!("{:<52} {limit:>14} {:>8.3} {}", bar.what, bar.seen, if bar.met() { "met" } else { "MISSED" });
    }
}
