//! A row a line, for the tree and for the lines at a sample.

use crate::error::Error;
use crate::outlines::Tree;
use crate::output::Sink;
use crate::words;

/// The heads of the columns.
pub const HEADS: &str = "line level parent kind crossings lead";

/// What is said about one line.
pub struct Row {
    number: usize,
    level: u8,
    parent: Option<u32>,
    lower: bool,
    crossings: usize,
    /// The left end of the lead.
    lead: (usize, usize),
}

impl Row {
    fn kind(&self) -> char {
        kind(self.lower)
    }

    pub fn print(&self, out: &mut Sink) -> Result<(), Error> {
        let Row { number, level, crossings, lead: (x, y), .. } = self;
        let parent = self.parent.map_or("-".into(), |parent| parent.to_string());
        writeln!(out, "{number} {level} {parent} {} {crossings} {x},{y}", self.kind())
    }

    pub fn print_json(&self, out: &mut Sink) -> Result<(), Error> {
        let Row { number, level, crossings, lead: (x, y), .. } = self;
        let parent = self.parent.map_or("null".into(), |parent| parent.to_string());
        let who = format!("\"line\": {number}, \"level\": {level}, \"parent\": {parent}");
        let what = format!("\"kind\": \"{}\", \"crossings\": {crossings}", self.kind());
        write!(out, "{{{who}, {what}, \"lead\": {{\"x\": {x}, \"y\": {y}}}}}")
    }
}

/// The letter of a kind, as the listing has it.
pub fn kind(lower: bool) -> char {
    if lower {
        'D'
    } else {
        'U'
    }
}

impl Tree<'_> {
    /// A row for each line, in the list's order.
    pub fn rows(&self) -> impl Iterator<Item = Row> + '_ {
        words::lines(&self.list.words).zip(self.entries.iter()).enumerate().map(|(number, (line, &entry))| Row {
            number,
            level: words::level(line[0]),
            parent: words::around(entry).checked_sub(1),
            lower: words::lower(entry),
            crossings: line.len(),
            lead: words::end(words::code(line[0]), self.list.matte.w),
        })
    }
}
