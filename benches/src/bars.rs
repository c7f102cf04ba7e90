//! The bars that the library is held to.

use crate::errand::Errand;
use crate::measure::{Figures, FileFigures, Framing, Reading};

/// A limit, and what was seen.
pub struct Bar {
    pub what: String,
    pub limit: f64,
    pub seen: f64,
    pub at_most: bool,
}

impl Bar {
    pub fn met(&self) -> bool {
        if self.at_most {
            self.seen <= self.limit
        } else {
            self.seen >= self.limit
        }
    }
}

/// The check may take 7/6 of the plain loop's time.
const CHECK: f64 = 6.0 / 7.0;

/// What listing may take of the yardstick's time: at one level on smooth ground, and elsewhere.
const LIST: (f64, f64) = (0.9, 1.4);

/// Where nothing is crossed, listing may take as long as one pass over all samples for each level, and this many passes more to count and to clear.
const BESIDES: f64 = 5.0;

/// What framing may take of a plain copy's time.
const FRAME: f64 = 1.1;

/// What reading a binary PGM may take of a plain copy's time, and a plain one of a plain parser's.
const PGM: (f64, f64) = (1.2, 1.5);

/// What the command may take of the time of its calls and of plain reading and writing.
const COMMAND: f64 = 1.5;

/// The comparison's time against the yardstick's, a C++ listing that is not part of this repository: the least of 25
/// repeats of both in one run. The bars are set against the yardstick, and only the comparison is here.
const COMPARISON: [(&str, usize, f64); 11] = [
    ("matte", 1, 0.66),
    ("matte", 8, 0.93),
    ("matte", 32, 0.94),
    ("matte", 255, 0.96),
    ("terrain", 1, 0.60),
    ("terrain", 8, 0.97),
    ("terrain", 32, 0.96),
    ("terrain", 255, 0.94),
    ("noise", 1, 0.95),
    ("noise", 8, 0.95),
    ("noise", 32, 0.97),
];

impl Figures {
    /// Nanoseconds a sample and level.
    pub fn time_by_level(&self) -> f64 {
        self.list * 1e9 / (self.samples * self.levels) as f64
    }

    fn bar(&self, what: &str, limit: f64, seen: f64) -> Bar {
        let levels = if self.levels == 1 { "level" } else { "levels" };
        let what = format!("{what}, {}, {} {levels}", self.picture, self.levels);
        Bar { what, limit, seen, at_most: true }
    }

    /// A picture of smooth ground, where one level crosses little.
    fn smooth(&self) -> bool {
        matches!(self.picture, "matte" | "terrain")
    }

    fn list_bar(&self) -> Bar {
        let bar = if self.levels == 1 && self.smooth() { LIST.0 } else { LIST.1 };
        let (_, _, ratio) = COMPARISON
            .iter()
            .find(|&&(picture, levels, _)| picture == self.picture && levels == self.levels)
            .expect("the comparison was set against the yardstick here");
        self.bar("list/comparison", bar / ratio, self.list / self.comparison)
    }

    fn paint_bar(&self) -> Option<Bar> {
        if self.levels >= 8 {
            return Some(self.bar("paint/list", 1.0, self.paint.ratio()));
        }
        let sample = self.paint.time * 1e9 / self.samples as f64;
        self.smooth().then(|| self.bar("paint, ns a sample", 1.0, sample))
    }
}

impl Framing {
    pub fn ratio(&self) -> f64 {
        self.frame / self.copy
    }

    fn bar(&self) -> Bar {
        Bar { what: format!("frame/copy, {}", self.picture), limit: FRAME, seen: self.ratio(), at_most: true }
    }
}

impl Reading {
    fn bars(&self) -> [Bar; 3] {
        let bar =
            |what: &str, limit, seen| Bar { what: format!("{what}, {}", self.picture), limit, seen, at_most: true };
        [
            bar("P5/copy", PGM.0, self.binary / self.copy),
            bar("P5 below 255/copy", PGM.0, self.below / self.copy),
            bar("P2/plain parser", PGM.1, self.plain / self.parser),
        ]
    }
}

impl Errand {
    pub fn bar(&self) -> Bar {
        let what = format!("command/calls, {}, {} levels", self.picture, self.levels);
        Bar { what, limit: COMMAND, seen: self.ratio(), at_most: true }
    }
}

/// Every bar of the calls, with what was seen.
pub fn all(seen: &[Figures], framed: &Framing, read: &Reading) -> Vec<Bar> {
    let (flat, crossed): (Vec<&Figures>, Vec<&Figures>) = seen.iter().partition(|f| f.passes.is_some());
    let mut bars: Vec<Bar> = crossed.iter().map(|f| f.list_bar()).collect();
    bars.extend(crossed.iter().filter_map(|f| f.paint_bar()));
    bars.push(slowest("check/plain loop", CHECK, &crossed, |g| g.check));
    bars.push(slowest("read/plain loop", CHECK / 2.0, &crossed, |g| g.read));
    bars.push(slowest("write/plain loop", CHECK / 2.0, &crossed, |g| g.write));
    bars.extend(flat.iter().filter_map(|f| {
        let levels = f.levels as f64;
        Some(f.bar("list/passes", (BESIDES + levels) / levels, f.list / f.passes?))
    }));
    bars.push(framed.bar());
    bars.extend(read.bars());
    bars
}

/// The file's speed against the plain loop's, where it is least.
fn slowest(what: &str, limit: f64, seen: &[&Figures], time: impl Fn(&FileFigures) -> f64) -> Bar {
    let speeds = seen.iter().filter_map(|f| {
        let g = f.file.as_ref()?;
        Some((f, g.against(time(g), 1.0)))
    });
    let slowest = speeds.min_by(|a, b| a.1.total_cmp(&b.1));
    let (f, seen) = slowest.expect("some list is short enough for a file");
    Bar { at_most: false, ..f.bar(&format!("{what}, slowest"), limit, seen) }
}
