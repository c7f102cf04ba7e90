//! Pictures, headings and edgels.

/// A sample by its column and row.
pub type Sample = (usize, usize);

/// A picture of good size.
#[derive(Clone, Copy)]
pub struct Picture<'a> {
    pub w: usize,
    pub h: usize,
    pub px: &'a [u8],
}

impl Picture<'_> {
    pub fn at(&self, (x, y): Sample) -> u8 {
        self.px[y * self.w + x]
    }

    pub fn high(&self, k: u8, sample: Sample) -> bool {
        self.at(sample) > k
    }

    /// Is the edgel crossed at level k?
    pub fn crossed(&self, k: u8, edgel: Edgel) -> bool {
        let (first, last) = edgel.ends();
        self.high(k, first) != self.high(k, last)
    }

    /// All edgels of the picture.
    pub fn edgels(&self) -> impl Iterator<Item = Edgel> + '_ {
        let codes = 0..2 * (self.w * self.h) as u32;
        codes.filter_map(|code| Edgel::named(code, self.w, self.h))
    }

    /// The heading of a crossed edgel. Its high end lies to the left of the way.
    pub fn heading(&self, k: u8, edgel: Edgel) -> Heading {
        let first_high = self.high(k, edgel.ends().0);
        match (edgel.vertical, first_high) {
            (false, false) => Heading::S,
            (false, true) => Heading::N,
            (true, true) => Heading::E,
            (true, false) => Heading::W,
        }
    }
}

/// The four headings, each one left turn after the one before.
#[derive(Clone, Copy, Debug, PartialEq, Eq)]
pub enum Heading {
    S,
    E,
    N,
    W,
}

/// The moves of the headings in their order.
const MOVES: [(isize, isize); 4] = [(0, 1), (1, 0), (0, -1), (-1, 0)];

impl Heading {
    pub fn number(self) -> u32 {
        self as u32
    }

    pub fn letter(self) -> char {
        ['S', 'E', 'N', 'W'][self as usize]
    }

    /// The sample one move ahead.
    pub fn ahead(self, (x, y): Sample) -> Sample {
        let (dx, dy) = MOVES[self as usize];
        (x.strict_add_signed(dx), y.strict_add_signed(dy))
    }
}

/// An edgel by its left or top end.
#[derive(Clone, Copy, Debug, PartialEq, Eq)]
pub struct Edgel {
    pub x: usize,
    pub y: usize,
    pub vertical: bool,
}

impl Edgel {
    /// The edgel of this code, if it names one.
    pub fn named(code: u32, w: usize, h: usize) -> Option<Edgel> {
        let place = code as usize / 2;
        let edgel = Edgel { x: place % w, y: place / w, vertical: code % 2 == 1 };
        let (x, y) = edgel.ends().1;
        (x < w && y < h).then_some(edgel)
    }

    pub fn code(self, w: usize) -> u32 {
        (2 * (self.y * w + self.x)) as u32 + self.vertical as u32
    }

    /// The left or top end, and the other one.
    pub fn ends(self) -> (Sample, Sample) {
        let first = (self.x, self.y);
        let last = if self.vertical { (self.x, self.y + 1) } else { (self.x + 1, self.y) };
        (first, last)
    }

    /// The edgel that joins two neighbouring samples.
    pub fn between(a: Sample, b: Sample) -> Edgel {
        Edgel { x: a.0.min(b.0), y: a.1.min(b.1), vertical: a.0 == b.0 }
    }
}
