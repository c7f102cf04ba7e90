//! The calls of the product as the suite sees them.

use second::{Answer, Centre, Crossing, Grey, Piece, Read, Second};

/// The name of each call.
#[derive(Clone, Copy, Debug, Default, PartialEq, Eq, PartialOrd, Ord)]
pub enum Call {
    #[default]
    List,
    Tree,
    Frame,
    Crossing,
    Piece,
    LinePart,
    Member,
    Paint,
    Write,
    Read,
    Pgm,
    Listing,
}

/// All calls.
pub const ALL: [Call; 12] = [
    Call::List,
    Call::Tree,
    Call::Frame,
    Call::Crossing,
    Call::Piece,
    Call::LinePart,
    Call::Member,
    Call::Paint,
    Call::Write,
    Call::Read,
    Call::Pgm,
    Call::Listing,
];

/// What the piece call says: the number of the case (refused, straight, corner, branch: 0 to 3), then xs, ys and delta, +0 where the case holds none.
#[derive(Clone, Copy, Debug)]
pub struct Shape {
    pub answer: Answer,
    pub kind: u32,
    pub floats: [f64; 3],
}

/// Where a line lies in its list.
#[derive(Clone, Copy, Debug, PartialEq)]
pub struct Part {
    pub start: usize,
    pub count: usize,
}

/// A program under test.
#[allow(clippy::too_many_arguments)]
pub trait Calls: Sync {
    fn list(&self, w: usize, h: usize, px: &[u8], levels: &[u8], work: &mut [u8], words: &mut [u32]) -> Answer;
    fn tree(
        &self, w: usize, h: usize, px: &[u8], levels: &[u8], work: &mut [u8], words: &mut [u32], tree: &mut [u32],
    ) -> Answer;
    fn frame(&self, w: usize, h: usize, px: &[u8], room: &mut [u8]) -> Answer;
    fn crossing(&self, w: usize, h: usize, px: &[u8], level: u8, code: u32) -> Crossing;
    fn piece(&self, w: usize, h: usize, px: &[u8], level: u8, x: usize, y: usize) -> Shape;
    fn line_part(&self, words: &[u32], n: usize) -> Part;
    fn member(&self, w: usize, h: usize, words: &[u32], n: usize, x: usize, y: usize) -> (Answer, bool);
    fn paint(&self, w: usize, h: usize, v: u8, levels: &[u8], words: &[u32], room: &mut [u8]) -> Answer;
    fn write(&self, w: usize, h: usize, v: u8, levels: &[u8], words: &[u32], file: &mut [u8]) -> Answer;
    fn read(&self, file: &[u8], words: &mut [u32]) -> Read;
    fn pgm(&self, file: &[u8], room: &mut [u8]) -> Grey;
    fn listing(&self, input: &[u8]) -> Vec<u8>;
}

impl Calls for Second {
    fn list(&self, w: usize, h: usize, px: &[u8], levels: &[u8], work: &mut [u8], words: &mut [u32]) -> Answer {
        Second::list(self, w, h, px, levels, work, words)
    }

    fn tree(
        &self, w: usize, h: usize, px: &[u8], levels: &[u8], work: &mut [u8], words: &mut [u32], tree: &mut [u32],
    ) -> Answer {
        Second::tree(self, w, h, px, levels, work, words, tree)
    }

    fn frame(&self, w: usize, h: usize, px: &[u8], room: &mut [u8]) -> Answer {
        Second::frame(self, w, h, px, room)
    }

    fn crossing(&self, w: usize, h: usize, px: &[u8], level: u8, code: u32) -> Crossing {
        Second::crossing(self, w, h, px, level, code)
    }

    fn piece(&self, w: usize, h: usize, px: &[u8], level: u8, x: usize, y: usize) -> Shape {
        let (answer, piece) = Second::piece(self, w, h, px, level, x, y);
        let (kind, floats) = match piece {
            Piece::Refused => (0, [0.0; 3]),
            Piece::Straight => (1, [0.0; 3]),
            Piece::Corner(Centre { xs, ys }) => (2, [xs, ys, 0.0]),
            Piece::Branch(Centre { xs, ys }, delta) => (3, [xs, ys, delta]),
        };
        Shape { answer, kind, floats }
    }

    fn line_part(&self, words: &[u32], n: usize) -> Part {
        let part = Second::line_part(self, words, n);
        let bytes = part.as_ptr() as usize - words.as_ptr() as usize;
        Part { start: bytes / size_of::<u32>(), count: part.len() }
    }

    fn member(&self, w: usize, h: usize, words: &[u32], n: usize, x: usize, y: usize) -> (Answer, bool) {
        Second::member(self, w, h, words, n, x, y)
    }

    fn paint(&self, w: usize, h: usize, v: u8, levels: &[u8], words: &[u32], room: &mut [u8]) -> Answer {
        Second::paint(self, w, h, v, levels, words, room)
    }

    fn write(&self, w: usize, h: usize, v: u8, levels: &[u8], words: &[u32], file: &mut [u8]) -> Answer {
        Second::write(self, w, h, v, levels, words, file)
    }

    fn read(&self, file: &[u8], words: &mut [u32]) -> Read {
        Second::read(self, file, words)
    }

    fn pgm(&self, file: &[u8], room: &mut [u8]) -> Grey {
        Second::pgm(self, file, room)
    }

    fn listing(&self, input: &[u8]) -> Vec<u8> {
        Second::listing(self, input)
    }
}
