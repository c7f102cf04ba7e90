//! The piece of curve in one cell.

use crate::edgel::Picture;
use crate::refusal::{self, in_order, refuse, Answer};
use crate::{Fault, Second};

/// The centre of the cell's hyperbola, from its top left sample.
#[derive(Clone, Copy, Debug, PartialEq)]
pub struct Centre {
    pub xs: f64,
    pub ys: f64,
}

/// The piece in one cell.
#[derive(Clone, Copy, Debug, PartialEq)]
pub enum Piece {
    Refused,
    Straight,
    Corner(Centre),
    /// The centre and δ.
    Branch(Centre, f64),
}

impl Second {
    /// The piece at a level in the cell with this top left sample.
    pub fn piece(&self, w: usize, h: usize, px: &[u8], level: u8, x: usize, y: usize) -> (Answer, Piece) {
        match self.try_piece(Picture { w, h, px }, level, x, y) {
            Ok(piece) => (Answer::default(), piece),
            Err(answer) => (answer, Piece::Refused),
        }
    }

    fn try_piece(&self, picture: Picture, k: u8, x: usize, y: usize) -> Result<Piece, Answer> {
        let Picture { w, h, px } = picture;
        refusal::sides(w, h)?;
        self.samples(w, h, px)?;
        refusal::levels(&[k])?;
        let no_cell = x >= w - 1 || y >= h - 1;
        let (x, y) = (x.min(w - 2), y.min(h - 2));
        let places = [(x, y), (x, y + 1), (x + 1, y + 1), (x + 1, y)];
        let same_side = places.iter().all(|&place| picture.high(k, place) == picture.high(k, places[0]));
        in_order(self.wrong(Fault::CellLast), refuse(11, no_cell), refuse(10, same_side))?;
        Ok(self.piece_of(k, places.map(|place| picture.at(place) as i64)))
    }

    /// The choice between the cases, in whole numbers.
    fn piece_of(&self, k: u8, [p0, p1, p2, p3]: [i64; 4]) -> Piece {
        let b = p3 - p0;
        let c = p1 - p0;
        let d = p0 + p2 - p1 - p3;
        let s = p0 * p2 - p1 * p3;
        let height = 2 * k as i64 + 1;
        if d == 0 {
            return Piece::Straight;
        }
        let centre = Centre { xs: self.quotient(-c, d), ys: self.quotient(-b, d) };
        if height * d != 2 * s {
            return Piece::Branch(centre, self.quotient(height * d - 2 * s, 2 * d * d));
        }
        let inside = within_one(-c, d) && within_one(-b, d);
        match inside || self.wrong(Fault::CornerOutside) {
            true => Piece::Corner(centre),
            false => Piece::Straight,
        }
    }

    /// A quotient of whole numbers. The numerator takes the sign, so that zero stays +0.
    fn quotient(&self, num: i64, den: i64) -> f64 {
        let (num, den) = match self.wrong(Fault::MinusZero) {
            true => (num, den),
            false => (num * den.signum(), den.abs()),
        };
        num as f64 / den as f64
    }
}

/// Does num/den lie from 0 to 1?
fn within_one(num: i64, den: i64) -> bool {
    (0..=den.abs()).contains(&(num * den.signum()))
}
