//! The call for one crossing.

use crate::edgel::{Edgel, Picture};
use crate::refusal::{self, refuse, Answer};
use crate::{Fault, Second};

/// The answer of the crossing call.
#[derive(Clone, Copy, Debug, PartialEq, Default)]
pub struct Crossing {
    pub answer: Answer,
    pub heading: u32,
    pub num: u32,
    pub den: u32,
    pub x: f64,
    pub y: f64,
}

impl Second {
    /// One crossing: its heading, its exact fraction in lowest terms and its place as floats.
    pub fn crossing(&self, w: usize, h: usize, px: &[u8], level: u8, code: u32) -> Crossing {
        let refused = |answer| Crossing { answer, ..Crossing::default() };
        self.try_crossing(w, h, px, level, code).unwrap_or_else(refused)
    }

    fn try_crossing(&self, w: usize, h: usize, px: &[u8], k: u8, code: u32) -> Result<Crossing, Answer> {
        refusal::sides(w, h)?;
        self.samples(w, h, px)?;
        refusal::levels(&[k])?;
        let picture = Picture { w, h, px };
        let named = Edgel::named(code, w, h);
        refuse(8, named.is_none())?;
        let edgel = named.unwrap();
        refuse(10, !picture.crossed(k, edgel))?;
        let (num, den) = self.fraction(picture, k, edgel);
        let along = |end: usize| match self.fault {
            Fault::RoundedOnce => (end as f64 * den as f64 + num as f64) / den as f64,
            Fault::RoundedParts => end as f64 + (num / 2) as f64 / (den / 2) as f64,
            _ => end as f64 + num as f64 / den as f64,
        };
        Ok(Crossing {
            answer: Answer::default(),
            heading: picture.heading(k, edgel).number(),
            num,
            den,
            x: if edgel.vertical { edgel.x as f64 } else { along(edgel.x) },
            y: if edgel.vertical { along(edgel.y) } else { edgel.y as f64 },
        })
    }

    /// How far from its left or top end a crossed edgel is crossed, in lowest terms.
    pub(crate) fn fraction(&self, picture: Picture, k: u8, edgel: Edgel) -> (u32, u32) {
        let (first, last) = edgel.ends();
        let (a, b) = (picture.at(first) as i64, picture.at(last) as i64);
        let num = (2 * k as i64 + 1 - 2 * a).unsigned_abs() as u32;
        let den = (2 * (a - b).abs()) as u32;
        let common = gcd(num, den);
        match self.fault {
            Fault::Unreduced => (num, den),
            Fault::OnlyDenReduced => (num, den / common),
            _ => (num / common, den / common),
        }
    }
}

/// The greatest common divisor.
fn gcd(a: u32, b: u32) -> u32 {
    if b == 0 {
        a
    } else {
        gcd(b, a % b)
    }
}
