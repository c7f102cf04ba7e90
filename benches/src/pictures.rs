//! The pictures that are timed, always the same ones.

use crate::matte;
use crate::random::Random;
use crate::relief::Relief;

/// A picture with a constant border.
pub struct Picture {
    pub name: &'static str,
    pub w: usize,
    pub h: usize,
    pub px: Vec<u8>,
}

impl Picture {
    /// The samples with 0 all round.
    pub fn framed(name: &'static str, w: usize, h: usize, mut px: Vec<u8>) -> Picture {
        px[..w].fill(0);
        px[w * (h - 1)..].fill(0);
        for row in px.chunks_exact_mut(w) {
            row[0] = 0;
            row[w - 1] = 0;
        }
        Picture { name, w, h, px }
    }

    pub fn samples(&self) -> usize {
        self.w * self.h
    }

    /// The middle of the picture, so many samples on a side, framed anew.
    pub fn middle(&self, side: usize) -> Picture {
        let (left, top) = ((self.w - side) / 2, (self.h - side) / 2);
        let rows = self.px.chunks_exact(self.w).skip(top).take(side);
        let px = rows.flat_map(|row| &row[left..left + side]).copied().collect();
        Picture::framed(self.name, side, side, px)
    }
}

/// A 2K matte with soft edges and hair.
pub fn matte() -> Picture {
    let (w, h) = (2048, 1556);
    Picture::framed("matte", w, h, matte::samples(w, h))
}

/// Smooth terrain, from 0 to 255.
pub fn terrain() -> Picture {
    let side = 2048;
    let relief = Relief::new(21, 140.0, 3, 0.35);
    let height = |i: usize| relief.at((i % side) as f64, (i / side) as f64);
    let heights: Vec<f64> = (0..side * side).map(height).collect();
    let least = heights.iter().copied().fold(f64::MAX, f64::min);
    let most = heights.iter().copied().fold(f64::MIN, f64::max);
    let px = heights.iter().map(|v| ((v - least) / (most - least) * 255.0).round() as u8);
    Picture::framed("terrain", side, side, px.collect())
}

/// Every sample a random byte.
pub fn noise() -> Picture {
    let side = 1024;
    let mut random = Random::new(4);
    Picture::framed("noise", side, side, (0..side * side).map(|_| random.byte()).collect())
}

/// Nothing is crossed at any level.
pub fn flat() -> Picture {
    let side = 2048;
    Picture { name: "flat", w: side, h: side, px: vec![90; side * side] }
}

/// So many levels, spread evenly.
pub fn levels(count: usize) -> Vec<u8> {
    match count {
        1 => vec![127],
        255 => (0..255).collect(),
        _ => (0..count).map(|i| (i * 256 / count + 128 / count) as u8).collect(),
    }
}
