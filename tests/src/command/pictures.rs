//! Pictures to run the command on.

use crate::rng::Rng;

pub struct Picture {
    pub w: usize,
    pub h: usize,
    pub px: Vec<u8>,
}

impl Picture {
    pub fn pgm(&self) -> Vec<u8> {
        let mut bytes = format!("P5\n{} {}\n255\n", self.w, self.h).into_bytes();
        bytes.extend(&self.px);
        bytes
    }

    /// The same with a border of one value.
    fn bordered(mut self, value: u8) -> Picture {
        let (w, h) = (self.w, self.h);
        for (i, sample) in self.px.iter_mut().enumerate() {
            let (x, y) = (i % w, i / w);
            if x == 0 || y == 0 || x == w - 1 || y == h - 1 {
                *sample = value;
            }
        }
        self
    }
}

/// Every sample a byte of its own.
pub fn noise(rng: &mut Rng, w: usize, h: usize) -> Picture {
    let px = (0..w * h).map(|_| rng.byte()).collect();
    Picture { w, h, px }
}

pub fn noisy_matte(rng: &mut Rng, w: usize, h: usize) -> Picture {
    let border = rng.byte();
    noise(rng, w, h).bordered(border)
}

/// Soft discs and holes.
pub fn soft_matte(rng: &mut Rng, w: usize, h: usize) -> Picture {
    let mut picture = Picture { w, h, px: vec![0; w * h] };
    for _ in 0..12 {
        let (cx, cy) = (rng.below(w) as f64, rng.below(h) as f64);
        let (radius, edge) = (rng.between(2, w / 3) as f64, rng.between(1, 30) as f64);
        let hole = rng.once_in(3);
        for (i, sample) in picture.px.iter_mut().enumerate() {
            let (x, y) = ((i % w) as f64 - cx, (i / w) as f64 - cy);
            let cover = (((radius - x.hypot(y)) / edge + 0.5).clamp(0.0, 1.0) * 255.0) as u8;
            *sample = if hole { (*sample).min(255 - cover) } else { (*sample).max(cover) };
        }
    }
    picture.bordered(0)
}

/// Samples of five values, far enough from the levels between them that a renderer tells all samples apart.
pub fn coarse_matte(rng: &mut Rng, w: usize, h: usize) -> Picture {
    let px = (0..w * h).map(|_| 60 * rng.below(5) as u8).collect();
    Picture { w, h, px }.bordered(60 * rng.below(5) as u8)
}

/// The levels between the values of a coarse matte.
pub const COARSE: [u8; 4] = [29, 89, 149, 209];
