//! Smooth relief: values at the corners of a grid, blended in between, and sums of such grids that get finer and
//! flatter.

use crate::random::{mixed, unit};

/// A grid of values with cells of `cell` samples.
struct Grid {
    seed: u64,
    cell: f64,
}

impl Grid {
    fn corner(&self, x: i64, y: i64) -> f64 {
        let place = (x as u64) << 32 ^ (y as u64 & 0xFFFF_FFFF);
        unit(mixed(self.seed ^ mixed(place)))
    }

    fn at(&self, x: f64, y: f64) -> f64 {
        let (x, y) = (x / self.cell, y / self.cell);
        let (left, top) = (x.floor(), y.floor());
        let (i, j) = (left as i64, top as i64);
        let (across, down) = (smooth(x - left), smooth(y - top));
        let above = blend(self.corner(i, j), self.corner(i + 1, j), across);
        let below = blend(self.corner(i, j + 1), self.corner(i + 1, j + 1), across);
        blend(above, below, down)
    }
}

/// Grids added up, from coarse to fine.
pub struct Relief {
    grids: Vec<(Grid, f64)>,
}

impl Relief {
    /// So many octaves: each has cells half as large as the one before, and its values count by `share` of that one's.
    pub fn new(seed: u64, cell: f64, octaves: u32, share: f64) -> Relief {
        let grids = (0..octaves as i32).map(|i| {
            let grid = Grid { seed: seed + i as u64, cell: cell / 2f64.powi(i) };
            (grid, share.powi(i))
        });
        Relief { grids: grids.collect() }
    }

    /// The height, from 0 to the sum of the shares.
    pub fn at(&self, x: f64, y: f64) -> f64 {
        self.grids.iter().map(|(grid, share)| share * grid.at(x, y)).sum()
    }
}

/// From 0 to 1 without a kink.
pub fn smooth(t: f64) -> f64 {
    let t = t.clamp(0.0, 1.0);
    t * t * (3.0 - 2.0 * t)
}

fn blend(a: f64, b: f64, t: f64) -> f64 {
    a + (b - a) * t
}
