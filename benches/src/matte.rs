//! A matte as it comes from a scanner: white shapes on black with soft edges, holes, hair, and grain where it is
//! neither black nor white.

use crate::random::Random;
use crate::relief::{smooth, Relief};

/// A soft-edged ellipse: the centre as parts of the sides, the radii and the width of the edge in samples.
struct Blob {
    x: f64,
    y: f64,
    across: f64,
    down: f64,
    edge: f64,
}

const fn blob(x: f64, y: f64, across: f64, down: f64, edge: f64) -> Blob {
    Blob { x, y, across, down, edge }
}

const SHAPES: [Blob; 6] = [
    blob(0.45, 0.62, 360.0, 430.0, 10.0),
    blob(0.45, 0.29, 210.0, 240.0, 6.0),
    blob(0.83, 0.70, 150.0, 170.0, 24.0),
    blob(0.15, 0.25, 120.0, 90.0, 7.0),
    blob(0.86, 0.21, 70.0, 110.0, 40.0),
    blob(0.12, 0.80, 90.0, 60.0, 12.0),
];

const HOLES: [Blob; 3] =
    [blob(0.40, 0.60, 60.0, 60.0, 8.0), blob(0.52, 0.75, 35.0, 40.0, 16.0), blob(0.83, 0.72, 40.0, 35.0, 20.0)];

/// How many strands of hair.
const STRANDS: usize = 560;

/// The matte while it is made: how white each sample is, from 0 to 1.
struct Plate {
    w: usize,
    h: usize,
    white: Vec<f32>,
}

/// The samples, without a frame.
pub fn samples(w: usize, h: usize) -> Vec<u8> {
    let mut random = Random::new(2019);
    let mut plate = Plate { w, h, white: vec![0.0; w * h] };
    for shape in &SHAPES {
        plate.lay(shape, |white, cover| white.max(cover));
    }
    for hole in &HOLES {
        plate.lay(hole, |white, cover| white.min(1.0 - cover));
    }
    for i in 0..STRANDS {
        plate.strand(&SHAPES[i % 2], &mut random);
    }
    plate.white.iter().map(|&white| grained(white, &mut random)).collect()
}

/// A sample, with grain of up to 2 either way where it is neither black nor white.
fn grained(white: f32, random: &mut Random) -> u8 {
    let grain = (random.next() % 5) as i32 - 2;
    match (white * 255.0).round() as i32 {
        plain @ (0 | 255) => plain as u8,
        soft => (soft + grain).clamp(0, 255) as u8,
    }
}

impl Plate {
    /// Lays a blob with a wavy outline on the plate.
    fn lay(&mut self, blob: &Blob, with: impl Fn(f32, f32) -> f32) {
        let waves = Relief::new(77, 160.0, 2, 0.5);
        let (x, y) = (blob.x * self.w as f64, blob.y * self.h as f64);
        let radius = blob.across.min(blob.down);
        let reach = |r: f64| 1.25 * r + blob.edge;
        for j in range(y, reach(blob.down), self.h) {
            for i in range(x, reach(blob.across), self.w) {
                let (dx, dy) = ((i as f64 - x) / blob.across, (j as f64 - y) / blob.down);
                let wave = (waves.at(i as f64, j as f64) / 1.5 - 0.5) * 0.4;
                let outside = ((dx * dx + dy * dy).sqrt() - 1.0 + wave) * radius;
                let cover = smooth(0.5 - outside / blob.edge) as f32;
                let white = &mut self.white[j * self.w + i];
                *white = with(*white, cover);
            }
        }
    }

    /// Draws a curved strand outward from the rim of a blob, thinner towards its end.
    fn strand(&mut self, blob: &Blob, random: &mut Random) {
        let (mut dx, mut dy) = direction(random);
        let mut x = blob.x * self.w as f64 + 0.97 * blob.across * dx;
        let mut y = blob.y * self.h as f64 + 0.97 * blob.down * dy;
        let (length, bend) = (random.between(40.0, 330.0), random.between(-0.006, 0.006));
        let (wide, grey) = (random.between(0.5, 1.5), random.between(0.45, 1.0));
        (dx, dy) = turned((dx, dy), random.between(-0.5, 0.5));
        let mut gone = 0.0;
        while gone < length {
            self.dab(x, y, wide * (1.0 - 0.6 * gone / length), grey);
            (x, y) = (x + 0.5 * dx, y + 0.5 * dy);
            (dx, dy) = turned((dx, dy), 0.5 * bend);
            gone += 0.5;
        }
    }

    /// A soft dot.
    fn dab(&mut self, x: f64, y: f64, radius: f64, grey: f64) {
        for j in range(y, 4.0, self.h) {
            for i in range(x, 4.0, self.w) {
                let (dx, dy) = (i as f64 - x, j as f64 - y);
                let cover = (radius + 1.5 - (dx * dx + dy * dy).sqrt()) / 2.5;
                let white = &mut self.white[j * self.w + i];
                *white = white.max((grey * cover.clamp(0.0, 1.0)) as f32);
            }
        }
    }
}

/// The whole places within reach of a middle that lie on a side.
fn range(middle: f64, reach: f64, side: usize) -> std::ops::Range<usize> {
    let place = |v: f64| v.clamp(0.0, side as f64) as usize;
    place(middle - reach)..place(middle + reach + 1.0)
}

/// A direction, any one.
fn direction(random: &mut Random) -> (f64, f64) {
    loop {
        let (x, y) = (random.between(-1.0, 1.0), random.between(-1.0, 1.0));
        let square = x * x + y * y;
        if (0.01..1.0).contains(&square) {
            return (x / square.sqrt(), y / square.sqrt());
        }
    }
}

/// The direction turned by about so much, its length kept at 1.
fn turned((x, y): (f64, f64), by: f64) -> (f64, f64) {
    let (x, y) = (x - by * y, y + by * x);
    let length = (x * x + y * y).sqrt();
    (x / length, y / length)
}
