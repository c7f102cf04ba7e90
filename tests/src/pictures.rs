//! Pictures of many kinds, level lists, and cases made of them.

use crate::calls::Call;
use crate::case::Case;
use crate::lent::Room;
use crate::rng::Rng;

/// A picture with a constant border.
#[derive(Clone)]
pub struct Picture {
    pub w: usize,
    pub h: usize,
    pub px: Vec<u8>,
}

impl Picture {
    /// Inner samples from a function, and a border.
    pub fn new(w: usize, h: usize, border: u8, mut inner: impl FnMut(usize, usize) -> u8) -> Picture {
        let sample = |place: usize| {
            let (x, y) = (place % w, place / w);
            if x == 0 || y == 0 || x == w - 1 || y == h - 1 {
                border
            } else {
                inner(x, y)
            }
        };
        Picture { w, h, px: (0..w * h).map(sample).collect() }
    }

    /// For each sample, how many of the levels it is high at.
    pub fn stepped(&self, levels: &[u8]) -> Vec<u8> {
        let below = levels_below(levels);
        self.px.iter().map(|&sample| below[sample as usize] as u8).collect()
    }

    /// How many crossings there are at the levels, and how many of them are horizontal.
    pub fn crossings(&self, levels: &[u8]) -> (usize, usize) {
        let below = levels_below(levels);
        let levels_between = |a: usize, b: usize| below[self.px[a] as usize].abs_diff(below[self.px[b] as usize]);
        let places = 0..self.px.len();
        let across = places.clone().filter(|place| place % self.w + 1 < self.w);
        let down = places.filter(|place| place / self.w + 1 < self.h);
        let horizontal: usize = across.map(|place| levels_between(place, place + 1)).sum();
        let vertical: usize = down.map(|place| levels_between(place, place + self.w)).sum();
        (horizontal + vertical, horizontal)
    }

    /// A list or tree case, with rooms sized by a rule.
    pub fn case(&self, call: Call, levels: &[u8], rng: &mut Rng, room: fn(&mut Rng, usize) -> Room) -> Case {
        let (all, horizontal) = self.crossings(levels);
        let mut case = Case { call, w: self.w, h: self.h, px: self.px.clone(), ..Case::default() };
        case.levels = levels.to_vec();
        case.work = room(rng, self.px.len());
        case.places = room(rng, all);
        if call == Call::Tree {
            case.entries = room(rng, horizontal / 2);
        }
        case
    }
}

/// For each value, how many of the levels are below it.
fn levels_below(levels: &[u8]) -> [usize; 256] {
    std::array::from_fn(|value| levels.iter().filter(|&&k| (k as usize) < value).count())
}

/// Sides: mostly small, often up to the given one, at times a side of 2.
pub fn sides(rng: &mut Rng, most: usize) -> (usize, usize) {
    let mut side = || match rng.below(10) {
        0 => 2,
        1..=5 => rng.between(3, most.min(7)),
        _ => rng.between(2, most),
    };
    (side(), side())
}

/// Any kind of picture.
pub fn any(rng: &mut Rng, w: usize, h: usize) -> Picture {
    match rng.below(12) {
        0 => of_values(rng, w, h, 2),
        1 => {
            let values = rng.between(3, 6);
            of_values(rng, w, h, values)
        }
        2 => {
            let border = rng.byte();
            Picture::new(w, h, border, |_, _| rng.byte())
        }
        3 => blobs(rng, w, h),
        4 => ramp(rng, w, h),
        5 => checkers(rng, w, h, 1),
        6 => checkers(rng, w, h, 9),
        7 => holes(rng, w, h),
        8 => rings(rng, w, h),
        9 => dots(rng, w, h),
        10 => low_values(rng, w, h),
        _ => {
            let value = rng.byte();
            Picture::new(w, h, value, |_, _| value)
        }
    }
}

/// Samples from a few values, the border from them too.
pub fn of_values(rng: &mut Rng, w: usize, h: usize, count: usize) -> Picture {
    let values: Vec<u8> = (0..count).map(|_| rng.byte()).collect();
    let border = *rng.one_of(&values);
    Picture::new(w, h, border, |_, _| *rng.one_of(&values))
}

/// Samples from 0 to 4, so that saddles are met exactly.
pub fn low_values(rng: &mut Rng, w: usize, h: usize) -> Picture {
    let most = rng.between(1, 4);
    let border = rng.below(most + 1) as u8;
    Picture::new(w, h, border, |_, _| rng.below(most + 1) as u8)
}

/// Round hills on even ground.
pub fn blobs(rng: &mut Rng, w: usize, h: usize) -> Picture {
    let ground = rng.byte();
    let count = rng.between(1, 6);
    let hills: Vec<[i64; 4]> = (0..count)
        .map(|_| [rng.below(w) as i64, rng.below(h) as i64, rng.between(1, w.max(h)) as i64, rng.byte() as i64])
        .collect();
    Picture::new(w, h, ground, |x, y| {
        let top = |hill: &[i64; 4]| {
            let away = (x as i64 - hill[0]).pow(2) + (y as i64 - hill[1]).pow(2);
            hill[3] - hill[3] * away / hill[2].pow(2)
        };
        hills.iter().map(top).fold(ground as i64, i64::max).clamp(0, 255) as u8
    })
}

/// An even slope.
fn ramp(rng: &mut Rng, w: usize, h: usize) -> Picture {
    let (across, down, border) = (rng.below(40), rng.below(40), rng.byte());
    Picture::new(w, h, border, |x, y| ((x * across + y * down) / 4) as u8)
}

/// A checkerboard, with its values spread a little.
pub fn checkers(rng: &mut Rng, w: usize, h: usize, spread: usize) -> Picture {
    let (a, b, border) = (rng.byte(), rng.byte(), rng.byte());
    Picture::new(w, h, border, |x, y| {
        let value = if (x + y) % 2 == 0 { a } else { b };
        value.saturating_add(rng.below(spread) as u8)
    })
}

/// A white border and ground with holes in it, and hills in the holes.
fn holes(rng: &mut Rng, w: usize, h: usize) -> Picture {
    let white = *rng.one_of(&[255, 255, 200]);
    let mut picture = Picture::new(w, h, white, |_, _| white);
    for _ in 0..rng.between(1, 8) {
        let (left, top) = (rng.below(w), rng.below(h));
        let (right, bottom) = (rng.between(left, w - 1), rng.between(top, h - 1));
        let value = rng.byte();
        let (old, border) = (picture.px.clone(), picture.px[0]);
        picture = Picture::new(w, h, border, |x, y| {
            let inside = (left..=right).contains(&x) && (top..=bottom).contains(&y);
            if inside {
                value
            } else {
                old[y * w + x]
            }
        });
    }
    picture
}

/// Rings inside rings.
fn rings(rng: &mut Rng, w: usize, h: usize) -> Picture {
    let values = [rng.byte(), rng.byte(), rng.byte()];
    let two = rng.once_in(2);
    Picture::new(w, h, values[0], |x, y| {
        let depth = x.min(y).min(w - 1 - x).min(h - 1 - y);
        if two {
            values[depth % 2]
        } else {
            values[depth % 3]
        }
    })
}

/// Single samples on even ground.
fn dots(rng: &mut Rng, w: usize, h: usize) -> Picture {
    let ground = rng.byte();
    let gap = rng.between(2, 5);
    Picture::new(w, h, ground, |x, y| if x % gap == 1 && y % gap == 1 { rng.byte() } else { ground })
}

/// A level list: none, one, some, those beside the picture's values, or all.
pub fn levels(rng: &mut Rng, picture: &Picture) -> Vec<u8> {
    let mut chosen = [false; 256];
    match rng.below(10) {
        0 => {}
        1..=3 => chosen[rng.below(255)] = true,
        4 => (0..rng.between(2, 12)).for_each(|_| chosen[rng.below(255)] = true),
        5 => chosen = [true; 256],
        _ => {
            for _ in 0..rng.between(1, 5) {
                let value = *rng.one_of(&picture.px);
                chosen[value as usize] = true;
                chosen[value.saturating_sub(1) as usize] = true;
            }
        }
    }
    (0..255).filter(|&k| chosen[k as usize]).collect()
}

/// All levels.
pub fn all_levels() -> Vec<u8> {
    (0..255).collect()
}
