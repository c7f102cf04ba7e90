//! Lent memory inside a larger piece, with guards on both sides.

use crate::rng::Rng;

/// What the places of a room hold before the call.
#[derive(Clone, Copy, Debug, PartialEq)]
pub enum Fill {
    /// The same value everywhere.
    Same(u32),
    /// Any content, from a seed.
    Any(u64),
}

/// Memory to lend: so many places with this content.
#[derive(Clone, Copy, Debug, PartialEq)]
pub struct Room {
    pub size: usize,
    pub fill: Fill,
}

impl Default for Room {
    fn default() -> Room {
        Room { size: 0, fill: Fill::Same(0) }
    }
}

impl Room {
    /// Exactly so many places of any content.
    pub fn exact(rng: &mut Rng, size: usize) -> Room {
        Room { size, fill: Fill::Any(rng.next()) }
    }

    /// Enough places: exactly the needed ones or more.
    pub fn enough(rng: &mut Rng, needed: usize) -> Room {
        let more = *rng.one_of(&[0, 0, 1, 2, 7, 100]);
        Room::exact(rng, needed + more)
    }

    /// Often enough places, at times too few.
    pub fn about(rng: &mut Rng, needed: usize) -> Room {
        match rng.below(8) {
            0 => Room::exact(rng, needed.saturating_sub(1)),
            1 => {
                let size = rng.below(needed + 1);
                Room::exact(rng, size)
            }
            _ => Room::enough(rng, needed),
        }
    }
}

/// A value that a place can hold.
pub trait Place: Copy + PartialEq {
    fn of(bits: u64) -> Self;
}

impl Place for u8 {
    fn of(bits: u64) -> u8 {
        bits as u8
    }
}

impl Place for u32 {
    fn of(bits: u64) -> u32 {
        bits as u32
    }
}

/// Guard places before and after the room.
const GUARD: usize = 16;

/// Lent memory with its guards, and what all of it held before.
pub struct Lent<T> {
    all: Vec<T>,
    before: Vec<T>,
    start: usize,
    end: usize,
}

impl<T: Place> Lent<T> {
    pub fn new(room: Room) -> Lent<T> {
        // Different sizes begin at different addresses.
        let start = GUARD + room.size % 3;
        let end = start + room.size;
        let mut guards = Rng::new(room.size as u64, 3);
        let mut all: Vec<T> = (0..start).map(|_| T::of(guards.next())).collect();
        match room.fill {
            Fill::Same(value) => all.resize(end, T::of(value as u64)),
            Fill::Any(seed) => {
                let mut rng = Rng::new(seed, 0);
                all.extend((start..end).map(|_| T::of(rng.next())));
            }
        }
        all.extend((0..GUARD).map(|_| T::of(guards.next())));
        Lent { before: all.clone(), all, start, end }
    }

    /// The part that is lent.
    pub fn part(&mut self) -> &mut [T] {
        &mut self.all[self.start..self.end]
    }

    /// Are the guards as they were?
    pub fn guards_whole(&self) -> bool {
        self.all[..self.start] == self.before[..self.start] && self.all[self.end..] == self.before[self.end..]
    }

    /// Is the lent part as it was?
    pub fn unchanged(&self) -> bool {
        self.all == self.before
    }

    /// What the lent part holds now.
    pub fn after(&self) -> Vec<T> {
        self.all[self.start..self.end].to_vec()
    }
}
