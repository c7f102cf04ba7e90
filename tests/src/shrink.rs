//! Makes a failing case smaller while it still fails.

use std::time::{Duration, Instant};

use crate::case::Case;
use crate::lent::{Fill, Room};

/// The time after which a case is small enough.
const PATIENCE: Duration = Duration::from_secs(15);

type Fails<'a> = &'a dyn Fn(&Case) -> bool;

struct Shrinker<'a> {
    case: Case,
    fails: Fails<'a>,
    started: Instant,
    smaller: bool,
}

/// A smaller case that fails too. Its rooms are left alone unless asked.
pub fn shrink(case: &Case, rooms: bool, fails: Fails) -> Case {
    let mut shrinker = Shrinker { case: case.clone(), fails, started: Instant::now(), smaller: true };
    while shrinker.smaller && shrinker.in_time() {
        shrinker.smaller = false;
        shrinker.cut(|case| case.w, cut_columns);
        shrinker.cut(|case| case.h, cut_rows);
        shrinker.cut(|case| case.levels.len(), |case, at, count| cut_list(&mut case.levels, at, count));
        shrinker.cut(|case| case.words.len(), |case, at, count| cut_list(&mut case.words, at, count));
        shrinker.cut(|case| case.input.len(), |case, at, count| cut_list(&mut case.input, at, count));
        shrinker.flatten();
        if rooms {
            shrinker.rooms();
        }
        shrinker.numbers();
    }
    shrinker.case
}

impl Shrinker<'_> {
    fn in_time(&self) -> bool {
        self.started.elapsed() < PATIENCE
    }

    /// Keeps the candidate if it fails as well.
    fn keep(&mut self, candidate: Case) -> bool {
        let keeps = self.in_time() && (self.fails)(&candidate);
        if keeps {
            self.case = candidate;
            self.smaller = true;
        }
        keeps
    }

    /// Tries without parts of a list, large parts first.
    fn cut(&mut self, length: impl Fn(&Case) -> usize, cut: impl Fn(&mut Case, usize, usize) -> bool) {
        let mut step = length(&self.case);
        while step > 0 && self.in_time() {
            let mut at = 0;
            while at < length(&self.case) && self.in_time() {
                let mut candidate = self.case.clone();
                let count = step.min(length(&self.case) - at);
                if !cut(&mut candidate, at, count) || !self.keep(candidate) {
                    at += step;
                }
            }
            step /= 2;
        }
    }

    /// Tries with samples of the first sample's value, and with smaller samples.
    fn flatten(&mut self) {
        for at in 0..self.case.px.len() {
            if !self.in_time() {
                return;
            }
            let now = self.case.px[at];
            for value in [self.case.px[0], 0, 1, now / 2, now.saturating_sub(1)] {
                if (value < now || (value == self.case.px[0] && value != now)) && self.keep_sample(at, value) {
                    break;
                }
            }
        }
    }

    fn keep_sample(&mut self, at: usize, value: u8) -> bool {
        let mut candidate = self.case.clone();
        candidate.px[at] = value;
        // Only towards 0 in the end, so that this ends.
        let before: u64 =
            self.case.px.iter().map(|&sample| (sample != self.case.px[0]) as u64 * 256 + sample as u64).sum();
        let after: u64 =
            candidate.px.iter().map(|&sample| (sample != candidate.px[0]) as u64 * 256 + sample as u64).sum();
        after < before && self.keep(candidate)
    }

    fn rooms(&mut self) {
        let fields: [fn(&mut Case) -> &mut Room; 4] =
            [|case| &mut case.work, |case| &mut case.places, |case| &mut case.entries, |case| &mut case.room];
        for field in fields {
            let mut plain = self.case.clone();
            if field(&mut plain).fill != Fill::Same(9) {
                field(&mut plain).fill = Fill::Same(9);
                self.keep(plain);
            }
            while self.number(|case| &mut field(case).size) {}
        }
    }

    fn numbers(&mut self) {
        while self.number(|case| &mut case.n) {}
        while self.number(|case| &mut case.x) {}
        while self.number(|case| &mut case.y) {}
    }

    /// Tries a smaller number.
    fn number(&mut self, field: impl Fn(&mut Case) -> &mut usize) -> bool {
        let now = *field(&mut self.case);
        [0, now / 2, now.saturating_sub(1)].into_iter().any(|value| {
            let mut candidate = self.case.clone();
            *field(&mut candidate) = value;
            value < now && self.keep(candidate)
        })
    }
}

fn cut_list<T>(list: &mut Vec<T>, at: usize, count: usize) -> bool {
    list.drain(at..at + count);
    true
}

fn is_picture(case: &Case) -> bool {
    case.w > 0 && case.h > 0 && case.w.checked_mul(case.h) == Some(case.px.len())
}

fn cut_columns(case: &mut Case, at: usize, count: usize) -> bool {
    if !is_picture(case) || case.w < count + 2 {
        return false;
    }
    let w = case.w;
    let mut column = (0..w * case.h).map(|place| place % w);
    case.px.retain(|_| column.next().is_some_and(|x| x < at || x >= at + count));
    case.w -= count;
    true
}

fn cut_rows(case: &mut Case, at: usize, count: usize) -> bool {
    if !is_picture(case) || case.h < count + 2 {
        return false;
    }
    case.px.drain(at * case.w..(at + count) * case.w);
    case.h -= count;
    true
}
