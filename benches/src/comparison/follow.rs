//! One line, followed from its lead until it comes back: a loop for each heading, so that a straight run stays in its
//! loop.

use super::FLAG;

/// Where a run south or north ends.
enum Turn {
    East,
    West,
    Lead,
}

/// A line on its way. `e` is the place of the left or top end of the edgel that is crossed now.
pub struct Walk {
    here: *const u8,
    above: *const u8,
    below: *const u8,
    open: *mut u64,
    w: isize,
    k: u8,
    mark: u32,
    lead: isize,
    e: isize,
    out: *mut u32,
}

impl Walk {
    /// The line of the lead at place `lead`, to be written from `out` on.
    ///
    /// # Safety
    /// The samples have a constant border and rows of `w`, the horizontal edgel at `lead` is crossed at `k`, `open`
    /// has a bit for each place, and the whole line has room at `out`.
    #[inline(always)]
    pub unsafe fn new(px: *const u8, w: usize, k: u8, open: *mut u64, lead: usize, out: *mut u32) -> Walk {
        let (above, below) = (px.wrapping_sub(w), px.wrapping_add(w));
        let (lead, mark) = (lead as isize, u32::from(k) << 23);
        Walk { here: px, above, below, open, w: w as isize, k, mark, lead, e: lead, out }
    }

    /// Follows the line, and answers where its words end.
    ///
    /// # Safety
    /// As for `new`.
    #[inline(never)]
    pub unsafe fn run(mut self) -> *mut u32 {
        let first = self.out;
        let mut south = *self.at(self.here) <= self.k;
        loop {
            let turn = if south { self.south() } else { self.north() };
            south = match turn {
                Turn::East => self.east(),
                Turn::West => self.west(),
                Turn::Lead => break,
            };
            if self.e == self.lead {
                break;
            }
        }
        *first |= FLAG;
        self.out
    }

    /// The place of the edgel's end on the row here, above or below. Only a horizontal edgel asks for the row above,
    /// and none is crossed on the first row.
    #[inline(always)]
    fn at(&self, row: *const u8) -> *const u8 {
        row.wrapping_offset(self.e)
    }

    /// The horizontal edgel is followed now, not open any more.
    #[inline(always)]
    unsafe fn close(&mut self) {
        *self.open.offset(self.e >> 6) &= !(1 << (self.e & 63));
    }

    #[inline(always)]
    unsafe fn put(&mut self, vertical: u32) {
        *self.out = (2 * self.e as u32 + vertical) | self.mark;
        self.out = self.out.add(1);
    }

    /// Right at a saddle; the corners are named from the entry.
    #[inline(always)]
    fn saddle(&self, p: [u8; 4]) -> bool {
        let [p0, p1, p2, p3] = p.map(i32::from);
        (2 * i32::from(self.k) + 1) * (p0 + p2 - p1 - p3) > 2 * (p0 * p2 - p1 * p3)
    }

    #[inline(always)]
    unsafe fn south(&mut self) -> Turn {
        loop {
            self.close();
            self.put(0);
            let (here, below) = (self.at(self.here), self.at(self.below));
            let (right, left) = (*below > self.k, *below.add(1) <= self.k);
            if !right && !left {
                self.e += self.w;
                if self.e == self.lead {
                    return Turn::Lead;
                }
                continue;
            }
            if right && (!left || self.saddle([*here, *below, *below.add(1), *here.add(1)])) {
                return Turn::West;
            }
            self.e += 1;
            return Turn::East;
        }
    }

    #[inline(always)]
    unsafe fn north(&mut self) -> Turn {
        loop {
            self.close();
            self.put(0);
            let (here, above) = (self.at(self.here), self.at(self.above));
            let (right, left) = (*above.add(1) > self.k, *above <= self.k);
            if !right && !left {
                self.e -= self.w;
                if self.e == self.lead {
                    return Turn::Lead;
                }
                continue;
            }
            let turn = right && (!left || self.saddle([*here.add(1), *above.add(1), *above, *here]));
            self.e += if turn { 1 - self.w } else { -self.w };
            return if turn { Turn::East } else { Turn::West };
        }
    }

    /// Answers whether the line goes on south.
    #[inline(always)]
    unsafe fn east(&mut self) -> bool {
        loop {
            self.put(1);
            let (here, below) = (self.at(self.here), self.at(self.below));
            let (right, left) = (*below.add(1) > self.k, *here.add(1) <= self.k);
            if !right && !left {
                self.e += 1;
                continue;
            }
            if right && (!left || self.saddle([*below, *below.add(1), *here.add(1), *here])) {
                self.e += self.w;
                return true;
            }
            return false;
        }
    }

    /// Answers whether the line goes on south.
    #[inline(always)]
    unsafe fn west(&mut self) -> bool {
        loop {
            self.put(1);
            let (here, below) = (self.at(self.here), self.at(self.below));
            let (right, left) = (*here.sub(1) > self.k, *below.sub(1) <= self.k);
            if !right && !left {
                self.e -= 1;
                continue;
            }
            if right && (!left || self.saddle([*here, *here.sub(1), *below.sub(1), *below])) {
                self.e -= 1;
                return false;
            }
            self.e += self.w - 1;
            return true;
        }
    }
}
