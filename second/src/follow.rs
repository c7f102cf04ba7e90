//! Following a line: the turn rule, and the orbit of one crossed edgel.

use std::collections::BTreeSet;

use crate::edgel::{Edgel, Heading, Picture};
use crate::{Fault, Second};

/// Where the level stands to the saddle of a cell.
#[derive(PartialEq)]
enum Saddle {
    Below,
    Met,
    Above,
}

impl Second {
    /// The crossing that follows in the cell which this one enters.
    pub(crate) fn next(&self, picture: Picture, k: u8, edgel: Edgel) -> Edgel {
        let heading = picture.heading(k, edgel);
        let (first, last) = edgel.ends();
        // The low end is at the right hand, the high end at the left hand.
        let (p0, p3) = if picture.high(k, first) { (last, first) } else { (first, last) };
        let p1 = heading.ahead(p0);
        let p2 = heading.ahead(p3);
        let right = Edgel::between(p0, p1);
        let left = Edgel::between(p2, p3);
        let straight = Edgel::between(p1, p2);
        match (picture.high(k, p1), picture.high(k, p2)) {
            (true, true) => right,
            (false, false) => left,
            (false, true) => straight,
            (true, false) => {
                let corners = [p0, p1, p2, p3].map(|corner| picture.at(corner) as i64);
                if self.right_at_saddle(k, heading, corners) {
                    right
                } else {
                    left
                }
            }
        }
    }

    /// Two ways are open. Right if the level is below the saddle, else left.
    fn right_at_saddle(&self, k: u8, heading: Heading, corners: [i64; 4]) -> bool {
        let east_or_west = matches!(heading, Heading::E | Heading::W);
        let [p0, p1, p2, p3] = match self.wrong(Fault::SaddleSouthOnly) && east_or_west {
            true => [corners[3], corners[0], corners[1], corners[2]],
            false => corners,
        };
        let equality_right = match self.fault {
            Fault::EqualityRight => true,
            Fault::EqualityRightOnce => matches!(heading, Heading::S | Heading::E),
            _ => false,
        };
        match saddle(k, p0, p1, p2, p3) {
            Saddle::Below => true,
            Saddle::Met => equality_right,
            Saddle::Above => false,
        }
    }

    /// The line through an edgel, from there on. Its edgels leave the remaining ones.
    ///
    /// The turn rule gives each crossed edgel one follower and one forerunner, so the first
    /// edgel met that no longer remains is the one the line began with.
    pub(crate) fn orbit(&self, picture: Picture, k: u8, start: u32, remaining: &mut BTreeSet<u32>) -> Vec<u32> {
        let (w, h) = (picture.w, picture.h);
        let mut line = Vec::new();
        let mut code = start;
        while remaining.remove(&code) {
            line.push(code);
            let edgel = Edgel::named(code, w, h).expect("a code of the picture");
            code = self.next(picture, k, edgel).code(w);
        }
        line
    }
}

/// The level against the saddle, both times 2d, with d negative.
fn saddle(k: u8, p0: i64, p1: i64, p2: i64, p3: i64) -> Saddle {
    let d = p0 + p2 - p1 - p3;
    let s = p0 * p2 - p1 * p3;
    match ((2 * k as i64 + 1) * d).cmp(&(2 * s)) {
        std::cmp::Ordering::Greater => Saddle::Below,
        std::cmp::Ordering::Equal => Saddle::Met,
        std::cmp::Ordering::Less => Saddle::Above,
    }
}
