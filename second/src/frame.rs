//! Framing: the border set to its lower median.

use crate::refusal::{self, refuse, said, Answer};
use crate::{Fault, Second};

impl Second {
    /// Copies the picture into the room, with a border of one value.
    pub fn frame(&self, w: usize, h: usize, px: &[u8], room: &mut [u8]) -> Answer {
        said(self.try_frame(w, h, px, room))
    }

    fn try_frame(&self, w: usize, h: usize, px: &[u8], room: &mut [u8]) -> Result<Answer, Answer> {
        refusal::sides(w, h)?;
        self.samples(w, h, px)?;
        refuse(9, room.len() < w * h)?;
        let on_border = |place: usize| {
            let (x, y) = (place % w, place / w);
            x == 0 || x == w - 1 || y == 0 || y == h - 1
        };
        let mut border: Vec<u8> = (0..w * h).filter(|&place| on_border(place)).map(|place| px[place]).collect();
        border.sort();
        let middle = border.len() / 2;
        let median = border[if self.wrong(Fault::UpperMedian) { middle } else { middle - 1 }];
        for place in 0..w * h {
            room[place] = if on_border(place) { median } else { px[place] };
        }
        Ok(Answer::default())
    }
}
