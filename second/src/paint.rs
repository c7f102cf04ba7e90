//! Painting words back.

use crate::edgel::Edgel;
use crate::refusal::{self, in_order, refuse, said, Answer};
use crate::{word, Fault, Second};

/// A turn of one level on a row, for all samples right of the column.
#[derive(Clone, Copy, PartialEq, Eq, PartialOrd, Ord)]
struct Turn {
    row: usize,
    column: usize,
    level: u8,
}

impl Second {
    /// Paints the samples that the words give back.
    pub fn paint(&self, w: usize, h: usize, v: u8, levels: &[u8], words: &[u32], room: &mut [u8]) -> Answer {
        said(self.try_paint(w, h, v, levels, words, room))
    }

    fn try_paint(
        &self, w: usize, h: usize, v: u8, levels: &[u8], words: &[u32], room: &mut [u8],
    ) -> Result<Answer, Answer> {
        refusal::sides(w, h)?;
        refusal::levels(levels)?;
        let words_good = self.words(w, h, Some(levels), words);
        in_order(self.wrong(Fault::RoomBeforeWords), words_good, refuse(9, room.len() < w * h))?;
        let turns = self.turns(w, h, words);
        for y in 0..h {
            let from = turns.partition_point(|turn| turn.row < y);
            let to = turns.partition_point(|turn| turn.row <= y);
            self.paint_row(v, levels, &turns[from..to], &mut room[y * w..(y + 1) * w]);
        }
        Ok(Answer::default())
    }

    /// The turns of the horizontal words, by row and from left to right.
    fn turns(&self, w: usize, h: usize, words: &[u32]) -> Vec<Turn> {
        let turn = |&one: &u32| {
            let edgel = Edgel::named(word::code(one), w, h).expect("a good code");
            (!edgel.vertical).then(|| Turn { row: edgel.y, column: edgel.x, level: word::level(one) })
        };
        let mut turns: Vec<Turn> = words.iter().filter_map(turn).collect();
        turns.sort();
        if self.wrong(Fault::EqualWordsOnce) {
            turns.dedup();
        }
        turns
    }

    /// One row: each sample is the number of listed levels that are high there.
    fn paint_row(&self, v: u8, levels: &[u8], turns: &[Turn], row: &mut [u8]) {
        let mut high = [false; 255];
        levels.iter().for_each(|&k| high[k as usize] = v > k);
        let mut count = levels.iter().filter(|&&k| v > k).count() as u8;
        let mut due = turns.iter().peekable();
        for (x, sample) in row.iter_mut().enumerate() {
            while let Some(turn) = due.next_if(|turn| self.column_left(turn.column, x)) {
                let level = &mut high[turn.level as usize];
                *level = !*level;
                count = if *level { count + 1 } else { count - 1 };
            }
            *sample = count;
        }
    }
}
