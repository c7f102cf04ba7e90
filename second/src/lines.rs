//! The lines of a word list, and membership of a sample.

use crate::edgel::Edgel;
use crate::refusal::{self, in_order, refuse, Answer};
use crate::{word, Fault, Second};

impl Second {
    /// Line n of a word list as a part of that list, empty and at its start if there is none.
    pub fn line_part<'a>(&self, words: &'a [u32], n: usize) -> &'a [u32] {
        let mut starts: Vec<usize> = (0..words.len()).filter(|&place| word::flagged(words[place])).collect();
        if self.wrong(Fault::LineWithoutFlag) && !words.is_empty() && starts.first() != Some(&0) {
            starts.insert(0, 0);
        }
        match starts.get(n) {
            None if self.wrong(Fault::NoLineAtEnd) => &words[words.len()..],
            None => &words[..0],
            Some(&start) => &words[start..starts.get(n + 1).copied().unwrap_or(words.len())],
        }
    }

    /// Is the sample inside line n?
    pub fn member(&self, w: usize, h: usize, words: &[u32], n: usize, x: usize, y: usize) -> (Answer, bool) {
        match self.try_member(w, h, words, n, x, y) {
            Ok(inside) => (Answer::default(), inside),
            Err(answer) => (answer, false),
        }
    }

    fn try_member(&self, w: usize, h: usize, words: &[u32], n: usize, x: usize, y: usize) -> Result<bool, Answer> {
        refusal::sides(w, h)?;
        let line = self.line_part(words, n);
        let codes_good = self.words(w, h, None, words);
        let there = refuse(11, line.is_empty() || x >= w || y >= h);
        in_order(self.wrong(Fault::LineBeforeWords), codes_good, there)?;
        let left = |&&one: &&u32| {
            let edgel = Edgel::named(word::code(one), w, h).expect("a good code");
            !edgel.vertical && edgel.y == y && self.column_left(edgel.x, x)
        };
        Ok(line.iter().filter(left).count() % 2 == 1)
    }

    /// Is an edgel in this column left of a sample in column x?
    pub(crate) fn column_left(&self, column: usize, x: usize) -> bool {
        column < x || (self.wrong(Fault::ColumnIncluded) && column == x)
    }
}
