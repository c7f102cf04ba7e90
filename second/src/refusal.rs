//! Answers, and the refusals that several calls share.

use crate::edgel::Edgel;
use crate::word;
use crate::{Fault, Second};

/// What every call says. Number 0 is done.
#[derive(Clone, Copy, Debug, PartialEq, Eq, Default)]
pub struct Answer {
    pub number: u32,
    pub place: u64,
    pub words: u64,
    pub lines: u64,
}

/// Either the call may go on, or it is refused with this answer.
pub type Checked = Result<(), Answer>;

impl Answer {
    /// Done, with the words handed over and the flags among them.
    pub fn listed(words: &[u32]) -> Answer {
        let lines = words.iter().filter(|&&w| word::flagged(w)).count() as u64;
        Answer { words: words.len() as u64, lines, ..Answer::default() }
    }
}

/// Refuse with this number and place 0 when the condition holds.
pub fn refuse(number: u32, when: bool) -> Checked {
    refuse_at(number, 0, when)
}

/// Refuse with this number and place when the condition holds.
pub fn refuse_at(number: u32, place: u64, when: bool) -> Checked {
    match when {
        true => Err(Answer { number, place, ..Answer::default() }),
        false => Ok(()),
    }
}

/// The one answer of a call, whether it was done or refused.
pub fn said(result: Result<Answer, Answer>) -> Answer {
    result.unwrap_or_else(|refusal| refusal)
}

/// Two refusals one after the other, or the other way round.
pub fn in_order(swapped: bool, first: Checked, second: Checked) -> Checked {
    if swapped {
        second?;
        first
    } else {
        first?;
        second
    }
}

/// Refusal 1.
pub fn sides(w: usize, h: usize) -> Checked {
    let fits = |side: usize| (2..=2048).contains(&side);
    refuse(1, !(fits(w) && fits(h)))
}

/// Refusal 3.
pub fn levels(list: &[u8]) -> Checked {
    let ascends = list.windows(2).all(|pair| pair[0] < pair[1]);
    refuse(3, list.contains(&255) || !ascends)
}

/// The border places, row by row: all of the first and the last row, two of every other.
fn border_places(w: usize, h: usize) -> impl Iterator<Item = usize> {
    (0..h).flat_map(move |y| {
        let step = if y == 0 || y == h - 1 { 1 } else { w - 1 };
        (0..w).step_by(step).map(move |x| y * w + x)
    })
}

impl Second {
    /// Refusals 4, 17, 18 and 19: all border samples must equal the first sample. The place is the first that does not, the
    /// number says which edge it is on.
    pub(crate) fn border(&self, w: usize, h: usize, px: &[u8]) -> Checked {
        let other = |place: &usize| match self.wrong(Fault::UnlikeBefore) {
            true => *place > 0 && px[*place] != px[*place - 1],
            false => px[*place] != px[0],
        };
        let mut others = border_places(w, h).filter(other);
        let found = if self.wrong(Fault::LastHot) { others.last() } else { others.next() };
        let Some(place) = found else {
            return Ok(());
        };
        let told = if self.wrong(Fault::HotWithoutPlace) { 0 } else { place as u64 };
        refuse_at(self.edge(w, h, place), told, true)
    }

    /// The number of a border place's edge. A corner counts as its row.
    fn edge(&self, w: usize, h: usize, place: usize) -> u32 {
        let (x, y) = (place % w, place / w);
        let (left, right) = if self.wrong(Fault::SidesExchanged) { (19, 18) } else { (18, 19) };
        let row = [(y == 0, 4), (y == h - 1, 17)];
        let column = [(x == 0, left), (x == w - 1, right)];
        let order = if self.wrong(Fault::CornerAsColumn) { [column, row] } else { [row, column] };
        order.concat().into_iter().find(|edge| edge.0).expect("a border place").1
    }

    /// Refusal 2.
    pub(crate) fn samples(&self, w: usize, h: usize, px: &[u8]) -> Checked {
        let more_taken = self.wrong(Fault::MoreSamplesTaken) && px.len() > w * h;
        refuse(2, px.len() != w * h && !more_taken)
    }

    /// Refusal 8 of a word list. Without levels, only the codes are looked at.
    pub(crate) fn words(&self, w: usize, h: usize, levels: Option<&[u8]>, words: &[u32]) -> Checked {
        let bad = |&one: &u32| {
            let listed = levels.is_none_or(|list| list.contains(&word::level(one)));
            Edgel::named(word::code(one), w, h).is_none() || !listed
        };
        let place = match self.wrong(Fault::LastBadWord) {
            true => words.iter().rposition(bad),
            false => words.iter().position(bad),
        };
        refuse_at(8, place.unwrap_or(0) as u64, place.is_some())
    }
}
