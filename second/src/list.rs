//! The list of all outlines at the listed levels.

use std::collections::BTreeSet;

use crate::edgel::{Edgel, Heading, Picture};
use crate::refusal::{self, in_order, refuse, refuse_at, said, Answer, Checked};
use crate::{word, Fault, Second};

/// One outline: its level and its codes from the lead on.
pub struct Line {
    pub level: u8,
    pub codes: Vec<u32>,
}

impl Line {
    fn words(&self) -> impl Iterator<Item = u32> + '_ {
        let flag = |place| if place == 0 { word::FLAG } else { 0 };
        self.codes.iter().enumerate().map(move |(place, &code)| word::of(code, self.level) + flag(place))
    }
}

/// The words of lines, one after the other.
pub fn words_of(lines: &[Line]) -> Vec<u32> {
    lines.iter().flat_map(Line::words).collect()
}

impl Second {
    /// Lists all outlines into the word places.
    pub fn list(&self, w: usize, h: usize, px: &[u8], levels: &[u8], work: &mut [u8], words: &mut [u32]) -> Answer {
        said(self.try_list(Picture { w, h, px }, levels, work, words))
    }

    fn try_list(&self, picture: Picture, levels: &[u8], work: &mut [u8], words: &mut [u32]) -> Result<Answer, Answer> {
        self.list_refusals(picture, levels, work)?;
        let list = words_of(&self.lines(picture, levels));
        self.word_places(&list, words)?;
        self.hand_over_list(picture, levels, &list, work, words);
        Ok(Answer::listed(&list))
    }

    /// Refusals 1 2 3, of the border, and 5 of list and tree.
    pub(crate) fn list_refusals(&self, picture: Picture, levels: &[u8], work: &[u8]) -> Checked {
        let Picture { w, h, px } = picture;
        refusal::sides(w, h)?;
        self.samples(w, h, px)?;
        refusal::levels(levels)?;
        let swapped = self.wrong(Fault::RefusalsSwapped);
        in_order(swapped, self.border(w, h, px), refuse(5, work.len() < w * h))
    }

    /// Refusal 6 of list and tree.
    pub(crate) fn word_places(&self, list: &[u32], words: &mut [u32]) -> Checked {
        if self.wrong(Fault::RefusedWrites) && words.len() < list.len() {
            words.copy_from_slice(&list[..words.len()]);
        }
        refuse_at(6, list.len() as u64, words.len() < list.len())
    }

    /// The lent memory of list and tree after they are done.
    pub(crate) fn hand_over_list(
        &self, picture: Picture, levels: &[u8], list: &[u32], work: &mut [u8], words: &mut [u32],
    ) {
        words[..list.len()].copy_from_slice(list);
        let cleared = match self.fault {
            Fault::WorkLeft => 0,
            Fault::WorkLeftWithoutLevels if levels.is_empty() => 0,
            Fault::WorkAllCleared => work.len(),
            _ => picture.w * picture.h,
        };
        work[..cleared].fill(0);
    }

    /// All outlines, levels in order and leads in order.
    pub(crate) fn lines(&self, picture: Picture, levels: &[u8]) -> Vec<Line> {
        levels.iter().flat_map(|&k| self.lines_of_level(picture, k)).collect()
    }

    fn lines_of_level(&self, picture: Picture, k: u8) -> Vec<Line> {
        let crossed = picture.edgels().filter(|&edgel| picture.crossed(k, edgel));
        let mut remaining: BTreeSet<u32> = crossed.map(|edgel| edgel.code(picture.w)).collect();
        let mut lines = Vec::new();
        while let Some(&any) = remaining.last() {
            let mut codes = self.orbit(picture, k, any, &mut remaining);
            let lead = self.lead(picture, k, &codes);
            codes.rotate_left(lead);
            lines.push(Line { level: k, codes });
        }
        lines.sort_by_key(|line| line.codes[0]);
        lines
    }

    /// Where in the line its lead stands: the first horizontal crossing in order of codes.
    fn lead(&self, picture: Picture, k: u8, codes: &[u32]) -> usize {
        let may_lead = |code: u32| {
            let edgel = Edgel::named(code, picture.w, picture.h).expect("a code of the picture");
            let south = picture.heading(k, edgel) == Heading::S;
            !edgel.vertical && (south || !self.wrong(Fault::LeadsSouthOnly))
        };
        let places = (0..codes.len()).filter(|&place| may_lead(codes[place]));
        places.min_by_key(|&place| codes[place]).unwrap_or(0)
    }
}
