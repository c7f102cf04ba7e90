//! The enclosure tree: the parent and the kind of each line.

use std::cmp::Ordering;
use std::collections::{BTreeMap, HashMap};

use crate::edgel::{Edgel, Picture};
use crate::list::{words_of, Line};
use crate::refusal::{refuse_at, said, Answer};
use crate::{Fault, Second};

/// Marks a line of the lower kind in its tree entry.
pub const LOWER: u32 = 1 << 31;

/// A horizontal crossing of a line.
#[derive(Clone, Copy)]
struct Spot {
    line: usize,
    lead: bool,
    edgel: Edgel,
    /// How far along its edgel it lies, as num and den.
    fraction: (u32, u32),
}

impl Spot {
    /// Left to right on a row, exactly. No two crossings of a row coincide.
    fn position(&self, other: &Spot, columns_only: bool) -> Ordering {
        if columns_only {
            return self.edgel.x.cmp(&other.edgel.x);
        }
        let exact = |spot: &Spot| {
            let (num, den) = (spot.fraction.0 as u64, spot.fraction.1 as u64);
            (spot.edgel.x as u64 * den + num, den)
        };
        let ((a, b), (c, d)) = (exact(self), exact(other));
        (a * d).cmp(&(c * b))
    }
}

impl Second {
    /// Lists all outlines and says for each which one is nearest around it.
    #[allow(clippy::too_many_arguments)]
    pub fn tree(
        &self, w: usize, h: usize, px: &[u8], levels: &[u8], work: &mut [u8], words: &mut [u32], tree: &mut [u32],
    ) -> Answer {
        said(self.try_tree(Picture { w, h, px }, levels, work, words, tree))
    }

    fn try_tree(
        &self, picture: Picture, levels: &[u8], work: &mut [u8], words: &mut [u32], tree: &mut [u32],
    ) -> Result<Answer, Answer> {
        self.list_refusals(picture, levels, work)?;
        let lines = self.lines(picture, levels);
        let list = words_of(&lines);
        self.word_places(&list, words)?;
        let rows = self.horizontal_by_row(picture, &lines);
        let half = rows.iter().map(Vec::len).sum::<usize>() / 2;
        refuse_at(7, half as u64, tree.len() < half)?;
        if self.wrong(Fault::SurplusTreeCleared) {
            tree[..half].fill(0);
        }
        self.hand_over_list(picture, levels, &list, work, words);
        let entries = self.entries(picture, &lines, rows);
        tree[..lines.len()].copy_from_slice(&entries);
        Ok(Answer::listed(&list))
    }

    /// The horizontal crossings of all lines, row by row and from left to right.
    fn horizontal_by_row(&self, picture: Picture, lines: &[Line]) -> Vec<Vec<Spot>> {
        let mut rows = vec![Vec::new(); picture.h];
        for (number, line) in lines.iter().enumerate() {
            for (place, &code) in line.codes.iter().enumerate() {
                let edgel = Edgel::named(code, picture.w, picture.h).expect("a code of the picture");
                if !edgel.vertical {
                    let fraction = self.fraction(picture, line.level, edgel);
                    rows[edgel.y].push(Spot { line: number, lead: place == 0, edgel, fraction });
                }
            }
        }
        let columns_only = self.wrong(Fault::ColumnsOnly);
        rows.iter_mut().for_each(|row| row.sort_by(|a, b| a.position(b, columns_only)));
        rows
    }

    /// The tree entry of each line.
    fn entries(&self, picture: Picture, lines: &[Line], rows: Vec<Vec<Spot>>) -> Vec<u32> {
        let mut entries = vec![0; lines.len()];
        // A parent's lead comes before its child's, row by row and left to right.
        for row in rows {
            for (line, parent) in self.parents_on_row(&row, lines) {
                let lower = self.lower(picture, lines, line, parent, &entries);
                entries[line] = parent.map_or(0, |parent| parent as u32 + 1) + if lower { LOWER } else { 0 };
            }
        }
        entries
    }

    /// The parents of the lines whose leads are on this row, from left to right.
    ///
    /// `around` holds the lines with an odd number of crossings so far, by the place of the
    /// nearest one. The furthest right of these belongs to the parent.
    fn parents_on_row(&self, row: &[Spot], lines: &[Line]) -> Vec<(usize, Option<usize>)> {
        let mut around = BTreeMap::new();
        let mut nearest = HashMap::new();
        let mut parents = Vec::new();
        for (place, spot) in row.iter().enumerate() {
            if spot.lead {
                let own_only = self.wrong(Fault::OwnLevelOnly);
                let counts = |&m: &usize| m != spot.line && !(own_only && lines[m].level != lines[spot.line].level);
                parents.push((spot.line, around.values().rev().copied().find(counts)));
            }
            match nearest.remove(&spot.line) {
                Some(before) => {
                    around.remove(&before);
                }
                None => {
                    nearest.insert(spot.line, place);
                    around.insert(place, spot.line);
                }
            }
        }
        parents
    }

    /// Is a line of the lower kind? It is if the left end of its lead is high.
    fn lower(&self, picture: Picture, lines: &[Line], line: usize, parent: Option<usize>, entries: &[u32]) -> bool {
        let Line { level, codes } = &lines[line];
        let lead = Edgel::named(codes[0], picture.w, picture.h).expect("a code of the picture");
        let lower = picture.high(*level, lead.ends().0);
        match self.fault {
            Fault::RootsUpper => lower && parent.is_some(),
            Fault::KindsExchanged => !lower,
            Fault::KindByLevel => parent.is_some_and(|parent| *level < lines[parent].level),
            Fault::KindCopied => parent.map_or(lower, |parent| entries[parent] >= LOWER),
            _ => lower,
        }
    }
}
