//! The outline file: its writer and its reader.

use crate::refusal::{self, in_order, refuse, refuse_at, said, Answer, Checked};
use crate::{Fault, Second};

const BLOCK: usize = 512;
const PAYLOAD: usize = 508;
const WORDS_IN_BLOCK: usize = 127;
const LIMIT: usize = 16_777_215;
const LETTERS: &[u8; 4] = b"OLR1";
const LEVELS_AT: usize = 16;

/// The answer of the reader.
#[derive(Clone, Copy, Debug, PartialEq, Eq)]
pub struct Read {
    pub answer: Answer,
    pub w: u32,
    pub h: u32,
    pub border: u32,
    pub count: u32,
    pub levels: [u8; 255],
}

/// How many blocks a file of so many words has.
fn blocks_for(words: usize) -> usize {
    1 + words.div_ceil(WORDS_IN_BLOCK)
}

fn number_at(block: &[u8], at: usize, bytes: usize) -> usize {
    block[at..at + bytes].iter().rev().fold(0, |number, &byte| number << 8 | byte as usize)
}

impl Second {
    /// The check of a block with this number.
    fn check(&self, number: usize, payload: &[u8]) -> u32 {
        let start = if self.wrong(Fault::CheckWithoutBlock) { 0 } else { number as u32 };
        let turn = if self.wrong(Fault::CheckUnturned) { 0 } else { 1 };
        payload.iter().fold(start, |sum, &byte| sum.rotate_left(turn).wrapping_add(byte as u32))
    }

    /// Writes the outline file into the room.
    pub fn write(&self, w: usize, h: usize, v: u8, levels: &[u8], words: &[u32], file: &mut [u8]) -> Answer {
        said(self.try_write(w, h, v, levels, words, file))
    }

    fn try_write(
        &self, w: usize, h: usize, v: u8, levels: &[u8], words: &[u32], file: &mut [u8],
    ) -> Result<Answer, Answer> {
        refusal::sides(w, h)?;
        refusal::levels(levels)?;
        refuse(16, words.len() > LIMIT && !self.wrong(Fault::NoLimit))?;
        let words_good = self.words(w, h, Some(levels), words);
        let needed = BLOCK * blocks_for(words.len());
        let room_good = refuse_at(15, needed as u64, file.len() < needed);
        in_order(self.wrong(Fault::RoomBeforeWords), words_good, room_good)?;
        let (image, rest) = file.split_at_mut(needed);
        image.fill(0);
        write_head(&mut image[..PAYLOAD], w, h, v, levels, words.len());
        for (part, block) in words.chunks(WORDS_IN_BLOCK).zip(image[BLOCK..].chunks_mut(BLOCK)) {
            let bytes = part.iter().flat_map(|word| word.to_le_bytes());
            block.iter_mut().zip(bytes).for_each(|(place, byte)| *place = byte);
        }
        for (number, block) in image.chunks_mut(BLOCK).enumerate() {
            let check = self.check(number, &block[..PAYLOAD]);
            block[PAYLOAD..].copy_from_slice(&check.to_le_bytes());
        }
        if self.wrong(Fault::RestCleared) {
            rest.fill(0);
        }
        Ok(Answer::default())
    }

    /// Reads an outline file into the word places.
    pub fn read(&self, file: &[u8], words: &mut [u32]) -> Read {
        let refused = |answer| Read { answer, w: 0, h: 0, border: 0, count: 0, levels: [0; 255] };
        self.try_read(file, words).unwrap_or_else(refused)
    }

    fn try_read(&self, file: &[u8], words: &mut [u32]) -> Result<Read, Answer> {
        refuse(12, file.is_empty() || !file.len().is_multiple_of(BLOCK))?;
        self.checks_good(file)?;
        let head = &file[..PAYLOAD];
        let n = number_at(head, 12, 4);
        refuse(14, !self.layout_good(file, n))?;
        let (w, h) = (number_at(head, 4, 2), number_at(head, 6, 2));
        let levels = levels_in(head);
        let list: Vec<u32> = word_bytes(file).take(n).map(u32::from_le_bytes).collect();
        let words_good = self.words(w, h, Some(levels), &list);
        let room_good = refuse_at(6, n as u64, words.len() < n);
        in_order(self.wrong(Fault::RoomBeforeWords), words_good, room_good)?;
        words[..n].copy_from_slice(&list);
        let mut all_levels = [0; 255];
        all_levels[..levels.len()].copy_from_slice(levels);
        Ok(Read {
            answer: Answer::listed(&list),
            w: w as u32,
            h: h as u32,
            border: head[8] as u32,
            count: levels.len() as u32,
            levels: all_levels,
        })
    }

    /// Refusal 13.
    fn checks_good(&self, file: &[u8]) -> Checked {
        let wrong =
            |(number, block): (usize, &[u8])| self.check(number, &block[..PAYLOAD]).to_le_bytes() != block[PAYLOAD..];
        let mut bad = file.chunks(BLOCK).enumerate().filter(|&block| wrong(block)).map(|(number, _)| number);
        let place = if self.wrong(Fault::LastBadBlock) { bad.last() } else { bad.next() };
        refuse_at(13, place.unwrap_or(0) as u64, place.is_some())
    }

    /// Does the file with n words keep to the layout?
    fn layout_good(&self, file: &[u8], n: usize) -> bool {
        let head = &file[..PAYLOAD];
        let levels = levels_in(head);
        let sides_good = refusal::sides(number_at(head, 4, 2), number_at(head, 6, 2)).is_ok();
        let blocks = file.len() / BLOCK;
        let count_good = match self.wrong(Fault::SurplusBlocks) {
            true => blocks >= blocks_for(n),
            false => blocks == blocks_for(n),
        };
        let mut after_words = word_bytes(file).skip(n);
        head.starts_with(LETTERS)
            && head[10..12] == [0, 0]
            && head[LEVELS_AT + levels.len()..].iter().all(|&byte| byte == 0)
            && (n <= LIMIT || self.wrong(Fault::NoLimit))
            && count_good
            && (self.wrong(Fault::LooseZeros) || after_words.all(|bytes| bytes == [0; 4]))
            && sides_good
            && refusal::levels(levels).is_ok()
    }
}

/// The payload of block 0, over zeros.
fn write_head(head: &mut [u8], w: usize, h: usize, v: u8, levels: &[u8], n: usize) {
    head[..4].copy_from_slice(LETTERS);
    head[4..6].copy_from_slice(&(w as u16).to_le_bytes());
    head[6..8].copy_from_slice(&(h as u16).to_le_bytes());
    head[8] = v;
    head[9] = levels.len() as u8;
    head[12..16].copy_from_slice(&(n as u32).to_le_bytes());
    head[LEVELS_AT..LEVELS_AT + levels.len()].copy_from_slice(levels);
}

/// The levels in the payload of block 0.
fn levels_in(head: &[u8]) -> &[u8] {
    &head[LEVELS_AT..LEVELS_AT + head[9] as usize]
}

/// The bytes of all word places of the later blocks.
fn word_bytes(file: &[u8]) -> impl Iterator<Item = [u8; 4]> + '_ {
    let payloads = file[BLOCK..].chunks(BLOCK).map(|block| &block[..PAYLOAD]);
    payloads.flat_map(|payload| payload.chunks(4).map(|bytes| [bytes[0], bytes[1], bytes[2], bytes[3]]))
}
