//! Grey files of other vendors: PGM in both forms, up to a maximum of 255.

use crate::refusal::{self, refuse, refuse_at, Answer, Checked};
use crate::{Fault, Second};

/// The answer of the reader.
#[derive(Clone, Copy, Debug, PartialEq, Eq)]
pub struct Grey {
    pub answer: Answer,
    pub w: u32,
    pub h: u32,
    pub maximum: u32,
}

/// A number in decimal: where it stands, and its value, which stays at a limit past it.
struct Number {
    at: usize,
    value: u64,
}

/// More than any number of a file that is taken.
const MUCH: u64 = 1 << 40;

/// A file, read up to a byte.
struct Text<'a> {
    file: &'a [u8],
    at: usize,
    late: bool,
}

impl Text<'_> {
    fn next(&self) -> Option<u8> {
        self.file.get(self.at).copied()
    }

    /// Given up here, or at an earlier byte.
    fn give_up(&self, number: u32, at: usize) -> Answer {
        Answer { number, place: at as u64 + (self.late && at < self.file.len()) as u64, ..Answer::default() }
    }

    /// Blanks, TABs, LFs and CRs; with comments, each up to the end of its line.
    fn space(&mut self, comments: bool) {
        while let Some(byte) = self.next() {
            if comments && byte == b'#' {
                let line = self.file[self.at..].iter().take_while(|byte| !b"\n\r".contains(byte)).count();
                self.at += line;
            } else if b" \t\n\r".contains(&byte) {
                self.at += 1;
            } else {
                return;
            }
        }
    }

    /// A number of any length, if a digit stands here.
    fn number(&mut self, refused: u32) -> Result<Number, Answer> {
        let at = self.at;
        let mut value = 0;
        while let Some(digit) = self.next().filter(u8::is_ascii_digit) {
            value = (value * 10 + (digit - b'0') as u64).min(MUCH);
            self.at += 1;
        }
        if self.at == at {
            return Err(self.give_up(refused, at));
        }
        Ok(Number { at, value })
    }
}

/// The sides, the maximum and the form.
struct Head {
    w: u64,
    h: u64,
    maximum: u64,
    plain: bool,
}

impl Second {
    /// Reads a PGM file into the room.
    pub fn pgm(&self, file: &[u8], room: &mut [u8]) -> Grey {
        self.try_pgm(file, room).unwrap_or_else(|answer| Grey { answer, w: 0, h: 0, maximum: 0 })
    }

    fn try_pgm(&self, file: &[u8], room: &mut [u8]) -> Result<Grey, Answer> {
        let mut text = Text { file, at: 0, late: self.wrong(Fault::PgmPlaceLate) };
        let head = self.pgm_head(&mut text)?;
        let side = |side: u64| side.min(4096) as usize;
        refusal::sides(side(head.w), side(head.h))?;
        let count = (head.w * head.h) as usize;
        refuse(9, room.len() < count)?;
        let samples = self.pgm_samples(&mut text, &head, count, room)?;
        room[..count].copy_from_slice(&samples);
        Ok(Grey { answer: Answer::default(), w: head.w as u32, h: head.h as u32, maximum: head.maximum as u32 })
    }

    /// Up to the one white byte after the maximum. Refusal 22.
    fn pgm_head(&self, text: &mut Text) -> Result<Head, Answer> {
        let plain = match text.file {
            [b'P', b'2', ..] => true,
            [b'P', b'5', ..] => false,
            [b'P', ..] => return Err(text.give_up(22, 1)),
            _ => return Err(text.give_up(22, 0)),
        };
        text.at = 2;
        let mut numbers = [0; 3];
        let mut last = 2;
        for number in &mut numbers {
            let before = text.at;
            text.space(true);
            if text.at == before {
                return Err(text.give_up(22, before));
            }
            let read = text.number(22)?;
            let zeros = self.wrong(Fault::PgmZerosRefused) && read.value > 0 && text.file[read.at] == b'0';
            self.unfit(text, zeros, read.at)?;
            (*number, last) = (read.value, read.at);
        }
        let [w, h, maximum] = numbers;
        self.unfit(text, maximum == 0 || maximum > 255, last)?;
        if self.wrong(Fault::PgmCommentLast) {
            while text.next() == Some(b'#') {
                let line = text.file[text.at..].iter().take_while(|byte| !b"\n\r".contains(byte)).count();
                text.at += line;
            }
        }
        match text.next() {
            Some(b' ' | b'\t' | b'\n' | b'\r') => text.at += 1,
            _ => return Err(text.give_up(22, text.at)),
        }
        if self.wrong(Fault::PgmTwoWhite) && matches!(text.next(), Some(b' ' | b'\t' | b'\n' | b'\r')) {
            text.at += 1;
        }
        Ok(Head { w, h, maximum, plain })
    }

    /// 22 at a number's first byte.
    fn unfit(&self, text: &Text, unfit: bool, at: usize) -> Checked {
        match unfit {
            true => Err(text.give_up(22, at)),
            false => Ok(()),
        }
    }

    /// The samples in reading order. Refusals 23 and 24.
    fn pgm_samples(&self, text: &mut Text, head: &Head, count: usize, room: &mut [u8]) -> Result<Vec<u8>, Answer> {
        let mut samples = vec![];
        let mut above = None;
        while samples.len() < count {
            let read = match head.plain {
                true => {
                    text.space(false);
                    text.number(24)?
                }
                false => {
                    let (at, byte) = (text.at, text.next());
                    text.at += 1;
                    Number { at, value: byte.ok_or(text.give_up(24, at))? as u64 }
                }
            };
            if read.value > head.maximum {
                above = above.or(Some(read.at));
                if !self.wrong(Fault::PgmMissingFirst) {
                    break;
                }
            }
            if self.wrong(Fault::PgmRefusedWrites) {
                room[samples.len()] = read.value as u8;
            }
            samples.push(read.value as u8);
        }
        let place = above.map_or(0, |at| text.give_up(23, at).place);
        refuse_at(23, place, above.is_some())?;
        Ok(samples)
    }
}
