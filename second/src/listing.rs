//! The listing program: a picture's lines as text.

use std::fmt::Write;

use crate::edgel::{Edgel, Picture};
use crate::form::{Input, SAMPLES};
use crate::tree::LOWER;
use crate::{word, Answer, Second};

const WORDS: usize = 16_384;
const ENTRIES: usize = 8_192;

impl Second {
    /// What the program prints for this input.
    pub fn listing(&self, input: &[u8]) -> Vec<u8> {
        let text = match self.form(input) {
            None => "refused input\n".to_string(),
            Some(input) => self.listing_of(&input),
        };
        text.into_bytes()
    }

    fn listing_of(&self, input: &Input) -> String {
        let Input { levels, w, h, px } = input;
        let mut work = vec![0; SAMPLES];
        let mut words = vec![0; WORDS];
        let mut tree = vec![0; ENTRIES];
        let answer = self.tree(*w, *h, px, levels, &mut work, &mut words, &mut tree);
        match answer.number {
            0 => self.print(input, answer, &words[..answer.words as usize], &tree),
            number => format!("refused {number}\n"),
        }
    }

    fn print(&self, input: &Input, answer: Answer, words: &[u32], tree: &[u32]) -> String {
        let picture = Picture { w: input.w, h: input.h, px: input.px };
        let mut text = String::new();
        let head = (picture.w, picture.h, picture.px[0], input.levels.len(), answer.words, answer.lines);
        let _ = writeln!(text, "{} {} {} {} {} {}", head.0, head.1, head.2, head.3, head.4, head.5);
        for (n, &entry) in tree[..answer.lines as usize].iter().enumerate() {
            let line = self.line_part(words, n);
            let kind = if entry >= LOWER { 'D' } else { 'U' };
            let _ = writeln!(text, "{n} {} {} {kind} {}", word::level(line[0]), entry % LOWER, line.len());
            line.iter().for_each(|&one| self.print_crossing(&mut text, picture, one));
        }
        text
    }

    fn print_crossing(&self, text: &mut String, picture: Picture, one: u32) {
        let edgel = Edgel::named(word::code(one), picture.w, picture.h).expect("a code of the picture");
        let k = word::level(one);
        let (num, den) = self.fraction(picture, k, edgel);
        let letter = picture.heading(k, edgel).letter();
        let _ = writeln!(text, "{} {} {letter} {num} {den}", edgel.x, edgel.y);
    }
}
