//! The form of the listing program's input.

use crate::{Fault, Second};

/// Most samples the program takes.
pub const SAMPLES: usize = 16_384;

/// Input of the right form.
pub struct Input<'a> {
    pub levels: Vec<u8>,
    pub w: usize,
    pub h: usize,
    pub px: &'a [u8],
}

/// Input not yet read.
struct Rest<'a> {
    bytes: &'a [u8],
    leading_zeros: bool,
}

impl<'a> Rest<'a> {
    /// Takes exactly these bytes, or gives none.
    fn exactly(&mut self, wanted: &[u8]) -> Option<()> {
        self.bytes = self.bytes.strip_prefix(wanted)?;
        Some(())
    }

    /// A decimal number up to a limit, without leading zeros.
    fn number(&mut self, limit: usize) -> Option<usize> {
        let digits = self.bytes.iter().take_while(|byte| byte.is_ascii_digit()).count();
        let (text, rest) = self.bytes.split_at(digits);
        let value = std::str::from_utf8(text).ok()?.parse::<usize>().ok()?;
        let plain = value.to_string().as_bytes() == text;
        self.bytes = rest;
        (value <= limit && (plain || self.leading_zeros)).then_some(value)
    }

    /// The first line: up to 255 levels with one space between.
    fn levels(&mut self) -> Option<Vec<u8>> {
        let mut levels = Vec::new();
        if self.exactly(b"\n").is_some() {
            return Some(levels);
        }
        loop {
            levels.push(self.number(255)? as u8);
            if self.exactly(b"\n").is_some() {
                return (levels.len() <= 255).then_some(levels);
            }
            self.exactly(b" ")?;
        }
    }
}

impl Second {
    /// The input, if it is of the form.
    pub(crate) fn form<'a>(&self, input: &'a [u8]) -> Option<Input<'a>> {
        let mut rest = Rest { bytes: input, leading_zeros: self.wrong(Fault::LeadingZeros) };
        let levels = rest.levels()?;
        rest.exactly(b"P5\n")?;
        let w = rest.number(65_535)?;
        rest.exactly(b" ")?;
        let h = rest.number(65_535)?;
        rest.exactly(b"\n255\n")?;
        let mut px = rest.bytes;
        if self.wrong(Fault::TrailingNewline) && px.len() == w * h + 1 {
            px = px.strip_suffix(b"\n").unwrap_or(px);
        }
        (px.len() == w * h && px.len() <= SAMPLES).then_some(Input { levels, w, h, px })
    }
}
