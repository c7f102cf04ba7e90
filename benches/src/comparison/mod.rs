//! An unproved listing, made for speed: it gives the words of the proved one, which is timed against it.

mod blocks;
mod count;
mod follow;

use blocks::Blocks;
use follow::Walk;

/// Stands on the first word of a line.
const FLAG: u32 = 1 << 31;

/// The listing, with its work memory.
#[derive(Default)]
pub struct Comparison {
    blocks: Blocks,
}

impl Comparison {
    /// Lists the picture and answers how many words and lines there are, or nothing where it cannot be listed. The
    /// work bytes are 0 afterwards, as the proved call leaves them.
    pub fn list(
        &mut self, w: usize, h: usize, px: &[u8], levels: &[u8], work: &mut [u8], words: &mut [u32],
    ) -> Option<(usize, usize)> {
        if !fits(w, h, px, levels) || work.len() < px.len() || words.len() < count::count(px, w, levels) {
            return None;
        }
        self.blocks.take(px);
        let (first, mut out, mut lines) = (words.as_ptr(), words.as_mut_ptr(), 0);
        for &k in levels {
            self.blocks.open_level(px, k);
            self.blocks.each_open(|open, e| {
                // SAFETY: the border is constant, the edgel at e is crossed, and the words were counted.
                out = unsafe { Walk::new(px.as_ptr(), w, k, open.as_mut_ptr(), e, out).run() };
                lines += 1;
            });
        }
        work[..px.len()].fill(0);
        // SAFETY: both point into the words.
        Some((unsafe { out.cast_const().offset_from(first) } as usize, lines))
    }
}

/// The sides, the samples, the levels and the border are such as can be listed.
fn fits(w: usize, h: usize, px: &[u8], levels: &[u8]) -> bool {
    let sides = (2..=2048).contains(&w) && (2..=2048).contains(&h) && px.len() == w * h;
    let ascend = levels.windows(2).all(|k| k[0] < k[1]) && levels.last() != Some(&255);
    sides && ascend && border_fits(w, px)
}

fn border_fits(w: usize, px: &[u8]) -> bool {
    let v = px[0];
    let ends = px.chunks_exact(w).all(|row| row[0] == v && row[w - 1] == v);
    ends && px[..w].iter().chain(&px[px.len() - w..]).all(|&u| u == v)
}
