//! The picture in blocks of 64 samples, each taken with the sample after it: what lies in a block whose samples are
//! all on one side of a level is never looked at.

use std::arch::x86_64::*;

/// The least and the greatest sample of every block, and for the level at hand a bit for each horizontal edgel that
/// is crossed and not followed yet.
///
/// The border is constant, so the step from a row's end to the next row's start is never crossed, and blocks may run
/// over the ends of rows.
#[derive(Default)]
pub struct Blocks {
    low: Vec<u8>,
    high: Vec<u8>,
    open: Vec<u64>,
    /// The blocks with samples on both sides of the level, in order.
    live: Vec<u32>,
}

/// How many blocks, and how many samples, are looked at together.
const GROUP: usize = 64;

impl Blocks {
    /// Takes up a picture.
    pub fn take(&mut self, px: &[u8]) {
        let count = px.len().div_ceil(64);
        let room = count.next_multiple_of(GROUP);
        self.low.clear();
        self.low.resize(room, 255);
        self.high.clear();
        self.high.resize(room, 0);
        self.open.clear();
        self.open.resize(room, 0);
        for b in 0..count {
            let (low, high) = ends(px, b);
            self.low[b] = low;
            self.high[b] = high;
        }
    }

    /// Opens every horizontal edgel that is crossed at k.
    pub fn open_level(&mut self, px: &[u8], k: u8) {
        self.live.clear();
        let groups = self.low.chunks_exact(GROUP).zip(self.high.chunks_exact(GROUP));
        for (group, (low, high)) in groups.enumerate() {
            let mut live = above(high, k) & !above(low, k);
            while live != 0 {
                let b = GROUP * group + live.trailing_zeros() as usize;
                live &= live - 1;
                self.open[b] = crossed(px, b, k);
                self.live.push(b as u32);
            }
        }
    }

    /// Hands over the first open edgel of each live block, again and again until the block has none left: `follow`
    /// closes what it is handed.
    #[inline(always)]
    pub fn each_open(&mut self, mut follow: impl FnMut(&mut [u64], usize)) {
        for &b in &self.live {
            let b = b as usize;
            while self.open[b] != 0 {
                let e = 64 * b + self.open[b].trailing_zeros() as usize;
                follow(&mut self.open, e);
            }
        }
    }
}

/// The least and the greatest of block b.
#[inline(always)]
fn ends(px: &[u8], b: usize) -> (u8, u8) {
    if let Some(block) = px.get(64 * b..64 * b + 65) {
        // SAFETY: SSE2 is part of x86-64, and the block holds 65 bytes.
        let (low, high) = unsafe { ends64(block.as_ptr()) };
        return (low.min(block[64]), high.max(block[64]));
    }
    px[64 * b..].iter().fold((255, 0), |(low, high), &v| (v.min(low), v.max(high)))
}

/// The least and the greatest of 64 samples.
#[inline(always)]
unsafe fn ends64(p: *const u8) -> (u8, u8) {
    let part = |i: usize| _mm_loadu_si128(p.add(16 * i).cast());
    let (a, b, c, d) = (part(0), part(1), part(2), part(3));
    let low = _mm_min_epu8(_mm_min_epu8(a, b), _mm_min_epu8(c, d));
    let high = _mm_max_epu8(_mm_max_epu8(a, b), _mm_max_epu8(c, d));
    // The least is the complement of the greatest complement, so both go through one reduction.
    let low = _mm_xor_si128(low, _mm_set1_epi8(-1));
    let both = _mm_max_epu8(_mm_unpacklo_epi64(low, high), _mm_unpackhi_epi64(low, high));
    let both = _mm_max_epu8(both, _mm_srli_epi64::<32>(both));
    let both = _mm_max_epu8(both, _mm_srli_epi64::<16>(both));
    let both = _mm_max_epu8(both, _mm_srli_epi64::<8>(both));
    (!(_mm_cvtsi128_si32(both) as u8), _mm_extract_epi16::<4>(both) as u8)
}

/// Which of 16 bytes are above k, a bit each.
#[inline(always)]
unsafe fn above16(p: *const u8, k: u8) -> u32 {
    let v = _mm_loadu_si128(p.cast());
    let next = _mm_set1_epi8((k + 1) as i8);
    _mm_movemask_epi8(_mm_cmpeq_epi8(_mm_max_epu8(v, next), v)) as u32
}

/// Which of the first 64 bytes are above k, a bit each.
#[inline(always)]
fn above(bytes: &[u8], k: u8) -> u64 {
    let bytes = bytes[..GROUP].as_ptr();
    // SAFETY: SSE2 is part of x86-64, and there are 64 bytes.
    let part = |i: usize| unsafe { u64::from(above16(bytes.add(16 * i), k)) << (16 * i) };
    part(0) | part(1) | part(2) | part(3)
}

/// Which horizontal edgels of block b are crossed at k, a bit each.
#[inline(always)]
fn crossed(px: &[u8], b: usize, k: u8) -> u64 {
    if let Some(block) = px.get(64 * b..64 * b + 65) {
        let high = above(block, k);
        return high ^ (high >> 1 | u64::from(block[64] > k) << 63);
    }
    let ends = px[64 * b..].windows(2).enumerate();
    ends.fold(0, |bits, (i, v)| bits | u64::from((v[0] > k) != (v[1] > k)) << i)
}
