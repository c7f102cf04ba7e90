//! How many words the list will have: an edgel is crossed as often as the steps of its ends are apart, a sample's
//! step being the number of levels it is high at.

use std::arch::x86_64::*;

/// With so many levels or fewer, steps are counted by comparing with each level, else looked up.
const FEW: usize = 4;

/// The longest row, and 17 more places that repeat its last step, so that the last 16 have neighbours.
const ROW: usize = 2048 + 32;

/// The words of a picture with a constant border.
pub fn count(px: &[u8], w: usize, levels: &[u8]) -> usize {
    let table = steps(levels);
    let few = Few::new(levels);
    // Nothing is crossed on the first row or above it.
    let (mut above, mut row) = ([table[usize::from(px[0])]; ROW], [0; ROW]);
    let mut words = 0;
    for samples in px.chunks_exact(w) {
        fill(&mut row, samples, few.as_ref(), &table);
        words += (along(&row, w) + between(&row, &above, w)) as usize;
        std::mem::swap(&mut row, &mut above);
    }
    words
}

/// The step of each value.
fn steps(levels: &[u8]) -> [u8; 256] {
    let mut table = [0; 256];
    for (v, step) in table.iter_mut().enumerate() {
        *step = levels.iter().filter(|&&k| usize::from(k) < v).count() as u8;
    }
    table
}

/// The levels where they are few, each one more and sixteen times over.
struct Few {
    next: [__m128i; FEW],
    count: usize,
}

impl Few {
    fn new(levels: &[u8]) -> Option<Few> {
        // SAFETY: SSE2 is part of x86-64.
        let mut next = [unsafe { _mm_setzero_si128() }; FEW];
        for (i, &k) in levels.iter().enumerate() {
            // SAFETY: SSE2 is part of x86-64.
            *next.get_mut(i)? = unsafe { _mm_set1_epi8((k + 1) as i8) };
        }
        Some(Few { next, count: levels.len() })
    }

    /// The steps of 16 samples.
    #[inline(always)]
    unsafe fn fill(&self, row: *mut u8, samples: *const u8) {
        let v = _mm_loadu_si128(samples.cast());
        let mut step = _mm_setzero_si128();
        for &next in &self.next[..self.count] {
            step = _mm_sub_epi8(step, _mm_cmpeq_epi8(_mm_max_epu8(v, next), v));
        }
        _mm_storeu_si128(row.cast(), step);
    }
}

/// The steps of a row, the last one repeated.
#[inline(always)]
fn fill(row: &mut [u8; ROW], samples: &[u8], few: Option<&Few>, table: &[u8; 256]) {
    let w = samples.len();
    let mut x = 0;
    while let (Some(few), true) = (few, x + 16 <= w) {
        // SAFETY: SSE2 is part of x86-64; both hold 16 bytes from x on.
        unsafe { few.fill(row[x..x + 16].as_mut_ptr(), samples[x..x + 16].as_ptr()) };
        x += 16;
    }
    for (step, &v) in row[x..w].iter_mut().zip(&samples[x..]) {
        *step = table[usize::from(v)];
    }
    let last = row[w - 1];
    row[w..w + 17].fill(last);
}

/// How far the steps of neighbours on a row are apart, added up.
#[inline(always)]
fn along(row: &[u8; ROW], w: usize) -> u64 {
    // SAFETY: w is at most 2048, so 17 bytes are there from each x on.
    unsafe { apart(row.as_ptr(), row.as_ptr().add(1), w) }
}

/// How far the steps of two rows are apart, added up.
#[inline(always)]
fn between(row: &[u8; ROW], above: &[u8; ROW], w: usize) -> u64 {
    // SAFETY: w is at most 2048, so 16 bytes are there from each x on.
    unsafe { apart(row.as_ptr(), above.as_ptr(), w) }
}

/// The differences of bytes, added up, over w places and on to the next multiple of 16.
#[inline(always)]
unsafe fn apart(a: *const u8, b: *const u8, w: usize) -> u64 {
    let mut sum = _mm_setzero_si128();
    for x in (0..w).step_by(16) {
        let (a, b) = (_mm_loadu_si128(a.add(x).cast()), _mm_loadu_si128(b.add(x).cast()));
        sum = _mm_add_epi64(sum, _mm_sad_epu8(a, b));
    }
    (_mm_cvtsi128_si64(sum) + _mm_cvtsi128_si64(_mm_unpackhi_epi64(sum, sum))) as u64
}
