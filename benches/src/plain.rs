//! Plain loops to hold the library against.

/// The file's block check as a plain loop: how many blocks have a right one.
pub fn right_blocks(file: &[u8]) -> usize {
    let blocks = file.chunks_exact(512).enumerate();
    blocks.filter(|(number, block)| block[508..] == check(*number, &block[..508]).to_le_bytes()).count()
}

/// The sum starts with the block's number; for each byte it is rotated left by one bit, then the byte is added.
fn check(number: usize, payload: &[u8]) -> u32 {
    let mut sum = number as u32;
    for &byte in payload {
        sum = sum.rotate_left(1).wrapping_add(u32::from(byte));
    }
    sum
}

/// The samples copied.
pub fn copy(px: &[u8], room: &mut [u8]) {
    for (place, &v) in room.iter_mut().zip(px) {
        *place = v;
    }
}

/// The samples of a plain PGM, from its first on, written as they are read: 0 where they all are there and fit.
pub fn parse(text: &[u8], maximum: usize, room: &mut [u8]) -> usize {
    let mut at = 0;
    for place in room.iter_mut() {
        while at < text.len() && matches!(text[at], b' ' | b'\t' | b'\n' | b'\r') {
            at += 1;
        }
        let start = at;
        let mut value = 0;
        while at < text.len() && text[at].is_ascii_digit() {
            value = (value * 10 + usize::from(text[at] - b'0')).min(65_535);
            at += 1;
        }
        if at == start || value > maximum {
            return 1;
        }
        *place = value as u8;
    }
    0
}

/// One pass over all samples: the least and the greatest.
pub fn ends(px: &[u8]) -> (u8, u8) {
    px.iter().fold((255, 0), |(least, most), &v| (v.min(least), v.max(most)))
}

/// One look at the border, row by row: where it first differs from the first sample, or the number of samples.
pub fn look(w: usize, h: usize, px: &[u8]) -> usize {
    let (first, last) = (px[0], w * (h - 1));
    let differs = |&v: &u8| v != first;
    if let Some(x) = px[..w].iter().position(differs) {
        return x;
    }
    for (y, row) in px[..last].chunks_exact(w).enumerate().skip(1) {
        if row[0] != first {
            return y * w;
        }
        if row[w - 1] != first {
            return y * w + w - 1;
        }
    }
    px[last..].iter().position(differs).map_or(px.len(), |x| last + x)
}
