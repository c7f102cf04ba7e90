//! Words, codes and tree entries taken apart, and the size of a file, as the functions of the header for C have them.

pub fn code(word: u32) -> u32 {
    word & 0x7f_ffff
}

pub fn level(word: u32) -> u8 {
    (word >> 23) as u8
}

fn first(word: u32) -> bool {
    word >> 31 != 0
}

/// The left or top end of a code's edgel.
pub fn end(code: u32, w: usize) -> (usize, usize) {
    place(code as usize / 2, w)
}

/// x and y of a sample's place.
pub fn place(index: usize, w: usize) -> (usize, usize) {
    (index % w, index / w)
}

pub fn lower(entry: u32) -> bool {
    entry >> 31 != 0
}

/// 0 for a line in no other, else the number of the line around it, plus 1.
pub fn around(entry: u32) -> u32 {
    entry & 0x7fff_ffff
}

/// How many bytes the outline file of so many words has.
pub const fn file_bytes(words: usize) -> usize {
    512 * (1 + words.div_ceil(127))
}

/// The lines of a listed list, one after the other. The call for line n would look through all words again for each.
pub fn lines(words: &[u32]) -> impl Iterator<Item = &[u32]> {
    let mut rest = words;
    std::iter::from_fn(move || {
        let (_, after) = rest.split_first()?;
        let count = 1 + after.iter().position(|&word| first(word)).unwrap_or(after.len());
        let (line, others) = rest.split_at(count);
        rest = others;
        Some(line)
    })
}
