//! Outline files built and damaged byte by byte, without either program.

use crate::rng::Rng;

pub const BLOCK: usize = 512;
pub const PAYLOAD: usize = 508;
pub const LIMIT: usize = 16_777_215;

/// What a file holds.
#[derive(Clone)]
pub struct Parts {
    pub w: usize,
    pub h: usize,
    pub border: u8,
    pub levels: Vec<u8>,
    pub words: Vec<u32>,
}

/// The file of the parts, whatever they are, with right checks.
pub fn build(parts: &Parts) -> Vec<u8> {
    let mut file = vec![0; BLOCK];
    file[..4].copy_from_slice(b"OLR1");
    file[4..6].copy_from_slice(&(parts.w as u16).to_le_bytes());
    file[6..8].copy_from_slice(&(parts.h as u16).to_le_bytes());
    file[8] = parts.border;
    file[9] = parts.levels.len() as u8;
    file[12..16].copy_from_slice(&(parts.words.len() as u32).to_le_bytes());
    file[16..16 + parts.levels.len()].copy_from_slice(&parts.levels);
    for part in parts.words.chunks(127) {
        let start = file.len();
        part.iter().for_each(|word| file.extend(word.to_le_bytes()));
        file.resize(start + BLOCK, 0);
    }
    stamp(&mut file);
    file
}

/// Sets the checks of all whole blocks right.
pub fn stamp(file: &mut [u8]) {
    for (number, block) in file.chunks_exact_mut(BLOCK).enumerate() {
        let mut sum = number as u32;
        for &byte in &block[..PAYLOAD] {
            sum = sum.rotate_left(1).wrapping_add(byte as u32);
        }
        block[PAYLOAD..].copy_from_slice(&sum.to_le_bytes());
    }
}

/// Where a word stands in the file.
pub fn word_at(place: usize) -> usize {
    BLOCK * (1 + place / 127) + 4 * (place % 127)
}

/// Breaks the layout in one of its ways. The checks are set right again.
pub fn break_layout(file: &mut Vec<u8>, rng: &mut Rng) {
    let n = u32::from_le_bytes([file[12], file[13], file[14], file[15]]);
    let levels = file[9] as usize;
    match rng.below(11) {
        0 => file[rng.below(4)] ^= 1 << rng.below(8),
        1 => file[10 + rng.below(2)] = rng.between(1, 255) as u8,
        2 => file[rng.between(16 + levels, PAYLOAD - 1)] = rng.between(1, 255) as u8,
        3 => file[12..16].copy_from_slice(&(n + 127 * rng.between(1, 9) as u32).to_le_bytes()),
        4 => file[12..16].copy_from_slice(&(rng.between(LIMIT + 1, u32::MAX as usize) as u32).to_le_bytes()),
        5 => file.resize(file.len() + BLOCK, 0),
        6 if file.len() > BLOCK => file.truncate(file.len() - BLOCK),
        7 => file[4..6].copy_from_slice(&rng.one_of(&[0u16, 1, 2049, 65535]).to_le_bytes()),
        8 => file[6..8].copy_from_slice(&rng.one_of(&[0u16, 1, 2049, 65535]).to_le_bytes()),
        9 if levels > 0 => file[16 + levels - 1] = 255,
        10 if levels > 1 => file[16 + rng.between(1, levels - 1)] = 0,
        _ if !n.is_multiple_of(127) => {
            let after = word_at(n as usize);
            let end = (after / BLOCK) * BLOCK + PAYLOAD;
            file[rng.between(after, end - 1)] = rng.between(1, 255) as u8;
        }
        _ => file[0] = b'o',
    }
    stamp(file);
}
