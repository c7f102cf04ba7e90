//! A word: a crossing as one number.

/// Marks the first word of a line.
pub const FLAG: u32 = 1 << 31;

/// Codes are below this.
const CODES: u32 = 1 << 23;

/// The word of a code at a level, without the flag.
pub fn of(code: u32, level: u8) -> u32 {
    code + level as u32 * CODES
}

/// The code in a word.
pub fn code(word: u32) -> u32 {
    word % CODES
}

/// The level in a word.
pub fn level(word: u32) -> u8 {
    (word % FLAG / CODES) as u8
}

/// Is this the first word of a line?
pub fn flagged(word: u32) -> bool {
    word >= FLAG
}
