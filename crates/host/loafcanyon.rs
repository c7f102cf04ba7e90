//! The library's calls for Rust, as `loafcanyon.h` beside this file declares them.
//!
//! Include it by `#[path]` and link the archive. Each call takes slices and hands over their pointers and counts. `checks/header`
//! holds the structs and the declarations below to the header and to the proved code.

/// What every call but `part` answers: the number, 0 for done, and its place; the words and lines handed over.
#[repr(C)]
#[derive(Clone, Copy, Debug)]
pub struct Answer {
    pub number: u32,
    pub place: usize,
    pub words: usize,
    pub lines: usize,
}

/// One crossing: the heading, 0 to 3 for S, E, N, W, its fraction in lowest terms, and where it is.
#[repr(C)]
pub struct CrossingAnswer {
    pub answer: Answer,
    pub heading: u32,
    pub num: u32,
    pub den: u32,
    pub x: f64,
    pub y: f64,
}

/// The piece in one cell: 0 refused, 1 straight, 2 corner, 3 branch.
#[repr(C)]
pub struct PieceAnswer {
    pub answer: Answer,
    pub kind: u32,
    pub xs: f64,
    pub ys: f64,
    pub delta: f64,
}

/// Whether a sample is inside a line.
#[repr(C)]
pub struct MemberAnswer {
    pub answer: Answer,
    pub inside: bool,
}

/// Where a line stands in its list; no words: there is no such line.
#[repr(C)]
pub struct PartAnswer {
    pub start: usize,
    pub count: usize,
}

/// What is read from a file, beside its words.
#[repr(C)]
pub struct ReadAnswer {
    pub answer: Answer,
    pub width: u32,
    pub height: u32,
    pub border: u32,
    pub count: u32,
    pub levels: [u8; 255],
}

/// What is read from a PGM, beside its samples.
#[repr(C)]
pub struct PgmAnswer {
    pub answer: Answer,
    pub width: u32,
    pub height: u32,
    pub maximum: u32,
}

extern "C" {
    pub fn loafcanyon_frame(w: usize, h: usize, px: *const u8, px_count: usize, room: *mut u8, room_count: usize)
        -> Answer;
    fn loafcanyon_list(
        w: usize, h: usize, px: *const u8, px_count: usize, levels: *const u8, level_count: usize, work: *mut u8,
        work_count: usize, words: *mut u32, word_count: usize,
    ) -> Answer;
    fn loafcanyon_tree(
        w: usize, h: usize, px: *const u8, px_count: usize, levels: *const u8, level_count: usize, work: *mut u8,
        work_count: usize, words: *mut u32, word_count: usize, places: *mut u32, place_count: usize,
    ) -> Answer;
    fn loafcanyon_crossing(w: usize, h: usize, px: *const u8, px_count: usize, level: u8, code: u32) -> CrossingAnswer;
    fn loafcanyon_piece(
        w: usize, h: usize, px: *const u8, px_count: usize, level: u8, x: usize, y: usize,
    ) -> PieceAnswer;
    fn loafcanyon_part(words: *const u32, word_count: usize, n: usize) -> PartAnswer;
    fn loafcanyon_member(
        w: usize, h: usize, words: *const u32, word_count: usize, n: usize, x: usize, y: usize,
    ) -> MemberAnswer;
    fn loafcanyon_paint(
        w: usize, h: usize, border: u8, levels: *const u8, level_count: usize, words: *const u32, word_count: usize,
        room: *mut u8, room_count: usize,
    ) -> Answer;
    fn loafcanyon_write(
        w: usize, h: usize, border: u8, levels: *const u8, level_count: usize, words: *const u32, word_count: usize,
        file: *mut u8, file_count: usize,
    ) -> Answer;
    fn loafcanyon_read(file: *const u8, file_count: usize, words: *mut u32, word_count: usize) -> ReadAnswer;
    fn loafcanyon_pgm(file: *const u8, file_count: usize, room: *mut u8, room_count: usize) -> PgmAnswer;
}

// SAFETY, of every call here: each pointer comes with its slice's count, and slices are never null, are aligned, and overlap no slice
// that may be written.

pub fn frame(w: usize, h: usize, px: &[u8], room: &mut [u8]) -> Answer {
    unsafe { loafcanyon_frame(w, h, px.as_ptr(), px.len(), room.as_mut_ptr(), room.len()) }
}

pub fn list(w: usize, h: usize, px: &[u8], levels: &[u8], work: &mut [u8], words: &mut [u32]) -> Answer {
    let (p, pn, l, ln) = (px.as_ptr(), px.len(), levels.as_ptr(), levels.len());
    let (k, kn, o, on) = (work.as_mut_ptr(), work.len(), words.as_mut_ptr(), words.len());
    unsafe { loafcanyon_list(w, h, p, pn, l, ln, k, kn, o, on) }
}

pub fn tree(
    w: usize, h: usize, px: &[u8], levels: &[u8], work: &mut [u8], words: &mut [u32], places: &mut [u32],
) -> Answer {
    let (p, pn, l, ln) = (px.as_ptr(), px.len(), levels.as_ptr(), levels.len());
    let (k, kn, o, on) = (work.as_mut_ptr(), work.len(), words.as_mut_ptr(), words.len());
    unsafe { loafcanyon_tree(w, h, p, pn, l, ln, k, kn, o, on, places.as_mut_ptr(), places.len()) }
}

pub fn crossing(w: usize, h: usize, px: &[u8], level: u8, code: u32) -> CrossingAnswer {
    unsafe { loafcanyon_crossing(w, h, px.as_ptr(), px.len(), level, code) }
}

pub fn piece(w: usize, h: usize, px: &[u8], level: u8, x: usize, y: usize) -> PieceAnswer {
    unsafe { loafcanyon_piece(w, h, px.as_ptr(), px.len(), level, x, y) }
}

pub fn part(words: &[u32], n: usize) -> PartAnswer {
    unsafe { loafcanyon_part(words.as_ptr(), words.len(), n) }
}

pub fn member(w: usize, h: usize, words: &[u32], n: usize, x: usize, y: usize) -> MemberAnswer {
    unsafe { loafcanyon_member(w, h, words.as_ptr(), words.len(), n, x, y) }
}

pub fn paint(w: usize, h: usize, border: u8, levels: &[u8], words: &[u32], room: &mut [u8]) -> Answer {
    let (l, ln, o, on) = (levels.as_ptr(), levels.len(), words.as_ptr(), words.len());
    unsafe { loafcanyon_paint(w, h, border, l, ln, o, on, room.as_mut_ptr(), room.len()) }
}

pub fn write(w: usize, h: usize, border: u8, levels: &[u8], words: &[u32], file: &mut [u8]) -> Answer {
    let (l, ln, o, on) = (levels.as_ptr(), levels.len(), words.as_ptr(), words.len());
    unsafe { loafcanyon_write(w, h, border, l, ln, o, on, file.as_mut_ptr(), file.len()) }
}

pub fn read(file: &[u8], words: &mut [u32]) -> ReadAnswer {
    unsafe { loafcanyon_read(file.as_ptr(), file.len(), words.as_mut_ptr(), words.len()) }
}

pub fn pgm(file: &[u8], room: &mut [u8]) -> PgmAnswer {
    unsafe { loafcanyon_pgm(file.as_ptr(), file.len(), room.as_mut_ptr(), room.len()) }
}
