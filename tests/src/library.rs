//! The proved library as the subject.
//!
//! Each method of `Calls` hands its numbers and slices over to one of the exports. The listing is asked
//! of the program.

use std::io::{ErrorKind, Write};
use std::process::{Command, Stdio};

use second::{Answer, Crossing, Grey, Read};

use crate::calls::{Calls, Part, Shape};
use crate::loafcanyon;

/// The linked library.
pub struct Library;

impl From<loafcanyon::Answer> for Answer {
    fn from(t: loafcanyon::Answer) -> Answer {
        Answer { number: t.number, place: t.place as u64, words: t.words as u64, lines: t.lines as u64 }
    }
}

impl Calls for Library {
    fn list(&self, w: usize, h: usize, px: &[u8], levels: &[u8], work: &mut [u8], words: &mut [u32]) -> Answer {
        loafcanyon::list(w, h, px, levels, work, words).into()
    }

    fn tree(
        &self, w: usize, h: usize, px: &[u8], levels: &[u8], work: &mut [u8], words: &mut [u32], tree: &mut [u32],
    ) -> Answer {
        loafcanyon::tree(w, h, px, levels, work, words, tree).into()
    }

    fn frame(&self, w: usize, h: usize, px: &[u8], room: &mut [u8]) -> Answer {
        loafcanyon::frame(w, h, px, room).into()
    }

    fn crossing(&self, w: usize, h: usize, px: &[u8], level: u8, code: u32) -> Crossing {
        let t = loafcanyon::crossing(w, h, px, level, code);
        Crossing { answer: t.answer.into(), heading: t.heading, num: t.num, den: t.den, x: t.x, y: t.y }
    }

    fn piece(&self, w: usize, h: usize, px: &[u8], level: u8, x: usize, y: usize) -> Shape {
        let t = loafcanyon::piece(w, h, px, level, x, y);
        Shape { answer: t.answer.into(), kind: t.kind, floats: [t.xs, t.ys, t.delta] }
    }

    fn line_part(&self, words: &[u32], n: usize) -> Part {
        let t = loafcanyon::part(words, n);
        Part { start: t.start, count: t.count }
    }

    fn member(&self, w: usize, h: usize, words: &[u32], n: usize, x: usize, y: usize) -> (Answer, bool) {
        let t = loafcanyon::member(w, h, words, n, x, y);
        // the byte itself, since one that is neither 0 nor 1 would be no `bool`
        let inside = match unsafe { std::ptr::addr_of!(t.inside).cast::<u8>().read() } {
            0 => false,
            1 => true,
            other => panic!("{other} is neither no nor yes"),
        };
        (t.answer.into(), inside)
    }

    fn paint(&self, w: usize, h: usize, v: u8, levels: &[u8], words: &[u32], room: &mut [u8]) -> Answer {
        loafcanyon::paint(w, h, v, levels, words, room).into()
    }

    fn write(&self, w: usize, h: usize, v: u8, levels: &[u8], words: &[u32], file: &mut [u8]) -> Answer {
        loafcanyon::write(w, h, v, levels, words, file).into()
    }

    fn read(&self, file: &[u8], words: &mut [u32]) -> Read {
        let t = loafcanyon::read(file, words);
        Read { answer: t.answer.into(), w: t.width, h: t.height, border: t.border, count: t.count, levels: t.levels }
    }

    fn pgm(&self, file: &[u8], room: &mut [u8]) -> Grey {
        let t = loafcanyon::pgm(file, room);
        Grey { answer: t.answer.into(), w: t.width, h: t.height, maximum: t.maximum }
    }

    /// The program itself is run: it is proved and built beside the library.
    fn listing(&self, input: &[u8]) -> Vec<u8> {
        let mut child = Command::new(concat!(env!("CARGO_MANIFEST_DIR"), "/../target/bin/listing"))
            .stdin(Stdio::piped())
            .stdout(Stdio::piped())
            .spawn()
            .expect("the listing program is built: ./build listing");
        let mut pipe = child.stdin.take().expect("the program has a standard input");
        // Input that is too long is not read to its end, so a broken pipe is no fault.
        if let Err(error) = pipe.write_all(input) {
            assert_eq!(error.kind(), ErrorKind::BrokenPipe, "writing to the program: {error}");
        }
        drop(pipe);
        let output = child.wait_with_output().expect("the program ends");
        assert!(output.status.success(), "the program ends with {}", output.status);
        output.stdout
    }
}
