//! One picture at some levels, with all the memory that the calls are lent: each call can be run again and again.

use std::hint::black_box;

use crate::comparison::Comparison;
use crate::library::{self, Answer};
use crate::pictures::Picture;
use crate::plain;

/// What can be timed.
#[derive(Clone, Copy)]
pub enum Call {
    List,
    Comparison,
    Paint,
    Tree,
    Write,
    Read,
    /// Reading a file whose last block has a wrong check: every block is checked, and then nothing more is done.
    Check,
    /// The same check as a plain loop.
    PlainCheck,
    /// The least and the greatest of all samples, once a level.
    Passes,
}

pub struct Desk<'a> {
    picture: &'a Picture,
    levels: Vec<u8>,
    work: Vec<u8>,
    room: Vec<u8>,
    words: Vec<u32>,
    others: Vec<u32>,
    places: Vec<u32>,
    file: Vec<u8>,
    comparison: Comparison,
}

impl<'a> Desk<'a> {
    pub fn new(picture: &'a Picture, levels: Vec<u8>) -> Desk<'a> {
        let n = picture.samples();
        let (work, room) = (vec![0; n], vec![0; n]);
        let (words, others, places, file) = (Vec::new(), Vec::new(), Vec::new(), Vec::new());
        let comparison = Comparison::default();
        let mut desk = Desk { picture, levels, work, room, words, others, places, file, comparison };
        let needed = desk.list().place;
        desk.words = vec![0; needed];
        desk.others = vec![0; needed];
        desk.places = vec![0; needed / 2];
        desk
    }

    pub fn words(&self) -> usize {
        self.words.len()
    }

    pub fn file(&self) -> &[u8] {
        &self.file
    }

    fn list(&mut self) -> Answer {
        let p = self.picture;
        library::list(p.w, p.h, &p.px, &self.levels, &mut self.work, &mut self.words)
    }

    fn paint(&mut self) -> Answer {
        let p = self.picture;
        library::paint(p.w, p.h, p.px[0], &self.levels, &self.words, &mut self.room)
    }

    fn write(&mut self) -> Answer {
        let p = self.picture;
        library::write(p.w, p.h, p.px[0], &self.levels, &self.words, &mut self.file)
    }

    fn tree(&mut self) -> Answer {
        let (p, l) = (self.picture, &self.levels);
        library::tree(p.w, p.h, &p.px, l, &mut self.work, &mut self.words, &mut self.places)
    }

    fn compare(&mut self) -> Option<(usize, usize)> {
        let (p, l) = (self.picture, &self.levels);
        self.comparison.list(p.w, p.h, &p.px, l, &mut self.work, &mut self.others)
    }

    /// Reads the file with its last byte, which belongs to a check, turned over.
    fn read_damaged(&mut self) -> Answer {
        let last = self.file.len() - 1;
        self.file[last] ^= 255;
        let read = library::read(&self.file, &mut self.others);
        self.file[last] ^= 255;
        read.answer
    }

    pub fn run(&mut self, call: Call) {
        match call {
            Call::List => done(self.list()),
            Call::Paint => done(self.paint()),
            Call::Tree => done(self.tree()),
            Call::Write => done(self.write()),
            Call::Read => done(library::read(&self.file, &mut self.others).answer),
            Call::Comparison => assert!(self.compare().is_some(), "the comparison lists the picture"),
            Call::Check => assert_eq!(self.read_damaged().number, 13, "a wrong check is refused"),
            Call::PlainCheck => assert_eq!(plain::right_blocks(&self.file), self.file.len() / 512),
            Call::Passes => {
                for _ in &self.levels {
                    black_box(plain::ends(black_box(&self.picture.px)));
                }
            }
        }
    }

    /// Lists, compares and paints once: the comparison gives the same words and lines, and the painted picture holds
    /// for each sample the number of levels it is high at. Answers how many lines there are.
    pub fn check_list(&mut self) -> usize {
        let what = format!("{} at {} levels", self.picture.name, self.levels.len());
        let answer = self.list();
        let listed = (answer.words, answer.lines);
        done(answer);
        assert_eq!(self.compare(), Some(listed), "{what}: the comparison counts other words or lines");
        assert!(self.words == self.others, "{what}: the comparison lists other words");
        done(self.paint());
        let step = |v: &u8| self.levels.partition_point(|k| k < v) as u8;
        assert!(self.picture.px.iter().map(step).eq(self.room.iter().copied()), "{what}: painted otherwise");
        assert!(self.levels.len() < 255 || self.room == self.picture.px, "{what}: not the picture itself");
        listed.1
    }

    /// Writes the file and reads it back; answers no where the list is too long for one.
    pub fn check_file(&mut self) -> bool {
        let refused = self.write();
        if refused.number == 16 {
            return false;
        }
        self.file = vec![0; refused.place];
        done(self.write());
        self.others.fill(0);
        done(library::read(&self.file, &mut self.others).answer);
        assert!(self.words == self.others, "{}: the file reads otherwise", self.picture.name);
        let answer = self.read_damaged();
        assert_eq!((answer.number, answer.place), (13, self.file.len() / 512 - 1), "the last block is damaged");
        true
    }
}

fn done(answer: Answer) {
    assert_eq!(answer.number, 0, "a call was refused: {answer:?}");
}
