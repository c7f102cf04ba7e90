//! What the commands are to print and write, by the second program.

use std::fmt::Write;

use second::Second;

use crate::pictures::Picture;

const LOWER: u32 = 1 << 31;

/// The outlines of a picture, as the second program has them.
pub struct Expected<'a> {
    pub picture: &'a Picture,
    pub levels: Vec<u8>,
    pub words: Vec<u32>,
    pub entries: Vec<u32>,
}

pub fn level(word: u32) -> u8 {
    (word >> 23) as u8
}

fn code(word: u32) -> u32 {
    word % (1 << 23)
}

/// The framed picture.
pub fn framed(picture: &Picture) -> Picture {
    let Picture { w, h, px } = picture;
    let mut room = vec![0; w * h];
    assert_eq!(Second::TRUE.frame(*w, *h, px, &mut room).number, 0);
    Picture { w: *w, h: *h, px: room }
}

impl Expected<'_> {
    pub fn of<'a>(picture: &'a Picture, levels: &[u8]) -> Expected<'a> {
        let Picture { w, h, px } = picture;
        let mut work = vec![0; w * h];
        let needed = Second::TRUE.list(*w, *h, px, levels, &mut work, &mut []).place as usize;
        let (mut words, mut entries) = (vec![0; needed], vec![0; needed / 2]);
        let answer = Second::TRUE.tree(*w, *h, px, levels, &mut work, &mut words, &mut entries);
        assert_eq!(answer.number, 0, "the second program lists it");
        entries.truncate(answer.lines as usize);
        Expected { picture, levels: levels.to_vec(), words, entries }
    }

    /// The words of each line, with its number.
    pub fn lines(&self) -> Vec<&[u32]> {
        let starts: Vec<usize> = (0..self.words.len()).filter(|&i| self.words[i] >= LOWER).collect();
        let ends = starts.iter().skip(1).copied().chain([self.words.len()]);
        starts.iter().zip(ends).map(|(&start, end)| &self.words[start..end]).collect()
    }

    pub fn crossing(&self, word: u32) -> second::Crossing {
        let Picture { w, h, px } = self.picture;
        Second::TRUE.crossing(*w, *h, px, level(word), code(word))
    }

    fn end(&self, word: u32) -> (usize, usize) {
        let place = code(word) as usize / 2;
        (place % self.picture.w, place / self.picture.w)
    }

    fn kind(&self, n: usize) -> char {
        if self.entries[n] >= LOWER {
            'D'
        } else {
            'U'
        }
    }

    /// The listing's rows.
    pub fn text(&self) -> String {
        let Picture { w, h, px } = self.picture;
        let lines = self.lines();
        let counts = (self.levels.len(), self.words.len(), lines.len());
        let mut text = format!("{w} {h} {} {} {} {}\n", px[0], counts.0, counts.1, counts.2);
        for (n, line) in lines.iter().enumerate() {
            let entry = self.entries[n] % LOWER;
            let _ = writeln!(text, "{n} {} {entry} {} {}", level(line[0]), self.kind(n), line.len());
            for &word in *line {
                let ((x, y), crossing) = (self.end(word), self.crossing(word));
                let letter = ["S", "E", "N", "W"][crossing.heading as usize];
                let _ = writeln!(text, "{x} {y} {letter} {} {}", crossing.num, crossing.den);
            }
        }
        text
    }

    /// The summary, for levels that it shows in this form.
    pub fn summary(&self, shown: &str) -> String {
        let lines = self.lines();
        let most = lines.iter().map(|line| line.len()).max();
        let largest = most.map(|most| {
            let n = lines.iter().position(|line| line.len() == most).expect("one of them has the most");
            format!("largest line {n}: level {}, {most} crossings\n", level(lines[n][0]))
        });
        format!("{}{}", self.head(shown), largest.unwrap_or_default())
    }

    /// What summary and info share.
    pub fn head(&self, shown: &str) -> String {
        let Picture { w, h, px } = self.picture;
        let (levels, words, lines) = (self.levels.len(), self.words.len(), self.entries.len());
        format!("size {w} by {h}\nborder {}\nlevels {levels}: {shown}\nwords {words}\nlines {lines}\n", px[0])
    }

    /// The row of a line in the tree.
    pub fn row(&self, n: usize) -> String {
        let line = self.lines()[n];
        let parent = (self.entries[n] % LOWER).checked_sub(1).map_or("-".into(), |parent| parent.to_string());
        let (x, y) = self.end(line[0]);
        format!("{n} {} {parent} {} {} {x},{y}\n", level(line[0]), self.kind(n), line.len())
    }

    /// The tree as JSON, made from the rows.
    pub fn json(&self) -> String {
        let objects = (0..self.entries.len()).map(|n| {
            let row = self.row(n);
            let cells: Vec<&str> = row.split_whitespace().collect();
            let (x, y) = cells[5].split_once(',').expect("the lead is x,y");
            let parent = if cells[2] == "-" { "null" } else { cells[2] };
            let who = format!("\"line\": {}, \"level\": {}, \"parent\": {parent}", cells[0], cells[1]);
            let what = format!("\"kind\": \"{}\", \"crossings\": {}", cells[3], cells[4]);
            format!("\n  {{{who}, {what}, \"lead\": {{\"x\": {x}, \"y\": {y}}}}}")
        });
        format!("[{}\n]\n", objects.collect::<Vec<_>>().join(","))
    }

    /// The lines around a sample, each before those that it is around.
    pub fn around(&self, x: usize, y: usize) -> Vec<usize> {
        let (w, h) = (self.picture.w, self.picture.h);
        let inside = |&n: &usize| Second::TRUE.member(w, h, &self.words, n, x, y).1;
        let mut found: Vec<usize> = (0..self.entries.len()).filter(inside).collect();
        // Of two lines around a sample, the one that is inside the other counts the other among those around it.
        found.sort_by_key(|&n| self.depth(n));
        found
    }

    fn depth(&self, n: usize) -> usize {
        let parent = (self.entries[n] % LOWER) as usize;
        if parent == 0 {
            0
        } else {
            1 + self.depth(parent - 1)
        }
    }

    /// The outline file.
    pub fn file(&self) -> Vec<u8> {
        let Picture { w, h, px } = self.picture;
        let write = |file: &mut [u8]| Second::TRUE.write(*w, *h, px[0], &self.levels, &self.words, file);
        let mut file = vec![0; write(&mut []).place as usize];
        assert_eq!(write(&mut file).number, 0, "the second program writes it");
        file
    }

    /// The painted picture.
    pub fn painted(&self) -> Picture {
        let Picture { w, h, px } = self.picture;
        let mut room = vec![0; w * h];
        let answer = Second::TRUE.paint(*w, *h, px[0], &self.levels, &self.words, &mut room);
        assert_eq!(answer.number, 0, "the second program paints it");
        Picture { w: *w, h: *h, px: room }
    }
}
