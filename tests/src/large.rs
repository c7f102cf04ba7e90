//! Group: the largest pictures and the longest files.

use crate::blocks::{self, Parts, BLOCK, LIMIT};
use crate::calls::Call;
use crate::case::Case;
use crate::files::write_case;
use crate::lent::Room;
use crate::pictures::{self, Picture};
use crate::random::paint_back;
use crate::run::Run;

pub fn group(run: &mut Run) {
    pictures_of_full_size(run);
    longest_file(run);
    too_long(run);
}

/// Three pictures of 2048 by 2048.
fn pictures_of_full_size(run: &mut Run) {
    let mut rng = run.rng();
    let blobs = pictures::blobs(&mut rng, 2048, 2048);
    let noise = Picture::new(2048, 2048, 0, |_, _| rng.below(3) as u8);
    let checkers = Picture::new(2048, 2048, 7, |x, y| if (x + y) % 2 == 0 { 3 } else { 9 });
    let middle = blobs.px[2048 * 1024 + 1024].saturating_sub(1);
    for (picture, level) in [(blobs, middle), (noise, 1), (checkers, 5)] {
        let list = picture.case(Call::List, &[level], &mut rng, Room::enough);
        if let Some(outcome) = run.check(&list) {
            paint_back(run, &mut rng, &picture, &list, outcome.words());
        }
    }
}

/// As many words as a file can hold, and the same file with one byte changed.
fn longest_file(run: &mut Run) {
    let parts = Parts { w: 2, h: 2, border: 3, levels: vec![0, 254], words: vec![1 | 254 << 23; LIMIT] };
    let mut rng = run.rng();
    let file = blocks::build(&parts);
    let write = write_case(&parts, Room::enough(&mut rng, file.len()));
    if let Some(outcome) = run.check(&write) {
        let same = outcome.room[..file.len()] == file;
        run.direct(&write, (!same).then(|| "the longest file is not of the layout".to_string()));
    }
    let mut read = Case { call: Call::Read, input: file, ..Case::default() };
    read.places = Room::exact(&mut rng, LIMIT);
    if let Some(outcome) = run.check(&read) {
        let same = outcome.number() == 0 && outcome.words() == parts.words;
        run.direct(&read, (!same).then(|| "the longest file does not read back".to_string()));
    }
    let last = read.input.len() - 5;
    read.input[last] ^= 1;
    run.check(&read);
}

/// One word more than a file can hold, written and read.
fn too_long(run: &mut Run) {
    let parts = Parts { w: 2, h: 2, border: 3, levels: vec![0], words: vec![0; LIMIT + 1] };
    let needed = BLOCK * (1 + parts.words.len().div_ceil(127));
    let mut rng = run.rng();
    let write = write_case(&parts, Room::exact(&mut rng, needed));
    if let Some(outcome) = run.check(&write) {
        run.direct(&write, (outcome.number() != 16).then(|| "one word too many is taken".to_string()));
    }
    let read = Case { call: Call::Read, input: blocks::build(&parts), ..Case::default() };
    let read = Case { places: Room::exact(&mut rng, LIMIT + 1), ..read };
    if let Some(outcome) = run.check(&read) {
        run.direct(&read, (outcome.number() != 14).then(|| "one word too many is read".to_string()));
    }
}
