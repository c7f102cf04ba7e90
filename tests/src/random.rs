//! Group: random pictures of many kinds, with lent memory of many sizes.

use crate::calls::Call;
use crate::case::Case;
use crate::lent::Room;
use crate::pictures::{self, Picture};
use crate::rng::Rng;
use crate::run::Run;

pub fn group(run: &mut Run) {
    run.turns(50_000, |run, rng| {
        let (w, h) = pictures::sides(rng, 12);
        one(run, rng, w, h);
    });
    run.turns(1_200, |run, rng| {
        let (w, h) = (rng.between(13, 64), rng.between(2, 64));
        few_levels(run, rng, w, h);
    });
    run.turns(60, |run, rng| {
        let (long, short) = (2048, rng.between(2, 5));
        let (w, h) = if rng.once_in(2) { (long, short) } else { (short, long) };
        few_levels(run, rng, w, h);
    });
    run.turns(6, |run, rng| {
        let picture = pictures::any(rng, 64, 64);
        list_and_tree(run, rng, &picture, &pictures::all_levels());
    });
}

fn one(run: &mut Run, rng: &mut Rng, w: usize, h: usize) {
    let picture = pictures::any(rng, w, h);
    let levels = pictures::levels(rng, &picture);
    list_and_tree(run, rng, &picture, &levels);
    // A picture as it comes, without a constant border.
    if rng.once_in(8) {
        let mut broken = picture.case(Call::Tree, &levels, rng, Room::about);
        let place = rng.below(w * h);
        broken.px[place] = rng.byte();
        run.check(&broken);
    }
}

/// A larger picture with a few levels.
fn few_levels(run: &mut Run, rng: &mut Rng, w: usize, h: usize) {
    let picture = pictures::any(rng, w, h);
    let mut levels = pictures::levels(rng, &picture);
    while levels.len() > 6 {
        let place = rng.below(levels.len());
        levels.remove(place);
    }
    list_and_tree(run, rng, &picture, &levels);
}

fn list_and_tree(run: &mut Run, rng: &mut Rng, picture: &Picture, levels: &[u8]) {
    let list = picture.case(Call::List, levels, rng, Room::about);
    if let Some(outcome) = run.check(&list) {
        paint_back(run, rng, picture, &list, outcome.words());
    }
    run.check(&picture.case(Call::Tree, levels, rng, Room::about));
}

/// The list painted back. A done list gives the stepped picture.
pub fn paint_back(run: &mut Run, rng: &mut Rng, picture: &Picture, list: &Case, words: &[u32]) {
    let (w, h, border) = (picture.w, picture.h, picture.px[0]);
    let (words, levels) = (words.to_vec(), list.levels.clone());
    let room = Room::about(rng, w * h);
    let done = words.len() == picture.crossings(&levels).0 && room.size >= w * h;
    let paint = Case { call: Call::Paint, w, h, border, levels, words, room, ..Case::default() };
    if let Some(outcome) = run.check(&paint) {
        let stepped = picture.stepped(&paint.levels);
        let wrong = done && outcome.room[..w * h] != stepped[..];
        run.direct(&paint, wrong.then(|| "the painting is not the stepped picture".to_string()));
    }
}
