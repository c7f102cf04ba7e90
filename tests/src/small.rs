//! Group: all small pictures of a few values.

use crate::calls::Call;
use crate::case::Case;
use crate::lent::Room;
use crate::pictures::{all_levels, Picture};
use crate::run::Run;

pub fn group(run: &mut Run) {
    // Any inner 2 by 2 and any border over 0 to 4, any level list over 0 to 3.
    every_inner(run, 2, 5, &subsets(4));
    // One inner sample and a border, all bytes.
    centres(run);
    // Inner 3 by 3 of two and of three values, inner 4 by 4 of two values.
    every_inner(run, 3, 2, &[vec![0]]);
    every_inner(run, 3, 3, &[vec![0], vec![1], vec![0, 1]]);
    every_inner(run, 4, 2, &[vec![0]]);
    spread_values(run);
}

/// All level lists below a level.
fn subsets(levels: usize) -> Vec<Vec<u8>> {
    let list = |set: usize| (0..levels as u8).filter(|k| set >> k & 1 == 1).collect();
    (0..1 << levels).map(list).collect()
}

/// All pictures with an inner square of so many values, and any border.
fn every_inner(run: &mut Run, side: usize, values: usize, lists: &[Vec<u8>]) {
    let count = values.pow((side * side + 1) as u32);
    for index in 0..count {
        if run.takes(index) {
            let digit = |place: usize| (index / values.pow(place as u32) % values) as u8;
            let inner = |x: usize, y: usize| digit(1 + (y - 1) * side + x - 1);
            let picture = Picture::new(side + 2, side + 2, digit(0), inner);
            lists.iter().for_each(|levels| list_tree_paint(run, &picture, levels));
        }
    }
}

/// A centre and a border of any value.
fn centres(run: &mut Run) {
    for index in 0..65536 {
        if run.takes(index) {
            let (centre, border) = ((index / 256) as u8, (index % 256) as u8);
            let picture = Picture::new(3, 3, border, |_, _| centre);
            let (low, high) = (centre.min(border), centre.max(border));
            let mut levels = vec![low.saturating_sub(1), low, ((low as u16 + high as u16) / 2) as u8, high];
            levels.retain(|&k| k < 255);
            levels.dedup();
            list_tree_paint(run, &picture, &levels);
            if index % 257 < 2 || index % 19 == 0 {
                list_tree_paint(run, &picture, &all_levels());
            }
        }
    }
}

/// Inner 2 by 2 over values far from each other, with the levels that can meet a saddle.
fn spread_values(run: &mut Run) {
    let values = [0, 1, 3, 100, 254, 255];
    for index in 0..6usize.pow(5) {
        if run.takes(index) {
            let value = |place: usize| values[index / 6usize.pow(place as u32) % 6];
            let picture = Picture::new(4, 4, value(4), |x, y| value(2 * (y - 1) + x - 1));
            list_tree_paint(run, &picture, &[0, 1, 2, 50, 99, 127, 177, 253, 254]);
        }
    }
}

/// List, tree and painting of one picture, and the painting held against the stepped picture.
fn list_tree_paint(run: &mut Run, picture: &Picture, levels: &[u8]) {
    let mut rng = run.rng();
    run.check(&picture.case(Call::Tree, levels, &mut rng, Room::about));
    let list = picture.case(Call::List, levels, &mut rng, Room::enough);
    let Some(words) = run.check(&list).map(|outcome| outcome.words().to_vec()) else {
        return;
    };
    let (w, h, border) = (picture.w, picture.h, picture.px[0]);
    let levels = levels.to_vec();
    let room = Room::exact(&mut rng, w * h);
    let paint = Case { call: Call::Paint, w, h, border, levels, words, room, ..Case::default() };
    if let Some(outcome) = run.check(&paint) {
        let stepped = picture.stepped(&paint.levels);
        run.direct(&paint, (outcome.room != stepped).then(|| format!("the stepped picture is {stepped:?}")));
    }
}
