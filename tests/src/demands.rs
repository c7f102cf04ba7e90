//! Group: the three demands, checked of what the subject itself returns.

use second::Second;

use crate::blocks::Parts;
use crate::calls::{Call, Calls};
use crate::case::{Case, Outcome, Said};
use crate::definition::{self, Outline};
use crate::files::write_case;
use crate::lent::Room;
use crate::pictures::{self, Picture};
use crate::rng::Rng;
use crate::run::Run;

pub fn group(run: &mut Run) {
    run.turns(40_000, |run, rng| {
        let (w, h) = pictures::sides(rng, 9);
        let picture = pictures::any(rng, w, h);
        let levels = pictures::levels(rng, &picture);
        let kept = if levels.len() > 12 && !rng.once_in(10) { &levels[..12] } else { &levels[..] };
        run.demand(&picture.case(Call::List, kept, rng, Room::exact), all_demands);
    });
    run.turns(400, |run, rng| {
        let (w, h) = (rng.between(10, 26), rng.between(10, 26));
        let picture = pictures::any(rng, w, h);
        let mut levels = pictures::levels(rng, &picture);
        levels.truncate(4);
        run.demand(&picture.case(Call::List, &levels, rng, Room::exact), all_demands);
    });
    run.turns(4_000, |run, rng| {
        let (w, h) = pictures::sides(rng, 24);
        let picture = pictures::any(rng, w, h);
        run.demand(&picture.case(Call::List, &pictures::all_levels(), rng, Room::exact), painted_whole);
    });
}

/// Every demand of a list case that was found elsewhere, if it is one that can be done.
pub fn again(run: &mut Run, case: &Case) {
    let whole = case.call == Call::List && case.w.checked_mul(case.h) == Some(case.px.len()) && !case.px.is_empty();
    let listed = |(_, list): (Picture, Case)| list.run(&Second::TRUE).number() == 0;
    if whole && as_list(case).is_ok_and(listed) {
        run.demand(case, all_demands);
        run.demand(case, painted_whole);
    }
}

/// The answer of a call that must be done.
fn done(calls: &dyn Calls, case: &Case) -> Result<Outcome, String> {
    let outcome = case.run(calls);
    match outcome.said.answer() {
        Some(answer) if answer.number == 0 => Ok(outcome),
        _ => Err(format!("{:?} is not done: {}", case.call, outcome.said)),
    }
}

/// The case itself with a picture of good form, and enough room.
fn as_list(case: &Case) -> Result<(Picture, Case), String> {
    let picture = Picture { w: case.w, h: case.h, px: case.px.clone() };
    let flat = Picture::new(case.w, case.h, case.px[0], |x, y| case.px[y * case.w + x]).px == case.px;
    let list = picture.case(Call::List, &case.levels, &mut Rng::new(1, 1), Room::exact);
    let good = case.w >= 2 && case.h >= 2 && flat;
    good.then_some((picture, list)).ok_or(String::new())
}

/// All demands of one picture. Gives the number of demands looked at.
fn all_demands(calls: &dyn Calls, case: &Case) -> Result<u64, String> {
    // A picture that was cut out of form asks for nothing.
    let Ok((picture, list)) = as_list(case) else { return Ok(0) };
    let outcome = done(calls, &list)?;
    let words = outcome.words();
    let outlines = definition::outlines(words)?;
    definition::each_crossing_once(&picture, &case.levels, &outlines)?;
    definition::in_order(&outlines)?;
    definition::each_step(&picture, &outlines)?;
    definition::counts_agree(&picture, &outlines)?;
    definition::sides_agree(&picture, &case.levels, &outlines)?;
    let lines = outcome.said.answer().map(|answer| answer.lines as usize);
    if lines != Some(outlines.len()) || outcome.work.iter().any(|&byte| byte != 0) {
        return Err("the count of lines or the work bytes".to_string());
    }
    let mut looked_at = 6;
    looked_at += tree(calls, &picture, &list, words, &outlines)?;
    looked_at += members(calls, &picture, words, &outlines)?;
    looked_at += painted_back(calls, &picture, &case.levels, words)?;
    looked_at += stored(calls, &picture, &case.levels, words)?;
    Ok(looked_at)
}

fn tree(calls: &dyn Calls, picture: &Picture, list: &Case, words: &[u32], outlines: &[Outline]) -> Result<u64, String> {
    let case = picture.case(Call::Tree, &list.levels, &mut Rng::new(1, 2), Room::exact);
    let outcome = done(calls, &case)?;
    if outcome.words() != words {
        return Err("the tree's list is another one".to_string());
    }
    let wanted = definition::tree(picture, outlines);
    if outcome.entries[..wanted.len()] != wanted {
        return Err(format!("the tree is {wanted:?}, said is {:?}", &outcome.entries[..wanted.len()]));
    }
    definition::insides_agree(picture, outlines, &wanted)?;
    definition::comparison_agrees(picture, outlines, &wanted)?;
    Ok(3)
}

/// Some samples of some outlines.
fn members(calls: &dyn Calls, picture: &Picture, words: &[u32], outlines: &[Outline]) -> Result<u64, String> {
    let (w, h) = (picture.w, picture.h);
    let step = outlines.len() / 4 + 1;
    for (n, outline) in outlines.iter().enumerate().step_by(step) {
        let inside = definition::odd_left(picture, outline);
        for place in (n % 3..w * h).step_by(3) {
            let (x, y) = (place % w, place / w);
            let case = Case { call: Call::Member, w, h, words: words.to_vec(), n, x, y, ..Case::default() };
            let Said::Member(answer, said) = case.run(calls).said else { return Err("no answer".to_string()) };
            if answer.number != 0 || said != inside[place] {
                return Err(format!("sample {x} {y} and line {n}: inside is {}", inside[place]));
            }
        }
    }
    Ok(1)
}

fn painted_back(calls: &dyn Calls, picture: &Picture, levels: &[u8], words: &[u32]) -> Result<u64, String> {
    let parts = parts(picture, levels, words);
    let room = Room::exact(&mut Rng::new(1, 3), picture.px.len());
    let outcome = done(calls, &Case { call: Call::Paint, ..write_case(&parts, room) })?;
    let same = outcome.room == picture.stepped(levels);
    same.then_some(1).ok_or("the painting is not the stepped picture".to_string())
}

/// With all levels the painting is the picture itself.
fn painted_whole(calls: &dyn Calls, case: &Case) -> Result<u64, String> {
    let Ok((picture, list)) = as_list(case) else { return Ok(0) };
    let words = done(calls, &list)?.words().to_vec();
    if list.levels == pictures::all_levels() && picture.stepped(&list.levels) != picture.px {
        return Err("the suite's stepped picture is wrong".to_string());
    }
    painted_back(calls, &picture, &list.levels, &words)
}

/// Written and read, the list is the same.
fn stored(calls: &dyn Calls, picture: &Picture, levels: &[u8], words: &[u32]) -> Result<u64, String> {
    let parts = parts(picture, levels, words);
    let mut rng = Rng::new(1, 4);
    let needed = 512 * (1 + words.len().div_ceil(127));
    let file = done(calls, &write_case(&parts, Room::exact(&mut rng, needed)))?.room;
    let places = Room::exact(&mut rng, words.len());
    let outcome = done(calls, &Case { call: Call::Read, input: file, places, ..Case::default() })?;
    let Said::Read(read) = &outcome.said else { return Err("no answer".to_string()) };
    let same = outcome.words() == words
        && (read.w as usize, read.h as usize, read.border) == (picture.w, picture.h, picture.px[0] as u32)
        && read.levels[..read.count as usize] == *levels;
    same.then_some(1).ok_or("the file does not read back".to_string())
}

fn parts(picture: &Picture, levels: &[u8], words: &[u32]) -> Parts {
    let (levels, words) = (levels.to_vec(), words.to_vec());
    Parts { w: picture.w, h: picture.h, border: picture.px[0], levels, words }
}
