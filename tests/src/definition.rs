//! The paper's demands as plain checks of a word list, without either program.

use std::cmp::Ordering;

use crate::pictures::Picture;

const FLAG: u32 = 1 << 31;

/// One outline of a list.
pub struct Outline {
    pub level: u8,
    pub codes: Vec<usize>,
}

/// The outlines of a list, or what is wrong with its flags and levels.
pub fn outlines(words: &[u32]) -> Result<Vec<Outline>, String> {
    let mut outlines: Vec<Outline> = Vec::new();
    for &word in words {
        let (code, level) = ((word & 0x7F_FFFF) as usize, (word >> 23) as u8);
        if word >= FLAG {
            outlines.push(Outline { level, codes: vec![] });
        }
        let outline = outlines.last_mut().ok_or("the list does not begin with a flag")?;
        if outline.level != level {
            return Err("an outline has two levels".to_string());
        }
        outline.codes.push(code);
    }
    Ok(outlines)
}

/// The end places of an edgel, if the code names one.
fn ends(picture: &Picture, code: usize) -> Option<(usize, usize)> {
    let (w, place) = (picture.w, code / 2);
    let there = match code % 2 {
        0 => place % w + 1 < w && place < w * picture.h,
        _ => place / w + 1 < picture.h,
    };
    there.then_some((place, place + if code % 2 == 1 { w } else { 1 }))
}

fn crossed(picture: &Picture, k: u8, code: usize) -> bool {
    ends(picture, code).is_some_and(|(a, b)| (picture.px[a] > k) != (picture.px[b] > k))
}

/// No crossed edgel is missing, doubled or in two outlines.
pub fn each_crossing_once(picture: &Picture, levels: &[u8], outlines: &[Outline]) -> Result<(), String> {
    let all = outlines.iter().map(|outline| outline.codes.len()).sum::<usize>();
    let mut due = 0;
    for &k in levels {
        let mut stands: Vec<usize> =
            outlines.iter().filter(|outline| outline.level == k).flat_map(|outline| outline.codes.clone()).collect();
        stands.sort();
        let wanted: Vec<usize> = (0..2 * picture.px.len()).filter(|&code| crossed(picture, k, code)).collect();
        due += wanted.len();
        if stands != wanted {
            return Err(format!("crossed at {k} are {wanted:?}, listed are {stands:?}"));
        }
    }
    (all == due).then_some(()).ok_or("a level is not listed".to_string())
}

/// The order of the levels, of the outlines in a level, and where each outline begins.
pub fn in_order(outlines: &[Outline]) -> Result<(), String> {
    for outline in outlines {
        let lead = outline.codes.iter().filter(|&&code| code % 2 == 0).min();
        if lead != Some(&outline.codes[0]) {
            return Err(format!("the outline {:?} does not begin at its lead", outline.codes));
        }
    }
    let key = |outline: &Outline| (outline.level, outline.codes[0]);
    let ascends = outlines.windows(2).all(|pair| key(&pair[0]) < key(&pair[1]));
    ascends.then_some(()).ok_or("levels or leads are out of order".to_string())
}

/// The cell that a crossing enters, by its top left place. The high end lies to the left of the way.
fn cell_entered(picture: &Picture, k: u8, code: usize) -> usize {
    let place = code / 2;
    let first_high = picture.px[place] > k;
    match (code % 2, first_high) {
        (0, false) | (1, true) => place,
        (0, true) => place - picture.w,
        _ => place - 1,
    }
}

/// Each crossing leads through one cell to the next, and saddles join the right corners.
pub fn each_step(picture: &Picture, outlines: &[Outline]) -> Result<(), String> {
    for outline in outlines {
        let k = outline.level;
        let next = outline.codes.iter().skip(1).chain(outline.codes.first());
        for (&here, &there) in outline.codes.iter().zip(next) {
            let cell = cell_entered(picture, k, here);
            let edges = [2 * cell, 2 * cell + 1, 2 * cell + 3, 2 * (cell + picture.w)];
            let leaves = cell_entered(picture, k, there) != cell;
            if !edges.contains(&there) || !leaves {
                return Err(format!("from {here} the outline at {k} goes to {there}, out of its cell"));
            }
            if edges.iter().all(|&edge| crossed(picture, k, edge)) && !joined_at_saddle(picture, k, cell, here, there) {
                return Err(format!("from {here} the outline at {k} takes the wrong way at the saddle, to {there}"));
            }
        }
    }
    Ok(())
}

/// Below the saddle the high corners are joined, so the outline goes round a low corner.
fn joined_at_saddle(picture: &Picture, k: u8, cell: usize, here: usize, there: usize) -> bool {
    let at = |place: usize| picture.px[place] as i128;
    let [nw, ne, sw, se] = [at(cell), at(cell + 1), at(cell + picture.w), at(cell + picture.w + 1)];
    let (s, d) = (nw * se - ne * sw, nw + se - ne - sw);
    let below = (2 * k as i128 + 1) * d * d < 2 * s * d;
    let ((a, b), (c, d)) = (ends(picture, here).unwrap(), ends(picture, there).unwrap());
    let shared = [a, b].into_iter().find(|end| [c, d].contains(end));
    shared.is_some_and(|corner| (picture.px[corner] > k) != below)
}

/// For each sample whether an odd number of the outline's crossings lies left of it.
pub fn odd_left(picture: &Picture, outline: &Outline) -> Vec<bool> {
    odd(picture, outline, |place| (0..place % picture.w).map(move |x| 2 * (place - place % picture.w + x)).collect())
}

/// For each sample whether an odd number of the outline's crossings lies above it.
fn odd_above(picture: &Picture, outline: &Outline) -> Vec<bool> {
    let w = picture.w;
    odd(picture, outline, |place| (0..place / w).map(move |y| 2 * (y * w + place % w) + 1).collect())
}

fn odd(picture: &Picture, outline: &Outline, before: impl Fn(usize) -> Vec<usize>) -> Vec<bool> {
    let mut stands = vec![false; 2 * picture.px.len()];
    outline.codes.iter().for_each(|&code| stands[code] ^= true);
    let count = |place| before(place).into_iter().filter(|&code| stands[code]).count();
    (0..picture.px.len()).map(|place| count(place) % 2 == 1).collect()
}

/// Rows and columns count alike, and neighbours differ exactly where the outline passes.
pub fn counts_agree(picture: &Picture, outlines: &[Outline]) -> Result<(), String> {
    for outline in outlines {
        let inside = odd_left(picture, outline);
        if inside != odd_above(picture, outline) {
            return Err(format!("rows and columns of the outline {:?} count otherwise", outline.codes));
        }
        let mut passes = vec![false; 2 * picture.px.len()];
        outline.codes.iter().for_each(|&code| passes[code] = true);
        for (code, &passed) in passes.iter().enumerate() {
            if let Some((a, b)) = ends(picture, code) {
                if (inside[a] != inside[b]) != passed {
                    return Err(format!("neighbours at {code} and the outline {:?} disagree", outline.codes));
                }
            }
        }
    }
    Ok(())
}

/// A sample is above a level as the border is, turned once for each outline around it.
pub fn sides_agree(picture: &Picture, levels: &[u8], outlines: &[Outline]) -> Result<(), String> {
    for &k in levels {
        let mut above = vec![picture.px[0] > k; picture.px.len()];
        for outline in outlines.iter().filter(|outline| outline.level == k) {
            let inside = odd_left(picture, outline);
            above.iter_mut().zip(inside).for_each(|(above, inside)| *above ^= inside);
        }
        if (0..picture.px.len()).any(|place| above[place] != (picture.px[place] > k)) {
            return Err(format!("a sample is on the wrong side of level {k}"));
        }
    }
    Ok(())
}

/// Where on its row a horizontal crossing lies, as a fraction.
fn position(picture: &Picture, k: u8, code: usize) -> (i128, i128) {
    let (a, b) = ends(picture, code).unwrap();
    let (left, right) = (picture.px[a] as i128, picture.px[b] as i128);
    // left + (right − left)·t = k + 1/2
    let (num, den) = (2 * k as i128 + 1 - 2 * left, 2 * (right - left));
    let (num, den) = if den < 0 { (-num, -den) } else { (num, den) };
    ((a % picture.w) as i128 * den + num, den)
}

fn compare(a: (i128, i128), b: (i128, i128)) -> Ordering {
    (a.0 * b.1).cmp(&(b.0 * a.1))
}

/// The parent of an outline by the definition.
fn parent(picture: &Picture, outlines: &[Outline], line: usize) -> Option<usize> {
    let lead = outlines[line].codes[0];
    let (row, here) = (lead / 2 / picture.w, position(picture, outlines[line].level, lead));
    let nearest_if_around = |m: usize| {
        let on_row = outlines[m].codes.iter().filter(|&&code| code % 2 == 0 && code / 2 / picture.w == row);
        let left: Vec<_> = on_row
            .map(|&code| position(picture, outlines[m].level, code))
            .filter(|&spot| compare(spot, here) == Ordering::Less)
            .collect();
        let nearest = left.iter().copied().max_by(|&a, &b| compare(a, b));
        nearest.filter(|_| m != line && left.len() % 2 == 1).map(|spot| (spot, m))
    };
    (0..outlines.len()).filter_map(nearest_if_around).max_by(|a, b| compare(a.0, b.0)).map(|(_, m)| m)
}

/// The tree entries by the definition.
pub fn tree(picture: &Picture, outlines: &[Outline]) -> Vec<u32> {
    let lower = |outline: &Outline| if picture.px[outline.codes[0] / 2] > outline.level { FLAG } else { 0 };
    let entry = |line| parent(picture, outlines, line).map_or(0, |m| m as u32 + 1) | lower(&outlines[line]);
    (0..outlines.len()).map(entry).collect()
}

/// A sample at an end of an outline's crossing and inside the outline is high exactly if the outline is upper.
pub fn insides_agree(picture: &Picture, outlines: &[Outline], entries: &[u32]) -> Result<(), String> {
    for (outline, &entry) in outlines.iter().zip(entries) {
        let inside = odd_left(picture, outline);
        let beside = outline.codes.iter().filter_map(|&code| ends(picture, code)).flat_map(|(a, b)| [a, b]);
        for place in beside {
            if inside[place] != ((picture.px[place] > outline.level) == (entry < FLAG)) {
                return Err(format!("inside the outline {:?} the place {place} is not of its kind", outline.codes));
            }
        }
    }
    Ok(())
}

/// The article's comparison with the parent's level gives the kind of every outline with a parent, and that of a root
/// exactly if the border is not above its level.
pub fn comparison_agrees(picture: &Picture, outlines: &[Outline], entries: &[u32]) -> Result<(), String> {
    for (line, &entry) in entries.iter().enumerate() {
        let level = outlines[line].level;
        let compared = match (entry % FLAG).checked_sub(1).map(|m| m as usize) {
            None => FLAG * (picture.px[0] > level) as u32,
            Some(m) => match level.cmp(&outlines[m].level) {
                Ordering::Greater => 0,
                Ordering::Less => FLAG,
                Ordering::Equal => (entries[m] & FLAG) ^ FLAG,
            },
        };
        if entry & FLAG != compared {
            return Err(format!("line {line} and its parent are not of the kinds that their levels say"));
        }
    }
    Ok(())
}
