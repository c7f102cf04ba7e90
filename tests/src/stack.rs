//! Group: each call on a stack no larger than the header says it needs, done and refused in every way, on small pictures and on the largest.

use std::thread;

use second::Second;

use crate::blocks::{self, Parts, LIMIT};
use crate::calls::Call;
use crate::case::{Case, Outcome};
use crate::files::write_case;
use crate::lent::Room;
use crate::pgms;
use crate::pictures::{self, Picture};
use crate::refusals::{each_refused, pgm_case};
use crate::rng::Rng;
use crate::run::Run;
use crate::words::good_words;

/// What a thread and the suite itself take of a stack.
const OWN: usize = 16 * KB;

const KB: usize = 1024;

pub fn group(run: &mut Run) {
    let mut rng = run.rng();
    let mut cases = done(&mut rng);
    // A stack that has been used is handed out again to a thread that asks for less: so the smallest go first.
    cases.sort_by_key(|case| most(case.call));
    for case in cases {
        compare(run, &case);
        #[cfg(feature = "library")]
        if case.call == Call::Frame {
            let depth = crate::depth::framing(&case);
            run.count(1);
            run.notes.push(format!("framing {} by {} went {depth} bytes deep", case.w, case.h));
            run.direct(&case, (depth > most(Call::Frame)).then(|| format!("framing took {depth} bytes of stack")));
        }
        for refused in each_refused(&case, &mut rng) {
            compare(run, &refused);
        }
    }
}

/// The bytes that the header says.
fn most(call: Call) -> usize {
    match call {
        Call::List => 144 * KB,
        Call::Tree => 48 * KB,
        Call::Paint => 528 * KB,
        Call::Frame => 512,
        _ => 8 * KB,
    }
}

fn compare(run: &mut Run, case: &Case) {
    if run.over() {
        return;
    }
    run.count(1);
    if on_small_stack(run, case) != case.run(&Second::TRUE) {
        run.fail_compared(case);
    }
}

/// The subject at work on a stack of its own. Too small a stack ends the suite by a signal.
fn on_small_stack(run: &Run, case: &Case) -> Outcome {
    let subject = run.subject;
    let room = thread::Builder::new().stack_size(most(case.call) + OWN);
    thread::scope(|scope| {
        let thread = room.spawn_scoped(scope, || case.run(subject)).expect("a thread can be started");
        thread.join().expect("a call's panic is caught in its case")
    })
}

/// Cases of every call that are done. Words are counted in one way below four levels, in another up to eight, and in a third for more.
fn done(rng: &mut Rng) -> Vec<Case> {
    let small = Picture::new(90, 70, 0, |_, _| rng.byte());
    let full = Picture::new(2048, 2048, 0, |x, y| ((x / 16) ^ (y / 16)) as u8 * 2);
    let mut cases = vec![];
    for picture in [small, full] {
        for levels in [&[60][..], &[60, 200], &[3, 60, 61, 127, 200, 254], &pictures::all_levels()[..]] {
            // Every level of the largest picture would take the second program long.
            let levels = if picture.w == 2048 { &levels[..levels.len().min(12)] } else { levels };
            cases.extend(of_picture(&picture, levels, rng));
        }
    }
    cases.extend(longest_file(rng));
    for plain in [false, true] {
        for (w, h) in [(90, 70), (2048, 2048)] {
            let px = (0..w * h).map(|_| rng.below(255) as u8).collect();
            cases.push(pgm_case(&pgms::Parts { plain, w, h, maximum: 254, px }, rng));
        }
    }
    cases
}

/// Cases of every call on one picture.
fn of_picture(picture: &Picture, levels: &[u8], rng: &mut Rng) -> Vec<Case> {
    let (w, h, border) = (picture.w, picture.h, picture.px[0]);
    let list = picture.case(Call::List, levels, rng, Room::enough);
    let words = list.run(&Second::TRUE).words().to_vec();
    let with = |call, words: &[u32]| Case {
        call,
        w,
        h,
        border,
        words: words.to_vec(),
        levels: levels.to_vec(),
        ..Case::default()
    };
    let alone = |call| Case { call, w, h, px: picture.px.clone(), ..Case::default() };
    let crossed = words[0];
    let (level, code) = ((crossed >> 23) as u8, crossed & 0x7f_ffff);
    let (x, y) = (code as usize / 2 % w, (code as usize / 2 / w).min(h - 2));
    let lines = words.iter().filter(|&&word| word >= 1 << 31).count();
    let mixed = good_words(rng, w, h, levels, words.len().min(100_000));
    let parts = Parts { w, h, border, levels: levels.to_vec(), words: words.clone() };
    let file = blocks::build(&parts);
    let length = file.len();
    vec![
        picture.case(Call::Tree, levels, rng, Room::enough),
        Case { room: Room::enough(rng, w * h), ..with(Call::Paint, &words) },
        Case { room: Room::enough(rng, w * h), ..with(Call::Paint, &mixed) },
        Case { room: Room::enough(rng, w * h), ..alone(Call::Frame) },
        Case { level, code, ..alone(Call::Crossing) },
        Case { level, x, y, ..alone(Call::Piece) },
        Case { n: lines - 1, ..with(Call::LinePart, &words) },
        Case { n: lines, ..with(Call::LinePart, &words) },
        Case { n: lines - 1, x: w - 1, y: h / 2, ..with(Call::Member, &words) },
        write_case(&parts, Room::enough(rng, length)),
        Case { call: Call::Read, w, h, input: file, places: Room::enough(rng, words.len()), ..Case::default() },
        list,
    ]
}

/// As many words as a file can hold, written and read.
fn longest_file(rng: &mut Rng) -> [Case; 2] {
    let (w, h) = (2048, 2048);
    let levels = pictures::all_levels();
    let words = good_words(rng, w, h, &levels, LIMIT);
    let parts = Parts { w, h, border: 0, levels, words };
    let file = blocks::build(&parts);
    let write = write_case(&parts, Room::exact(rng, file.len()));
    let read = Case { call: Call::Read, w, h, input: file, places: Room::exact(rng, LIMIT), ..Case::default() };
    [write, read]
}
