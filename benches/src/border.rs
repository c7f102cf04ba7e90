//! The time of a refusal for the border, beside one plain look at the border.

use std::hint::black_box;

use crate::bars::Bar;
use crate::library;
use crate::pictures::Picture;
use crate::plain;
use crate::timing::Pace;

/// What a refusal may take of a plain look's time.
const LOOK: f64 = 1.0;

/// Either takes some millionths of a second, so they are timed so many at a time.
const CALLS: usize = 200;

/// Times in seconds, of one refusal and one look.
pub struct Refusal {
    pub picture: &'static str,
    pub refuse: f64,
    pub look: f64,
}

impl Refusal {
    pub fn ratio(&self) -> f64 {
        self.refuse / self.look
    }

    pub fn bar(&self) -> Bar {
        Bar {
            what: format!("refuse/look, {}, last corner", self.picture),
            limit: LOOK,
            seen: self.ratio(),
            at_most: true,
        }
    }
}

/// The picture with its last corner changed, which is the last border sample that either of them comes to.
pub fn refusal(mut picture: Picture, pace: Pace) -> Refusal {
    eprintln!("bench: {}, refused for its last corner", picture.name);
    let (w, h, last) = (picture.w, picture.h, picture.samples() - 1);
    picture.px[last] ^= 1;
    let px = &picture.px;
    let answer = library::list(w, h, px, &[90], &mut [], &mut []);
    assert!(answer.number == 17 && answer.place == last, "{} is not refused right", picture.name);
    assert!(plain::look(w, h, px) == last, "the plain look at {} is wrong", picture.name);
    let [refuse, look] = pace.share(0.3).least([true, false], |refuses| {
        for _ in 0..CALLS {
            if refuses {
                black_box(library::list(w, h, black_box(px), &[90], &mut [], &mut []));
            } else {
                black_box(plain::look(w, h, black_box(px)));
            }
        }
    });
    Refusal { picture: picture.name, refuse: refuse / CALLS as f64, look: look / CALLS as f64 }
}
