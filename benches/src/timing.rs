//! Time on the processor, the least of several repeats. Other jobs may share the machine, so the clock is that of
//! this process and of those that it has started.

#[repr(C)]
struct Timespec {
    seconds: i64,
    nanoseconds: i64,
}

/// The numbers of the clock on the wall and of the process's own clock.
const WALL: i32 = 1;
const PROCESS: i32 = 2;

/// What processes used: user time, system time, and 14 numbers that are not looked at.
#[repr(C)]
#[derive(Default)]
struct Usage {
    user: [i64; 2],
    system: [i64; 2],
    others: [i64; 14],
}

/// The number of the processes that were started and have ended.
const CHILDREN: i32 = -1;

extern "C" {
    fn clock_gettime(clock: i32, time: *mut Timespec) -> i32;
    fn getrusage(who: i32, usage: *mut Usage) -> i32;
}

/// Seconds that ended children took.
fn children() -> f64 {
    let mut usage = Usage::default();
    // SAFETY: the struct is laid out as C has it on 64-bit Linux: pairs of seconds and microseconds, then the rest.
    let status = unsafe { getrusage(CHILDREN, &mut usage) };
    assert_eq!(status, 0, "the usage is there");
    let [user, system] = [usage.user, usage.system].map(|[seconds, micros]| seconds as f64 + micros as f64 * 1e-6);
    user + system
}

/// Seconds on the processor, children included.
fn spent() -> f64 {
    now(PROCESS) + children()
}

/// Seconds on a clock.
fn now(clock: i32) -> f64 {
    let mut time = Timespec { seconds: 0, nanoseconds: 0 };
    // SAFETY: the struct is laid out as C has it on 64-bit Linux.
    let status = unsafe { clock_gettime(clock, &mut time) };
    assert_eq!(status, 0, "the clock is there");
    time.seconds as f64 + time.nanoseconds as f64 * 1e-9
}

/// How long a thing took.
pub struct Took {
    pub process: f64,
    wall: f64,
}

impl Took {
    /// Hardly anything else ran meanwhile. Where something did, the process's clock may have been set back too far: a
    /// guest takes off what its host says it has stolen.
    fn calm(&self) -> bool {
        self.process > 0.9 * self.wall
    }
}

/// How long a thing takes, once.
pub fn once(thing: impl FnOnce()) -> Took {
    let (wall, process) = (now(WALL), spent());
    thing();
    let process = spent() - process;
    Took { process, wall: now(WALL) - wall }
}

/// How much is repeated.
#[derive(Clone, Copy)]
pub struct Pace {
    /// The seconds for one group of calls.
    pub seconds: f64,
    /// Repeats that are made even if they take longer.
    pub at_least: usize,
}

impl Pace {
    /// The same with another share of the seconds.
    pub fn share(self, part: f64) -> Pace {
        Pace { seconds: self.seconds * part, ..self }
    }

    /// The least time of each call, by its calm repeats if it has any. They take turns, so that what disturbs one
    /// disturbs all; and while a least time still falls in the later half of the repeats, there are more of them, up
    /// to three times the seconds.
    pub fn least<C: Copy, const N: usize>(self, calls: [C; N], mut run: impl FnMut(C)) -> [f64; N] {
        let mut seen = [Least::default(); N];
        let (mut spent, mut repeats, mut fell) = (0.0, 0, 0);
        while repeats < self.at_least || spent < self.seconds || (2 * fell > repeats && spent < 3.0 * self.seconds) {
            for (least, call) in seen.iter_mut().zip(calls) {
                let took = once(|| run(call));
                spent += took.process;
                if least.take(&took) {
                    fell = repeats;
                }
            }
            repeats += 1;
        }
        seen.map(|least| least.time())
    }
}

/// The least time so far, of calm repeats and of any.
#[derive(Clone, Copy)]
struct Least {
    calm: f64,
    any: f64,
}

impl Default for Least {
    fn default() -> Least {
        Least { calm: f64::MAX, any: f64::MAX }
    }
}

impl Least {
    fn time(&self) -> f64 {
        if self.calm < f64::MAX {
            self.calm
        } else {
            self.any
        }
    }

    /// Takes one more repeat in, and answers whether the least time fell by more than a hundredth.
    fn take(&mut self, took: &Took) -> bool {
        let before = self.time();
        self.any = self.any.min(took.process);
        if took.calm() {
            self.calm = self.calm.min(took.process);
        }
        self.time() < 0.99 * before
    }
}
