//! The suite: the same cases for the subject and for the second program, compared whole.
//!
//! `suite` runs all groups with fixed seeds.
//! `suite --only GROUP,GROUP` runs some of them.
//! `suite --seed NUMBER` takes another seed.
//! `suite --long SECONDS` goes on with fresh seeds.
//! `suite --faults` shows that wrong variants of the second program are caught.
//! `suite --fault NAME` takes one wrong variant as the subject, and so shows how it fails.
//! `suite --case TEXT` runs one case, or one turn of a group, as a failure prints it; `@FILE` takes the text from a file.
//! `suite --layout` prints how the structs that cross to C are laid out.

mod blocks;
mod borders;
mod calls;
mod case;
mod cells;
mod definition;
mod demands;
#[cfg(feature = "library")]
mod depth;
mod faults;
mod files;
mod frames;
mod json;
mod large;
#[cfg(feature = "library")]
mod layout;
mod lent;
#[cfg(feature = "library")]
mod library;
mod listings;
#[cfg(feature = "library")]
#[path = "../../crates/host/loafcanyon.rs"]
mod loafcanyon;
mod pgms;
mod pictures;
mod random;
mod refusals;
mod replay;
mod rng;
mod run;
mod show;
mod shrink;
mod small;
mod stack;
mod storage;
mod vectors;
mod words;

use std::process::ExitCode;
use std::time::{Duration, Instant, SystemTime, UNIX_EPOCH};

use calls::Calls;
use run::{Plan, Run};
use second::{Fault, Second};

/// A named group of cases.
pub struct Group {
    name: &'static str,
    /// Does it give other cases under another seed?
    random: bool,
    /// Does it need much memory and time?
    heavy: bool,
    run: fn(&mut Run),
}

const GROUPS: [Group; 15] = [
    Group { name: "vectors", random: false, heavy: false, run: vectors::group },
    Group { name: "small", random: false, heavy: false, run: small::group },
    Group { name: "refusals", random: true, heavy: false, run: refusals::group },
    Group { name: "borders", random: true, heavy: false, run: borders::group },
    Group { name: "random", random: true, heavy: false, run: random::group },
    Group { name: "demands", random: true, heavy: false, run: demands::group },
    Group { name: "cells", random: true, heavy: false, run: cells::group },
    Group { name: "words", random: true, heavy: false, run: words::group },
    Group { name: "files", random: true, heavy: false, run: files::group },
    Group { name: "storage", random: true, heavy: false, run: storage::group },
    Group { name: "pgms", random: true, heavy: false, run: pgms::group },
    Group { name: "frames", random: true, heavy: false, run: frames::group },
    Group { name: "listings", random: true, heavy: false, run: listings::group },
    Group { name: "stack", random: false, heavy: true, run: stack::group },
    Group { name: "large", random: false, heavy: true, run: large::group },
];

const SEED: u64 = 0x10AF;

/// The program under test.
#[cfg(feature = "library")]
fn program() -> Box<dyn Calls> {
    Box::new(library::Library)
}

/// The program under test.
#[cfg(not(feature = "library"))]
fn program() -> Box<dyn Calls> {
    Box::new(Second::TRUE)
}

/// What the command line asks for.
#[derive(Default)]
struct Wish {
    only: Option<Vec<String>>,
    seed: Option<u64>,
    long: Option<u64>,
    faults: bool,
    fault: Option<Fault>,
    case: Option<String>,
    layout: bool,
}

fn wish() -> Result<Wish, String> {
    let mut wish = Wish::default();
    let mut arguments = std::env::args().skip(1);
    while let Some(argument) = arguments.next() {
        let mut value = || arguments.next().ok_or(format!("{argument} needs a value"));
        match argument.as_str() {
            "--only" => wish.only = Some(value()?.split(',').map(str::to_string).collect()),
            "--seed" => wish.seed = Some(number(&value()?)?),
            "--long" => wish.long = Some(number(&value()?)?),
            "--faults" => wish.faults = true,
            "--fault" => wish.fault = Some(fault(&value()?)?),
            "--case" => wish.case = Some(text(value()?)?),
            "--layout" => wish.layout = true,
            other => return Err(format!("{other} is not known")),
        }
    }
    let known = |name: &String| GROUPS.iter().any(|group| group.name == name);
    match wish.only.iter().flatten().find(|name| !known(name)) {
        Some(name) => Err(format!("there is no group {name}")),
        None => Ok(wish),
    }
}

fn fault(name: &str) -> Result<Fault, String> {
    let named = Fault::ALL.into_iter().find(|fault| format!("{fault:?}") == name);
    named.ok_or(format!("there is no fault {name}"))
}

fn number(text: &str) -> Result<u64, String> {
    let parsed = match text.strip_prefix("0x") {
        Some(hex) => u64::from_str_radix(hex, 16),
        None => text.parse(),
    };
    parsed.map_err(|_| format!("{text} is no number"))
}

/// The text of a case: itself, or what a file holds.
fn text(given: String) -> Result<String, String> {
    match given.strip_prefix('@') {
        Some(file) => std::fs::read_to_string(file).map_err(|error| format!("{file}: {error}")),
        None => Ok(given),
    }
}

/// Runs one group and prints its line. Gives the cases passed and failed.
fn run_group(subject: &dyn Calls, group: &Group, plan: Plan) -> (u64, u64) {
    let started = Instant::now();
    let mut run = Run::new(subject, group.name, plan);
    (group.run)(&mut run);
    run.show_failures();
    println!("{}", run.line(started.elapsed().as_secs_f64()));
    (run.cases - run.failed.min(run.cases), run.failed)
}

/// Goes on with fresh seeds until the time is over.
fn run_long(subject: &dyn Calls, groups: &[&Group], seconds: u64, plan: Plan) -> (u64, u64) {
    let deadline = Instant::now() + Duration::from_secs(seconds);
    let (mut passed, mut failed) = (0, 0);
    for seed in plan.seed.. {
        println!("seed {seed:#x}");
        for group in groups.iter().filter(|group| group.random) {
            let (p, f) = run_group(subject, group, Plan { seed, deadline: Some(deadline), ..plan });
            (passed, failed) = (passed + p, failed + f);
        }
        if Instant::now() >= deadline || failed > 0 {
            break;
        }
    }
    (passed, failed)
}

/// Runs one case again, or one turn of a group. Gives the cases passed and failed.
fn run_again(subject: &dyn Calls, text: &str, plan: Plan) -> Result<(u64, u64), String> {
    if let Some((name, seed, turn)) = replay::turn_of(text.trim()) {
        let group = GROUPS.iter().find(|group| group.name == name).ok_or(format!("there is no group {name}"))?;
        let (passed, failed) = run_group(subject, group, Plan { seed, turn: Some(turn), ..plan });
        return if passed + failed > 0 { Ok((passed, failed)) } else { Err(format!("there is no turn {turn}")) };
    }
    let case = replay::case_of(text)?;
    println!("case    {case}\nsubject {}\nsecond  {}", case.run(subject), case.run(&Second::TRUE));
    let mut run = Run::new(subject, "case", plan);
    run.check(&case);
    demands::again(&mut run, &case);
    run.show_failures();
    Ok((run.cases - run.failed, run.failed))
}

#[cfg(feature = "library")]
fn print_layout() -> Result<(), String> {
    layout::print();
    Ok(())
}

#[cfg(not(feature = "library"))]
fn print_layout() -> Result<(), String> {
    Err("the layout is that of the library: --features library".to_string())
}

fn fresh_seed() -> u64 {
    let since = SystemTime::now().duration_since(UNIX_EPOCH).unwrap_or_default();
    rng::Rng::new(since.as_nanos() as u64, 1).next() >> 16
}

/// Does what is asked. Gives the cases passed and failed.
fn run(wish: &Wish) -> Result<(u64, u64), String> {
    let wanted = |group: &&Group| wish.only.as_ref().is_none_or(|names| names.iter().any(|name| name == group.name));
    let groups: Vec<&Group> = GROUPS.iter().filter(wanted).collect();
    let subject = wish.fault.map_or_else(program, |fault| Box::new(Second { fault }));
    let plan = Plan { fault: wish.fault, ..Plan::whole(wish.seed.unwrap_or(SEED)) };
    if let Some(text) = &wish.case {
        run_again(&*subject, text, plan)
    } else if wish.faults {
        Ok(faults::run(&groups, plan.seed))
    } else if let Some(seconds) = wish.long {
        let seed = wish.seed.unwrap_or_else(fresh_seed);
        Ok(run_long(&*subject, &groups, seconds, Plan { seed, ..plan }))
    } else {
        let results = groups.iter().map(|group| run_group(&*subject, group, plan));
        Ok(results.fold((0, 0), |sum, one| (sum.0 + one.0, sum.1 + one.1)))
    }
}

fn main() -> ExitCode {
    case::panics_in_cases_are_silent();
    let done = wish().and_then(|wish| match wish.layout {
        true => print_layout().map(|()| None),
        false => run(&wish).map(Some),
    });
    match done {
        Ok(None) => ExitCode::SUCCESS,
        Ok(Some((passed, failed))) => {
            println!("{passed} passed, {failed} failed");
            ExitCode::from((failed > 0) as u8)
        }
        Err(message) => {
            eprintln!("{message}");
            ExitCode::from(2)
        }
    }
}
