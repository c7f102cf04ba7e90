//! The run of one group: it counts, compares and shows what fails.

use std::collections::BTreeMap;
use std::time::Instant;

use second::{Fault, Second};

use crate::calls::{Call, Calls};
use crate::case::{Case, Outcome, Said};
use crate::replay;
use crate::rng::Rng;
use crate::shrink::shrink;

/// How much a run does, and when it ends.
#[derive(Clone, Copy)]
pub struct Plan {
    pub seed: u64,
    /// Fewer cases, nothing printed, and an end at the first failure.
    pub reduced: bool,
    pub deadline: Option<Instant>,
    /// Only the cases of this turn.
    pub turn: Option<u64>,
    /// The wrong variant that is the subject, if it is one.
    pub fault: Option<Fault>,
}

impl Plan {
    /// All of it, with this seed.
    pub fn whole(seed: u64) -> Plan {
        Plan { seed, reduced: false, deadline: None, turn: None, fault: None }
    }
}

/// A demand on what the subject returns. It gives the number of things it looked at.
pub type Demand = fn(&dyn Calls, &Case) -> Result<u64, String>;

/// How a case fails.
enum Wrong {
    /// Subject and second program differ.
    Compared,
    /// A demand does not hold.
    Demand(Demand),
    /// It was found in another way, and is replayed with its turn.
    Found(String),
}

impl Wrong {
    /// What is wrong with a case.
    fn with(&self, case: &Case, subject: &dyn Calls) -> Option<String> {
        match self {
            Wrong::Compared => difference(&case.run(subject), &case.run(&Second::TRUE)).map(str::to_string),
            Wrong::Demand(holds) => holds(subject, case).err(),
            Wrong::Found(message) => Some(message.clone()),
        }
    }
}

/// The failing cases of one call: how many, and the smallest.
struct Failure {
    count: u64,
    case: Case,
    wrong: Wrong,
    turn: u64,
}

/// One group at work on one subject.
pub struct Run<'a> {
    pub subject: &'a dyn Calls,
    pub group: &'static str,
    pub cases: u64,
    pub failed: u64,
    pub notes: Vec<String>,
    plan: Plan,
    turn: u64,
    failures: BTreeMap<Call, Failure>,
}

/// What is wrong with an outcome, seen against the true second program.
fn difference(subject: &Outcome, truth: &Outcome) -> Option<&'static str> {
    if subject.said == Said::Panicked {
        Some("the call panicked")
    } else if !subject.guards_whole {
        Some("the guards are broken")
    } else if subject.number() != 0 && !subject.unchanged {
        Some("a refused call changed lent memory")
    } else if subject != truth {
        Some("subject and second program differ")
    } else {
        None
    }
}

impl<'a> Run<'a> {
    pub fn new(subject: &'a dyn Calls, group: &'static str, plan: Plan) -> Run<'a> {
        Run { subject, group, cases: 0, failed: 0, notes: vec![], plan, turn: 0, failures: BTreeMap::new() }
    }

    /// Is there nothing more to do?
    pub fn over(&self) -> bool {
        let late = self.plan.deadline.is_some_and(|deadline| Instant::now() >= deadline);
        late || (self.plan.reduced && self.failed > 0)
    }

    /// The given number of turns, or a part of it.
    pub fn times(&self, full: usize) -> usize {
        if self.plan.reduced {
            full.div_ceil(50)
        } else {
            full
        }
    }

    /// Is this one of an exhaustive row of cases to be taken?
    pub fn takes(&self, index: usize) -> bool {
        !self.over() && (!self.plan.reduced || index.is_multiple_of(41))
    }

    /// Turns with a generator of their own each.
    pub fn turns(&mut self, full: usize, mut one: impl FnMut(&mut Run<'a>, &mut Rng)) {
        for _ in 0..self.times(full) {
            if self.over() {
                return;
            }
            let mut rng = self.rng();
            if self.wanted() {
                one(self, &mut rng);
            }
        }
    }

    /// The generator of the next turn.
    pub fn rng(&mut self) -> Rng {
        self.turn += 1;
        let name = self.group.bytes().fold(self.plan.seed, |sum, byte| sum.rotate_left(9) ^ byte as u64);
        Rng::new(name, self.turn)
    }

    /// Is this the group's first turn?
    pub fn first_turn(&self) -> bool {
        self.turn == 1
    }

    /// Are the cases of this turn asked for?
    fn wanted(&self) -> bool {
        self.plan.turn.is_none_or(|turn| turn == self.turn)
    }

    /// Compares the subject with the second program in one case. Gives the outcome if all is well.
    pub fn check(&mut self, case: &Case) -> Option<Outcome> {
        if !self.wanted() {
            return None;
        }
        self.cases += 1;
        let outcome = case.run(self.subject);
        if difference(&outcome, &case.run(&Second::TRUE)).is_none() {
            return Some(outcome);
        }
        self.fail_compared(case);
        None
    }

    /// Counts cases that were compared without being built.
    pub fn count(&mut self, cases: u64) {
        self.cases += if self.wanted() { cases } else { 0 };
    }

    /// Notes a case in which subject and second program differ.
    pub fn fail_compared(&mut self, case: &Case) {
        self.fail(case, Wrong::Compared);
    }

    /// Notes a failure that was found without the second program.
    pub fn direct(&mut self, case: &Case, wrong: Option<String>) {
        if let Some(wrong) = wrong {
            self.fail(case, Wrong::Found(wrong));
        }
    }

    /// A demand on what the subject returns.
    pub fn demand(&mut self, case: &Case, holds: Demand) {
        if !self.wanted() {
            return;
        }
        match holds(self.subject, case) {
            Ok(count) => self.cases += count,
            Err(_) => {
                self.cases += 1;
                self.fail(case, Wrong::Demand(holds));
            }
        }
    }

    /// Counts a failure, and keeps the smallest one of each call.
    fn fail(&mut self, case: &Case, wrong: Wrong) {
        if !self.wanted() {
            return;
        }
        self.failed += 1;
        if self.plan.reduced {
            return;
        }
        let turn = self.turn;
        match self.failures.get_mut(&case.call) {
            None => {
                println!("FAILED group {}, call {:?}, turn {turn}: shown when the group ends", self.group, case.call);
                self.failures.insert(case.call, Failure { count: 1, case: case.clone(), wrong, turn });
            }
            Some(failure) => {
                failure.count += 1;
                if case.size() < failure.case.size() {
                    *failure = Failure { count: failure.count, case: case.clone(), wrong, turn };
                }
            }
        }
    }

    /// Shows the smallest failing case of each call, made smaller still, and the command that replays it.
    pub fn show_failures(&self) {
        for (call, failure) in &self.failures {
            let fails = |case: &Case| failure.wrong.with(case, self.subject).is_some();
            let (small, command) = match failure.wrong {
                Wrong::Found(_) => {
                    let turn = replay::turn_text(self.group, self.plan.seed, failure.turn);
                    (failure.case.clone(), replay::command(&turn, self.plan.fault))
                }
                _ => {
                    let rooms = matches!(failure.wrong, Wrong::Compared);
                    let small = shrink(&failure.case, rooms, &fails);
                    let command = replay::command(&replay::text(&small), self.plan.fault);
                    (small, command)
                }
            };
            println!(
                "FAILED group {}, call {call:?}, {} cases; the smallest, of turn {}:",
                self.group, failure.count, failure.turn
            );
            println!("  case    {small}");
            println!("  wrong   {}", failure.wrong.with(&small, self.subject).unwrap_or_default());
            println!("  subject {}", small.run(self.subject));
            println!("  second  {}", small.run(&Second::TRUE));
            println!("  again   {command}");
        }
    }

    /// The group's line of the report.
    pub fn line(&self, seconds: f64) -> String {
        let mut line = format!("{:<9} {:>9} cases {:>4} failed {seconds:>7.1} s", self.group, self.cases, self.failed);
        for note in &self.notes {
            line += &format!("; {note}");
        }
        line
    }
}
