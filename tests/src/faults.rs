//! The wrong variants of the second program as subjects: each must be caught.

use second::{Fault, Second};

use crate::run::{Plan, Run};
use crate::Group;

/// Runs the groups on each wrong variant. Gives how many were caught and how many were not.
pub fn run(groups: &[&Group], seed: u64) -> (u64, u64) {
    let (mut caught, mut missed) = (0, 0);
    for fault in Fault::ALL {
        let catchers = catchers(groups, fault, seed);
        match catchers.is_empty() {
            true => {
                missed += 1;
                println!("{fault:?}: NOT CAUGHT");
            }
            false => {
                caught += 1;
                println!("{fault:?}: caught by {}", catchers.join(" "));
            }
        }
    }
    (caught, missed)
}

/// The groups that catch a fault. Heavy groups are asked only if no other one does.
fn catchers(groups: &[&Group], fault: Fault, seed: u64) -> Vec<&'static str> {
    let subject = Second { fault };
    let catches = |group: &&&Group| {
        let mut run = Run::new(&subject, group.name, Plan { reduced: true, ..Plan::whole(seed) });
        (group.run)(&mut run);
        run.failed > 0
    };
    let names = |heavy: bool| -> Vec<&'static str> {
        groups.iter().filter(|group| group.heavy == heavy).filter(catches).map(|group| group.name).collect()
    };
    let light = names(false);
    if light.is_empty() {
        names(true)
    } else {
        light
    }
}
