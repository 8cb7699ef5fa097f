//! Lent records: what became of a begin over one, over which steps one was copied, and what copies of other kinds gave.

use std::collections::BTreeMap;

use reference::table::{ADD, POP, PUSH, REMOVE};

use crate::common::tables::steps_of;
use crate::counts::NAMES;

/// What was done with a record that was begun, and with others.
const DONE: [&str; 9] = [
    "begun as it stands in the table, and copied: the begin",
    "begun and not copied: nothing",
    "begun fresh, and copied over an idle task",
    "begun fresh, and copied over a task in a call",
    "two begun side by side, and both copied: other tags",
    "two pushes of one tag begun side by side, and both copied",
    "copied late: compared by words",
    "other words copied: the shape is kept",
    "other words copied: the shape is broken",
];
pub const AS_BEGIN: usize = 0;
pub const NOT_COPIED: usize = 1;
pub const OVER_IDLE: usize = 2;
pub const OVER_BUSY: usize = 3;
pub const BOTH: usize = 4;
pub const BOTH_ONE_TAG: usize = 5;
pub const LATE: usize = 6;
pub const OTHER_WORDS: usize = 7;
pub const BROKEN: usize = 8;

/// What was seen of them.
#[derive(Default)]
pub struct Records {
    /// As in `DONE`.
    pub done: [u64; DONE.len()],
    /// By the operation and the step of the call that a copy took away.
    taken_away: BTreeMap<(u32, u32), u64>,
    /// Ticks made after a copy, each of which the rows explain.
    pub explained: u64,
}

impl Records {
    /// A record was copied over a task that stood there.
    pub fn over(&mut self, operation: u32, step: u32) {
        *self.taken_away.entry((operation, step)).or_default() += 1;
    }

    /// Prints them; gives what was never seen.
    pub fn report(&self) -> Vec<String> {
        let mut faults = Vec::new();
        println!("\nlent records, on tables from start");
        for (name, count) in DONE.iter().zip(self.done) {
            println!("{name:60} {count:>11}");
            if count == 0 {
                faults.push(format!("a lent record, never: {name}"));
            }
        }
        println!(
            "{:60} {:>11}",
            "ticks after them, as the rows say", self.explained
        );
        println!("copied over a call at step");
        for operation in [PUSH, POP, ADD, REMOVE] {
            let name = NAMES[operation as usize - 1];
            let steps = steps_of(operation).into_iter().map(|step| {
                let count = self.taken_away.get(&(operation, step));
                if count.is_none() {
                    faults.push(format!("no record was copied over {name} at {step}"));
                }
                format!("{step}: {}", count.unwrap_or(&0))
            });
            println!("{name:7} {}", steps.collect::<Vec<_>>().join(", "));
        }
        faults
    }
}
