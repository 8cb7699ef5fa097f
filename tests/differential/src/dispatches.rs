//! Dispatches: which task the table before them shows to be next, what that gives, and any word in the dispatcher's
//! place of the header.

use std::collections::BTreeMap;

use reference::table::header;
use reference::Answer;

use crate::both::Both;
use crate::common::random::Random;
use crate::common::row::Row;
use crate::common::tables::{shaped, sizes};
use crate::common::turns::next_in;
use crate::counts::{Counts, Origin};

/// What a dispatch comes to.
#[derive(Clone, Copy, Debug, PartialEq, Eq)]
enum Gives {
    Ticks,
    Idle,
    Refused(u32),
}
use Gives::*;

/// What is found, what it gives, and whether a table that start and the calls reach shows it.
const FOUND: [(&str, Gives, bool); 9] = [
    ("hint not below S, every task idle", Refused(9), true),
    ("hint not below S, some task busy", Refused(9), true),
    ("every task idle", Idle, true),
    ("next task by number", Ticks, true),
    ("later one, past idle tasks", Ticks, true),
    ("task 0, after T - 1", Ticks, true),
    ("going round past idle tasks", Ticks, true),
    ("its own task again, alone busy", Ticks, true),
    ("a task whose tick is refused", Refused(11), false),
];
const NO_HINT: usize = 0;
const NONE_BUSY: usize = 2;
const NEXT: usize = 3;
const LATER: usize = 4;
const FIRST: usize = 5;
const ROUND: usize = 6;
const OWN: usize = 7;
const NO_NODE: usize = 8;

/// What is put in the dispatcher's word, and whether the shape then holds.
const PUT: [(&str, bool); 4] = [
    ("a task in word 5", true),
    ("T - 1 in word 5", true),
    ("T in word 5", false),
    ("above T in word 5", false),
];

/// What was seen of them.
#[derive(Default)]
pub struct Dispatches {
    /// By origin, then as in `FOUND`.
    found: [[u64; FOUND.len()]; 2],
    /// As in `PUT`.
    put: [u64; PUT.len()],
    /// Those whose task would be another one if the plain ticks before had moved the turn.
    pub unmoved: u64,
    /// Stretches of them alone that a run repeated, and those of them that ended with every task idle.
    pub stretches: u64,
    pub to_idle: u64,
    /// By tasks, the most consecutive dispatches that a busy task waited.
    waits: BTreeMap<u32, u32>,
}

/// Makes a dispatch on a well-shaped table and holds it to the list, and its tick to the list of ticks.
pub fn dispatch(
    counts: &mut Counts,
    origin: Origin,
    both: &mut Both,
    hint: u32,
) -> Result<Option<Answer>, u32> {
    let given = both.dispatch(hint);
    let (before, after) = (both.before(), both.table());
    let last = before[header::DISPATCHED];
    let next = next_in(before);
    let place = match next {
        _ if hint >= before[header::NODES] => NO_HINT + usize::from(next.is_some()),
        None => NONE_BUSY,
        Some(_) if given == Err(11) => NO_NODE,
        Some(task) if task == last => OWN,
        Some(task) if task == last + 1 => NEXT,
        Some(task) if task > last => LATER,
        Some(0) if last + 1 == before[header::TASKS] => FIRST,
        Some(_) => ROUND,
    };
    let (name, gives, _) = FOUND[place];
    let found = match given {
        Ok(Some(_)) => Ticks,
        Ok(None) => Idle,
        Err(number) => Refused(number),
    };
    assert_eq!(found, gives, "dispatch: {name}");
    counts.dispatches.found[origin as usize][place] += 1;
    if let (Some(task), Some(ticked @ (Ok(_) | Err(11)))) = (next, given.transpose()) {
        counts.tick(origin, before, after, task, ticked);
    }
    given
}

/// Puts any word in the dispatcher's place of a well-shaped table.
pub fn check(random: &mut Random, counts: &mut Counts) {
    let mut table = shaped(random);
    let tasks = sizes(&table).tasks;
    let any = random.word();
    let place = random.below(PUT.len() as u32) as usize;
    table[header::DISPATCHED] = match place {
        0 => any % tasks,
        1 => tasks - 1,
        2 => tasks,
        _ => any.max(tasks + 1),
    };
    let (name, holds) = PUT[place];
    let mut both = Both::over(&table);
    let (given, ..) = both.run(&[], 0, 0);
    assert_eq!(given, if holds { 0 } else { 4 }, "{name}");
    if holds {
        let _ = dispatch(counts, Origin::Anywhere, &mut both, 0);
    } else {
        assert_eq!(both.dispatch(0), Err(4), "{name}");
    }
    counts.dispatches.put[place] += 1;
    counts.add(&both.given);
}

impl Dispatches {
    /// How long tasks waited on a table from start so far.
    pub fn waited(&mut self, row: &Row) {
        let longest = self.waits.entry(row.notes.len() as u32).or_default();
        *longest = row.turns.longest.max(*longest);
    }

    /// Prints the counts; gives what was to be seen and was not, or seen and was not to be.
    pub fn report(&self) -> Vec<String> {
        let mut faults = Vec::new();
        println!(
            "\n{:45} {:>11} {:>11}",
            "dispatches", "from start", "any table"
        );
        for (place, (name, gives, reachable)) in FOUND.into_iter().enumerate() {
            let [calls, anywhere] = [0, 1].map(|origin| self.found[origin][place]);
            let name = format!("{name}: {gives:?}");
            println!("{name:45} {calls:>11} {anywhere:>11}");
            if (calls > 0) != reachable || anywhere == 0 {
                faults.push(format!("dispatch, {name}: {calls}, {anywhere}"));
            }
        }
        for ((name, holds), count) in PUT.into_iter().zip(self.put) {
            let gives = if holds { "" } else { "4: " };
            println!("{name:45} {:>11} {:>11}", "", format!("{gives}{count}"));
            if count == 0 {
                faults.push(format!("never put: {name}"));
            }
        }
        for (name, count) in [
            ("turns that plain ticks did not move", self.unmoved),
            ("stretches of dispatches, as runs", self.stretches),
            ("of them until every task was idle", self.to_idle),
        ] {
            println!("{name:45} {count:>11}");
            if count == 0 {
                faults.push(format!("dispatches, none: {name}"));
            }
        }
        println!(
            "most dispatches that a busy task waited, of T - 1: {:?}",
            self.waits
        );
        for (&tasks, &longest) in &self.waits {
            if longest + 1 != tasks {
                faults.push(format!(
                    "of {tasks} tasks, {longest} dispatches waited at most"
                ));
            }
        }
        faults
    }
}
