//! A digit put in each of its places in a well-shaped table: whether the shape then holds, there and in a snapshot.

use reference::table::{node, record, IDLE, MAX_DIGIT, MAX_LOW, PUSH};

use crate::both::Both;
use crate::common::columns::by_columns;
use crate::common::random::Random;
use crate::common::tables::{shaped, sizes};
use crate::counts::Counts;
use crate::snapshots;

/// What a digit stands beside.
#[derive(Clone, Copy)]
enum Beside {
    SlotLow,
    SlotZero,
    SlotMark,
    PushLow,
    PushZero,
    Argument,
    ReadLow,
    ReadZero,
    ReadZeroAt51,
    ReadMark,
    Idle,
}
use Beside::*;

/// In the same order: its name, and whether the shape holds with digit 0, with 1 to 9, and with more.
const PLACES: [(&str, [bool; 3]); 11] = [
    ("low part above 0 of a slot", [true, true, false]),
    ("V 0 of a slot", [true, true, false]),
    ("mark of a slot", [true, false, false]),
    ("low part above 0 of a push", [true, true, false]),
    ("V 0 of a push", [false, true, false]),
    ("argument of pop, add, remove", [true, false, false]),
    ("low part above 0 read", [true, true, false]),
    ("V 0 read, not at 51", [true, true, false]),
    ("V 0 read, at 51", [false, true, false]),
    ("mark read", [true, false, false]),
    ("0 of an idle record", [true, false, false]),
];

/// What was seen of them, in the same order.
#[derive(Default)]
pub struct Digits {
    seen: [[u64; 3]; PLACES.len()],
}

/// Puts a digit in one place of a table. A run of no ticks tests the shape alone.
pub fn check(random: &mut Random, counts: &mut Counts) {
    let mut table = shaped(random);
    let (place, beside) = any_place(random, &table);
    let size = random.below(3) as usize;
    table[place] = match size {
        0 => 0,
        1 => 1 + random.below(MAX_DIGIT),
        _ => random.word().max(MAX_DIGIT + 1),
    };
    let (name, holds) = PLACES[beside as usize];
    let mut both = Both::over(&table);
    let (given, ..) = both.run(&[], 0, 0);
    let wanted = if holds[size] { 0 } else { 4 };
    assert_eq!(given, wanted, "digit {} beside {name}", table[place]);
    match wanted {
        0 => assert_eq!(both.put(&by_columns(&table)), Ok(())),
        _ => snapshots::turned_back(&mut both, wanted),
    }
    counts.digits.seen[beside as usize][size] += 1;
    counts.add(&both.given);
}

/// The place of a digit, and what it stands beside.
fn any_place(random: &mut Random, table: &[u32]) -> (usize, Beside) {
    let sizes = sizes(table);
    let node = sizes.node(random.below(sizes.nodes));
    let at = sizes.record(random.below(sizes.tasks));
    let task = &table[at..at + record::WORDS];
    match random.below(3) {
        0 => {
            let place = node + node::DIGIT;
            let beside = match table[node + node::VALUE] {
                0 => SlotZero,
                1..=MAX_LOW => SlotLow,
                _ => SlotMark,
            };
            (place, beside)
        }
        1 => {
            let place = at + record::ARGUMENT_DIGIT;
            let beside = match (task[record::OPERATION], task[record::ARGUMENT]) {
                (IDLE, _) => Idle,
                (PUSH, 0) => PushZero,
                (PUSH, _) => PushLow,
                _ => Argument,
            };
            (place, beside)
        }
        _ => {
            let place = at + record::VALUE_DIGIT;
            let beside = match (task[record::STEP], task[record::VALUE]) {
                _ if task[record::OPERATION] == IDLE => Idle,
                (51, 0) => ReadZeroAt51,
                (_, 0) => ReadZero,
                (_, 1..=MAX_LOW) => ReadLow,
                _ => ReadMark,
            };
            (place, beside)
        }
    }
}

impl Digits {
    /// Prints the counts; gives what was never seen.
    pub fn report(&self) -> Vec<String> {
        println!(
            "\n{:31} {:>11} {:>11} {:>11}",
            "a digit put beside", "0", "1 to 9", "above 9"
        );
        let mut faults = Vec::new();
        for ((name, holds), seen) in PLACES.iter().zip(self.seen) {
            let gives = holds.map(|holds| if holds { "" } else { "4: " });
            let [zero, digit, more] =
                [0, 1, 2].map(|size| format!("{}{}", gives[size], seen[size]));
            println!("{name:31} {zero:>11} {digit:>11} {more:>11}");
            if seen.contains(&0) {
                faults.push(format!("not every digit was put beside: {name}"));
            }
        }
        faults
    }
}
