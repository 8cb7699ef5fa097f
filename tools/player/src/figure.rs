//! The 33 lines of the figure in words: what each does, what it looks at, and which registers hold their slots there.
//!
//! This is data for the page. The machine is the library; the tests hold the looks and the registers to what it does.

use crate::places::{self, Record, Register};
use Register::{A, B, C, D};

/// A line of the figure.
pub struct Line {
    /// Its number, the step of a task that stands there.
    pub step: u32,
    /// The registers that hold their slots against reuse while a task stands there.
    pub holds: &'static [Register],
    /// The words that its tick looks at, in order.
    pub looks: &'static [Look],
    /// What its tick does. `{N}`, `{X}` and `{Y}` are the marks of the task's side, `{n}` and `{x}` their mirrors,
    /// `{out}` the link toward the task's end, `{in}` the other one.
    pub words: &'static str,
}

/// A word that a tick looks at, and what it is compared with.
#[derive(Clone, Copy)]
pub struct Look(Place, Wanted);

#[derive(Clone, Copy)]
enum Place {
    Hat,
    Out(Register),
    In(Register),
    Value(Register),
}

#[derive(Clone, Copy)]
enum Wanted {
    /// It is read, and compared with nothing.
    Anything,
    Slot(Register),
    ValueRead,
    /// The mark N, X or Y of the task's side.
    Mark(u32),
}

/// The marks as the right side numbers them; those of the left side are three lower.
const N: Wanted = Wanted::Mark(1_000_000_004);
const X: Wanted = Wanted::Mark(1_000_000_005);
const Y: Wanted = Wanted::Mark(1_000_000_006);

const fn read(place: Place) -> Look {
    Look(place, Wanted::Anything)
}

const fn is(place: Place, wanted: Wanted) -> Look {
    Look(place, wanted)
}

const fn line(
    step: u32,
    holds: &'static [Register],
    looks: &'static [Look],
    words: &'static str,
) -> Line {
    Line {
        step,
        holds,
        looks,
        words,
    }
}

use Place::{Hat, In, Out, Value};
use Wanted::{Slot, ValueRead};

/// The lines, as they stand in the paper.
pub static LINES: [Line; 33] = [
    line(2, &[D], &[read(Hat)], "Reads its hat into A."),
    line(
        3,
        &[A, D],
        &[read(Out(A))],
        "Reads A's {out} into B. Is it none, no spare slot is left beside the last: goes to 8. Else goes to 5.",
    ),
    line(
        5,
        &[A, B, D],
        &[is(Hat, Slot(A)), is(Value(A), N)],
        "Swaps both or neither: the hat from A to B, and A's value from {N} to the tag. Done: answers “pushed”. \
         Lost: goes to 8.",
    ),
    line(
        8,
        &[A, D],
        &[is(Value(A), X)],
        "Looks whether A is the last slot, {X}. So: goes to 28, to add slots. Else: to 67, to look for a spur.",
    ),
    line(67, &[D], &[read(Hat)], "Reads its hat into A, to see whether it stands on a spur."),
    line(
        68,
        &[A, D],
        &[is(Value(A), Y)],
        "Looks whether A was cut off, {Y}: then the hat stands on a spur, goes to 69. Else goes back, to 2, or \
         with a chain to 15.",
    ),
    line(69, &[A, D], &[read(In(A))], "Reads A's {in} into B: where the spur leads back to."),
    line(
        70,
        &[A, B, D],
        &[read(Out(B))],
        "Reads B's {out} into C: where the hat belongs. Is it none, goes back, to 2, or with a chain to 15. Else \
         goes to 72.",
    ),
    line(
        72,
        &[A, C, D],
        &[is(Hat, Slot(A))],
        "Swaps the hat from A to C: off the spur, into the lane. Done or lost: goes back, to 2, or with a chain \
         to 15.",
    ),
    line(
        28,
        &[],
        &[],
        "Takes a free slot as the end of a new chain: no links, value {X}; D is that slot. None free: a push \
         answers “full”, an add “no”.",
    ),
    line(
        31,
        &[D],
        &[],
        "Takes one more free slot and puts it before D, with value {N}; D is then that slot. Goes to 15 when there \
         are enough, or none is free.",
    ),
    line(15, &[D], &[read(Hat)], "Reads its hat into A, to walk from there to the end of the lane."),
    line(
        17,
        &[A, D],
        &[read(Value(A))],
        "Reads A's value. {N}: goes to 18, one further. {Y}: to 67, a spur. {X}: to 24, the end. Else back to 15.",
    ),
    line(
        18,
        &[A, D],
        &[read(Out(A))],
        "Goes one slot further: A is A's {out}. Is it none, goes back to 15. Else to 17.",
    ),
    line(
        24,
        &[A, D],
        &[read(Out(A))],
        "Lets the chain lead to the end of the lane: D's {in} is A. Reads A's {out} into B.",
    ),
    line(
        25,
        &[A, B, D],
        &[is(Out(A), Slot(B)), is(Value(A), X)],
        "Swaps both or neither: A's {out} from B to D, and A's value from {X} to {N}, which puts the chain into \
         the lane. Done: an add answers “yes”, a push goes to 2. Lost: goes back to 15.",
    ),
    line(39, &[], &[read(Hat)], "Reads its hat into A."),
    line(
        40,
        &[A],
        &[read(In(A))],
        "Reads A's {in} into B: the slot next to the hat. Is it none, goes back to 39. Else to 42.",
    ),
    line(
        42,
        &[A, B],
        &[read(Value(B))],
        "Reads B's value. A bag: goes to 51. {n} or {x}, the other end: to 48. Else back to 39.",
    ),
    line(
        48,
        &[A, B],
        &[is(Hat, Slot(A)), is(Value(B), ValueRead)],
        "Compares both at once: the hat is still A, and B's value is still the one read. So: answers “empty”. \
         Lost: goes back to 39.",
    ),
    line(
        51,
        &[A, B],
        &[is(Hat, Slot(A)), is(Value(B), ValueRead)],
        "Swaps both or neither: the hat from A to B, and B's value from the bag to {N}. Done: answers the bag. \
         Lost: goes back to 39.",
    ),
    line(54, &[], &[read(Hat)], "Reads its hat into A. With the goal 0 it goes to 60, else to 56."),
    line(
        56,
        &[A],
        &[is(Value(A), X)],
        "Looks whether A is the last slot, {X}. So: answers “yes”. Else goes to 58.",
    ),
    line(
        58,
        &[A],
        &[read(Out(A))],
        "Goes one slot further: A is A's {out}, and it is counted. Is it none, answers “yes”. When there are enough \
         goes to 60, else to 56.",
    ),
    line(
        60,
        &[A],
        &[read(Out(A))],
        "Reads A's {out} into B. Is it none, answers “yes”. Else goes to 62.",
    ),
    line(
        62,
        &[A, B],
        &[is(Value(A), N), is(Value(B), N)],
        "Swaps both or neither: A's value from {N} to {X}, and B's from {N} to {Y}. A is the last slot then, and B \
         is cut off. Lost: answers “no”.",
    ),
    line(
        64,
        &[A, B],
        &[is(Out(A), Slot(B))],
        "Swaps A's {out} from B to none. Done or lost: goes to 74.",
    ),
    line(
        74,
        &[B],
        &[read(Out(B))],
        "Goes on to what was cut off: A is B, and B is its {out}. Is it none, goes to 82. Else to 77.",
    ),
    line(77, &[A, B], &[read(Value(B))], "Reads B's value."),
    line(
        78,
        &[A, B],
        &[is(Value(B), ValueRead)],
        "Swaps B's value from the one read to {Y}. Done: goes to 79. Lost: back to 77.",
    ),
    line(79, &[A, B], &[], "Cuts A's {out}: it is none. A is then B."),
    line(
        81,
        &[A],
        &[read(Out(A))],
        "Reads A's {out} into B. Is it none, or was the value read {X}, goes to 82. Else to 77.",
    ),
    line(82, &[A], &[], "Cuts A's {out}: it is none. Answers “yes”."),
];

/// The line of a step.
pub fn line_at(step: u32) -> Option<&'static Line> {
    LINES.iter().find(|line| line.step == step)
}

impl Line {
    /// What its tick does, on a side.
    pub fn said(&self, side: u32) -> String {
        let [out, inward, own, other] = match side {
            0 => ["L", "R", "L", "R"],
            _ => ["R", "L", "R", "L"],
        };
        self.words
            .replace("{out}", out)
            .replace("{in}", inward)
            .replace("{N}", &format!("{own}N"))
            .replace("{X}", &format!("{own}X"))
            .replace("{Y}", &format!("{own}Y"))
            .replace("{n}", &format!("{other}N"))
            .replace("{x}", &format!("{other}X"))
    }
}

/// A word that was looked at: its place; and what it was compared with, for a value two words.
pub struct Looked {
    /// The place in the table.
    pub place: usize,
    /// The words wanted there; none where it was only read.
    pub wanted: Vec<u32>,
}

/// What the next tick of a task looks at in the table.
pub fn looked(table: &[u32], task: u32) -> Vec<Looked> {
    let record = Record::of(table, task);
    let side = record.side();
    let looks = line_at(record.step()).map_or(&[][..], |line| line.looks);
    looks
        .iter()
        .map(|&Look(place, wanted)| {
            let place = match place {
                Hat => places::hat(record.lane(), side),
                Out(register) => places::link(record.register(register), side),
                In(register) => places::link(record.register(register), 1 - side),
                Value(register) => places::value(record.register(register)),
            };
            let wanted = match wanted {
                Wanted::Anything => vec![],
                Slot(register) => vec![record.register(register)],
                ValueRead => record.value_read().to_vec(),
                Wanted::Mark(right) => vec![right - 3 * (1 - side), 0],
            };
            Looked { place, wanted }
        })
        .collect()
}
