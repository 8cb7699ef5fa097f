//! Every step's words on each lane, the same from the left, and the choice of a free node.

mod common;

use common::calls::begin;
use common::free::{first, free};
use common::paths::Needed;
use common::random::Random;
use common::tables::{mirrored, shaped, sizes, started, started_lanes, LANE};
use reference::table::{
    header, node, record, Sizes, ADD, LEFT, LN, LX, LY, NONE, POP, PUSH, REMOVE, RIGHT, RN, RX, RY,
};
use reference::{run, tick, Answer};

/// A word by its name, seen by a task of the right side.
#[derive(Clone, Copy)]
enum Word {
    Hat,
    L(u32),
    R(u32),
    V(u32),
    Digit(u32),
    A,
    B,
    C,
    D,
    Value,
    ValueDigit,
    Counted,
}
use Word::*;

/// Where the tick leads: a step, or an answer that leaves the record fresh.
enum Next {
    To(u32),
    Done(Answer),
}
use Next::*;

type Words = &'static [(Word, u32)];

/// Operation, argument, step, words set before, words changed, and the end.
type Row = (u32, u64, u32, Words, Words, Next);

#[rustfmt::skip]
const ROWS: &[Row] = &[
    (PUSH, 51, 2, &[], &[(A, 1)], To(3)),
    (PUSH, 51, 2, &[(Hat, 3), (A, 1)], &[(A, 3)], To(3)),
    (PUSH, 51, 3, &[(A, 1)], &[(B, 2)], To(5)),
    (PUSH, 51, 3, &[(A, 3), (B, 2)], &[(B, NONE)], To(8)),
    (PUSH, 51, 5, &[(A, 1), (B, 2)], &[(Hat, 2), (V(1), 51)], Done(Answer::Pushed)),
    // The link is not read again: the hat goes to B wherever that is.
    (PUSH, 51, 5, &[(A, 1), (B, 5)], &[(Hat, 5), (V(1), 51)], Done(Answer::Pushed)),
    // The digit is written with V.
    (PUSH, 1_000_000_051, 5, &[(A, 1), (B, 2)], &[(Hat, 2), (V(1), 51), (Digit(1), 1)], Done(Answer::Pushed)),
    (PUSH, 9_000_000_000, 5, &[(A, 1), (B, 2)], &[(Hat, 2), (V(1), 0), (Digit(1), 9)], Done(Answer::Pushed)),
    (PUSH, 51, 5, &[(A, 2), (B, 3)], &[], To(8)),
    (PUSH, 51, 5, &[(A, 1), (B, 2), (V(1), RX)], &[], To(8)),
    (PUSH, 51, 5, &[(A, 1), (B, 2), (V(1), 7), (Digit(1), 7)], &[], To(8)),
    (PUSH, 51, 8, &[(A, 3)], &[], To(28)),
    (PUSH, 51, 8, &[(A, 1)], &[], To(67)),
    (PUSH, 51, 8, &[(A, 1), (V(1), RY)], &[], To(67)),
    (PUSH, 51, 67, &[(Hat, 2), (A, 1)], &[(A, 2)], To(68)),
    (PUSH, 51, 68, &[(A, 1), (V(1), RY)], &[], To(69)),
    (PUSH, 51, 68, &[(A, 1)], &[], To(2)),
    (PUSH, 51, 68, &[(A, 1), (D, 4)], &[], To(15)),
    (ADD, 2, 68, &[(A, 1), (D, 4)], &[], To(15)),
    (ADD, 2, 68, &[(A, 1)], &[], To(15)),
    (PUSH, 51, 69, &[(A, 1)], &[(B, 0)], To(70)),
    (PUSH, 51, 69, &[(A, 0), (B, 2)], &[(B, NONE)], To(70)),
    (PUSH, 51, 70, &[(B, 0)], &[(C, 1)], To(72)),
    (PUSH, 51, 70, &[(B, 3), (C, 2)], &[(C, NONE)], To(2)),
    (PUSH, 51, 70, &[(B, 3), (D, 4)], &[], To(15)),
    (PUSH, 51, 72, &[(A, 1), (C, 3)], &[(Hat, 3)], To(2)),
    (PUSH, 51, 72, &[(A, 1), (C, 3), (D, 5)], &[(Hat, 3)], To(15)),
    (ADD, 2, 72, &[(A, 1), (C, 3)], &[(Hat, 3)], To(15)),
    (PUSH, 51, 72, &[(A, 2), (C, 3)], &[], To(2)),
    (PUSH, 51, 72, &[(C, 3)], &[], To(2)),
    (PUSH, 51, 28, &[(L(4), 2), (R(4), 3), (V(4), 77), (Digit(4), 7), (Counted, 2)], &[(L(4), NONE), (R(4), NONE), (V(4), RX), (Digit(4), 0), (D, 4), (Counted, 0)], To(31)),
    (ADD, 2, 28, &[], &[(V(4), RX), (D, 4)], To(31)),
    (ADD, 0, 28, &[], &[(V(4), RX), (D, 4)], To(15)),
    // At 28 the task holds nothing itself.
    (ADD, 0, 28, &[(D, 4)], &[(V(4), RX)], To(15)),
    (PUSH, 51, 28, &[(A, 4), (B, 5)], &[(V(4), RX), (D, 4)], To(31)),
    (PUSH, 51, 28, &[(C, 5), (R(5), 4)], &[(V(4), RX), (D, 4)], To(31)),
    // What the hats lead to is not free.
    (ADD, 0, 28, &[(R(3), 4)], &[(V(5), RX), (D, 5)], To(15)),
    (ADD, 0, 28, &[(R(3), 4), (L(4), 5)], &[], Done(Answer::No)),
    (PUSH, 51, 28, &[(R(3), 4), (R(4), 5)], &[], Done(Answer::Full)),
    (PUSH, 51, 31, &[(D, 4), (V(4), RX), (L(5), 0), (R(5), 1), (V(5), 0), (Digit(5), 9)], &[(V(5), RN), (Digit(5), 0), (L(5), NONE), (R(5), 4), (L(4), 5), (D, 5), (Counted, 1)], To(31)),
    (ADD, 2, 31, &[(D, 4), (V(4), RX), (Counted, 1)], &[(V(5), RN), (R(5), 4), (L(4), 5), (D, 5), (Counted, 2)], To(15)),
    // At 31 D holds its node and what that leads to; C does not hold.
    (ADD, 2, 31, &[(D, 4), (R(4), 5), (Counted, 1)], &[], To(15)),
    (PUSH, 51, 31, &[(D, 4), (L(4), 5)], &[], To(15)),
    (PUSH, 51, 31, &[(D, 4), (C, 5)], &[(V(5), RN), (R(5), 4), (L(4), 5), (D, 5), (Counted, 1)], To(31)),
    (ADD, 0, 15, &[(Hat, 2)], &[(A, 2)], To(17)),
    (ADD, 0, 17, &[(A, 1)], &[(Value, RN)], To(18)),
    (ADD, 0, 17, &[(A, 1), (V(1), RY)], &[(Value, RY)], To(67)),
    (ADD, 0, 17, &[(A, 3)], &[(Value, RX)], To(24)),
    (ADD, 0, 17, &[(A, 0)], &[(Value, LX)], To(15)),
    (ADD, 0, 17, &[(A, 4), (Value, RX)], &[(Value, 0)], To(15)),
    (ADD, 0, 17, &[(A, 1), (V(1), 7)], &[(Value, 7)], To(15)),
    (ADD, 0, 17, &[(A, 1), (V(1), 7), (Digit(1), 8)], &[(Value, 7), (ValueDigit, 8)], To(15)),
    (ADD, 0, 17, &[(A, 1), (V(1), 0), (Digit(1), 8)], &[(Value, 0), (ValueDigit, 8)], To(15)),
    (ADD, 0, 17, &[(A, 1), (Value, 7), (ValueDigit, 8)], &[(Value, RN), (ValueDigit, 0)], To(18)),
    (ADD, 0, 17, &[(A, 1), (V(1), LN)], &[(Value, LN)], To(15)),
    (ADD, 0, 18, &[(A, 1)], &[(A, 2)], To(17)),
    (ADD, 0, 18, &[(A, 3)], &[(A, NONE)], To(15)),
    (ADD, 0, 24, &[(A, 3), (D, 4), (B, 2)], &[(L(4), 3), (B, NONE)], To(25)),
    (ADD, 0, 24, &[(A, 1), (D, 4)], &[(L(4), 1), (B, 2)], To(25)),
    (ADD, 0, 25, &[(A, 3), (D, 4)], &[(R(3), 4), (V(3), RN)], Done(Answer::Yes)),
    (ADD, 0, 25, &[(A, 3)], &[(V(3), RN)], Done(Answer::Yes)),
    (PUSH, 51, 25, &[(A, 3), (D, 4), (C, 2), (Counted, 2), (Value, RX)], &[(R(3), 4), (V(3), RN), (D, NONE), (Counted, 0)], To(2)),
    (PUSH, 51, 25, &[(A, 3), (B, 2), (D, 4), (Counted, 1)], &[], To(15)),
    (ADD, 0, 25, &[(A, 3), (B, 2), (D, 4)], &[], To(15)),
    (ADD, 0, 25, &[(A, 1), (B, 2), (D, 4)], &[], To(15)),
    (ADD, 0, 25, &[(A, 3), (D, 4), (V(3), 7), (Digit(3), 7)], &[], To(15)),
    (POP, 0, 39, &[(Hat, 2)], &[(A, 2)], To(40)),
    (POP, 0, 40, &[(A, 1)], &[(B, 0)], To(42)),
    (POP, 0, 40, &[(A, 0), (B, 2)], &[(B, NONE)], To(39)),
    (POP, 0, 42, &[(B, 0)], &[(Value, LX)], To(48)),
    (POP, 0, 42, &[(B, 0), (V(0), LN)], &[(Value, LN)], To(48)),
    (POP, 0, 42, &[(B, 0), (V(0), 51)], &[(Value, 51)], To(51)),
    (POP, 0, 42, &[(B, 0), (V(0), 51), (Digit(0), 2)], &[(Value, 51), (ValueDigit, 2)], To(51)),
    (POP, 0, 42, &[(B, 0), (V(0), 0), (Digit(0), 2)], &[(Value, 0), (ValueDigit, 2)], To(51)),
    (POP, 0, 42, &[(B, 0), (V(0), LY)], &[(Value, LY)], To(39)),
    (POP, 0, 42, &[(B, 1)], &[(Value, RN)], To(39)),
    (POP, 0, 42, &[(B, 3)], &[(Value, RX)], To(39)),
    (POP, 0, 42, &[(B, 3), (V(3), RY)], &[(Value, RY)], To(39)),
    (POP, 0, 42, &[(B, 4), (Value, 5), (ValueDigit, 2)], &[(Value, 0), (ValueDigit, 0)], To(39)),
    (POP, 0, 48, &[(A, 1), (B, 0), (Value, LX)], &[], Done(Answer::Empty)),
    (POP, 0, 48, &[(A, 2), (B, 0), (Value, LX)], &[], To(39)),
    (POP, 0, 48, &[(A, 1), (B, 0), (Value, LN)], &[], To(39)),
    (POP, 0, 48, &[(A, 1), (B, 0), (V(0), 51), (Digit(0), 2), (Value, LX)], &[], To(39)),
    (POP, 0, 48, &[(B, 0), (Value, LX)], &[], To(39)),
    (POP, 0, 51, &[(A, 1), (B, 0), (V(0), 51), (Value, 51)], &[(Hat, 0), (V(0), RN)], Done(Answer::Bag(51))),
    (POP, 0, 51, &[(A, 1), (B, 0), (V(0), 51), (Digit(0), 2), (Value, 51), (ValueDigit, 2)], &[(Hat, 0), (V(0), RN), (Digit(0), 0)], Done(Answer::Bag(2_000_000_051))),
    (POP, 0, 51, &[(A, 1), (B, 0), (V(0), 0), (Digit(0), 9), (Value, 0), (ValueDigit, 9)], &[(Hat, 0), (V(0), RN), (Digit(0), 0)], Done(Answer::Bag(9_000_000_000))),
    // The digit is compared with V.
    (POP, 0, 51, &[(A, 1), (B, 0), (V(0), 51), (Digit(0), 2), (Value, 51)], &[], To(39)),
    (POP, 0, 51, &[(A, 1), (B, 0), (V(0), 51), (Value, 51), (ValueDigit, 2)], &[], To(39)),
    (POP, 0, 51, &[(A, 1), (B, 0), (V(0), 0), (Digit(0), 9), (Value, 0), (ValueDigit, 8)], &[], To(39)),
    (POP, 0, 51, &[(A, 1), (B, 0), (V(0), 0), (Value, 0), (ValueDigit, 8)], &[], To(39)),
    (POP, 0, 51, &[(A, 2), (B, 0), (V(0), 51), (Value, 51)], &[], To(39)),
    (POP, 0, 51, &[(A, 1), (B, 0), (V(0), 52), (Value, 51)], &[], To(39)),
    (POP, 0, 51, &[(B, 0), (V(0), 51), (Value, 51)], &[], To(39)),
    (REMOVE, 0, 54, &[], &[(A, 1)], To(60)),
    (REMOVE, 2, 54, &[(A, 3)], &[(A, 1)], To(56)),
    (REMOVE, 2, 56, &[(A, 3)], &[], Done(Answer::Yes)),
    (REMOVE, 2, 56, &[(A, 1)], &[], To(58)),
    (REMOVE, 2, 56, &[(A, 1), (V(1), RY)], &[], To(58)),
    (REMOVE, 2, 58, &[(A, 1)], &[(A, 2), (Counted, 1)], To(56)),
    (REMOVE, 2, 58, &[(A, 1), (Counted, 1)], &[(A, 2), (Counted, 2)], To(60)),
    (REMOVE, 2, 58, &[(A, 3), (Counted, 1)], &[], Done(Answer::Yes)),
    (REMOVE, 0, 60, &[(A, 1)], &[(B, 2)], To(62)),
    (REMOVE, 0, 60, &[(A, 3)], &[], Done(Answer::Yes)),
    (REMOVE, 0, 62, &[(A, 1), (B, 2)], &[(V(1), RX), (V(2), RY)], To(64)),
    // Both words are one: the second write stands.
    (REMOVE, 0, 62, &[(A, 1), (B, 1)], &[(V(1), RY)], To(64)),
    (REMOVE, 0, 62, &[(A, 2), (B, 3)], &[], Done(Answer::No)),
    (REMOVE, 0, 62, &[(A, 3), (B, 2)], &[], Done(Answer::No)),
    (REMOVE, 0, 62, &[(A, 1), (B, 2), (V(1), 7), (Digit(1), 7)], &[], Done(Answer::No)),
    (REMOVE, 0, 62, &[(A, 1), (B, 2), (V(2), 7), (Digit(2), 7)], &[], Done(Answer::No)),
    (REMOVE, 0, 64, &[(A, 1), (B, 2)], &[(R(1), NONE)], To(74)),
    (REMOVE, 0, 64, &[(A, 1), (B, 3)], &[], To(74)),
    (REMOVE, 0, 64, &[(A, 3)], &[], To(74)),
    (REMOVE, 0, 74, &[(A, 1), (B, 2)], &[(A, 2), (B, 3)], To(77)),
    (REMOVE, 0, 74, &[(B, 3)], &[(A, 3), (B, NONE)], To(82)),
    (REMOVE, 0, 77, &[(B, 2)], &[(Value, RN)], To(78)),
    (REMOVE, 0, 77, &[(B, 2), (V(2), 51), (Digit(2), 2)], &[(Value, 51), (ValueDigit, 2)], To(78)),
    (REMOVE, 0, 78, &[(B, 2), (Value, RN)], &[(V(2), RY)], To(79)),
    (REMOVE, 0, 78, &[(B, 2), (V(2), 51), (Digit(2), 2), (Value, 51), (ValueDigit, 2)], &[(V(2), RY), (Digit(2), 0)], To(79)),
    (REMOVE, 0, 78, &[(B, 4), (Value, 0)], &[(V(4), RY)], To(79)),
    (REMOVE, 0, 78, &[(B, 2), (Value, RX)], &[], To(77)),
    (REMOVE, 0, 78, &[(B, 2), (V(2), 51), (Digit(2), 2), (Value, 51), (ValueDigit, 3)], &[], To(77)),
    (REMOVE, 0, 78, &[(B, 2), (V(2), 0), (Digit(2), 2), (Value, 0)], &[], To(77)),
    (REMOVE, 0, 78, &[(B, 4), (Value, 0), (ValueDigit, 3)], &[], To(77)),
    (REMOVE, 0, 79, &[(A, 1), (B, 2)], &[(R(1), NONE), (A, 2)], To(81)),
    (REMOVE, 0, 79, &[(A, 1)], &[(R(1), NONE), (A, NONE)], To(81)),
    (REMOVE, 0, 81, &[(A, 1), (Value, RN)], &[(B, 2)], To(77)),
    (REMOVE, 0, 81, &[(A, 1), (Value, RX)], &[(B, 2)], To(82)),
    (REMOVE, 0, 81, &[(A, 3), (B, 1), (Value, RN)], &[(B, NONE)], To(82)),
    (REMOVE, 0, 82, &[(A, 1)], &[(R(1), NONE)], Done(Answer::Yes)),
];

/// Six nodes: a terminator, two nulls and a terminator, and two never used. The hats of one lane are on the first two;
/// of the other two lanes the right hat is where that of no row is before its tick, and no hat leads further.
fn base(lane: u32) -> Vec<u32> {
    let mut table = started(6, 2, 2);
    table[16..16 + 16].copy_from_slice(&[NONE, 1, LX, 0, 0, 2, RN, 0, 1, 3, RN, 0, 2, NONE, RX, 0]);
    table[header::LANES] = 3;
    for other in 0..3 {
        let hats = if other == lane { [0, 1] } else { [2, 0] };
        let at = header::hat(other, LEFT);
        table[at..at + 2].copy_from_slice(&hats);
    }
    table
}

fn set(table: &mut [u32], lane: u32, words: &[(Word, u32)]) {
    let sizes = sizes(table);
    let task = sizes.record(1);
    for &(word, value) in words {
        let at = match word {
            Hat => header::hat(lane, RIGHT),
            L(number) => sizes.node(number) + node::LEFT,
            R(number) => sizes.node(number) + node::RIGHT,
            V(number) => sizes.node(number) + node::VALUE,
            Digit(number) => sizes.node(number) + node::DIGIT,
            A => task + record::A,
            B => task + record::B,
            C => task + record::C,
            D => task + record::D,
            Value => task + record::VALUE,
            ValueDigit => task + record::VALUE_DIGIT,
            Counted => task + record::COUNTED,
        };
        table[at] = value;
    }
}

#[test]
fn every_step_writes_its_words_and_no_other() {
    let rows = ROWS.iter().enumerate();
    for ((row, entry), lane) in rows.flat_map(|row| [0, 1, 2].map(|lane| (row, lane))) {
        let (operation, argument, step, before, after, next) = entry;
        let what = format!("row {row}, step {step}, lane {lane}");
        let mut table = base(lane);
        let task = sizes(&table).record(1);
        begin(&mut table, 1, lane, *operation, RIGHT, *argument).expect("begin");
        table[task + record::STEP] = *step;
        table[header::TICKS] = u32::MAX;
        set(&mut table, lane, before);
        let mut wanted = table.clone();
        set(&mut wanted, lane, after);
        wanted[header::TICKS] = 0;
        let answer = match next {
            To(step) => {
                wanted[task + record::STEP] = *step;
                Answer::Going
            }
            Done(answer) => {
                wanted[task..task + record::WORDS].copy_from_slice(&record::FRESH);
                *answer
            }
        };
        let mut left = mirrored(&table);
        assert_eq!(tick(&mut table, 1, 0), Ok(answer), "{what}");
        assert_eq!(table, wanted, "{what}");
        assert_eq!(tick(&mut left, 1, 0), Ok(answer), "left {what}");
        assert_eq!(left, mirrored(&wanted), "left {what}");
    }
}

#[test]
fn every_step_has_a_row() {
    for operation in [PUSH, POP, ADD, REMOVE] {
        for step in common::tables::steps_of(operation) {
            assert!(ROWS.iter().any(|row| row.2 == step), "step {step}");
        }
    }
}

#[test]
fn both_sides_are_one_machine() {
    let mut random = Random::new(21);
    let mut made = 0;
    for _ in 0..30_000 {
        let mut right = shaped(&mut random);
        let mut left = mirrored(&right);
        for _ in 0..6 {
            let task = random.below(right[header::TASKS]);
            let hint = random.below(right[header::NODES]);
            let found = tick(&mut right, task, hint);
            assert_eq!(tick(&mut left, task, hint), found);
            assert_eq!(left, mirrored(&right));
            made += u32::from(found.is_ok());
        }
    }
    assert!(made > 20_000, "{made}");
}

#[test]
fn the_first_free_node_from_the_hint() {
    let needed = Needed::new();
    let mut random = Random::new(22);
    let mut none = 0;
    for _ in 0..10_000 {
        let mut table = shaped(&mut random);
        // Fewer links, so that nodes are free.
        let sizes = sizes(&table);
        for number in 0..sizes.nodes {
            for link in [node::LEFT, node::RIGHT] {
                if !random.once_in(3) {
                    table[sizes.node(number) + link] = NONE;
                }
            }
        }
        let at = sizes.record(0);
        let words = [ADD, 28, random.below(2), random.below(2), 0, 0, 0, 0];
        table[at..at + record::A].copy_from_slice(&words);
        let free = free(&table, |step, register| needed.holds(step, register));
        for hint in 0..sizes.nodes {
            let wanted = first(&free, hint);
            let mut ticked = table.clone();
            match (tick(&mut ticked, 0, hint), wanted) {
                (Ok(Answer::Going), Some(number)) => {
                    assert_eq!(ticked[at + record::D], number);
                }
                (Ok(Answer::No), None) => none += 1,
                (found, wanted) => panic!("{found:?}, {wanted:?}"),
            }
        }
    }
    assert!(none > 0);
}

/// All nodes but the sentinels hang on one hat of one lane, by one of its node's links. A task of any lane finds none of
/// them free, and every one of them as soon as the link is gone.
#[test]
fn a_node_that_some_lane_leads_to_is_not_free() {
    for lanes in 1..=4 {
        let pairs = (0..lanes).flat_map(|holder| (0..lanes).map(move |lane| (holder, lane)));
        for (holder, lane) in pairs {
            for (side, link) in [
                (LEFT, node::LEFT),
                (LEFT, node::RIGHT),
                (RIGHT, node::LEFT),
                (RIGHT, node::RIGHT),
            ] {
                let first = 2 * lanes;
                let mut table = started_lanes(first + 3, 1, 0, lanes);
                let sizes = sizes(&table);
                for number in first..first + 2 {
                    table[sizes.node(number) + link] = number + 1;
                }
                begin(&mut table, 0, lane, ADD, RIGHT, 0).expect("begin");
                let mut held = table.clone();
                let hat = held[header::hat(holder, side)];
                held[sizes.node(hat) + link] = first;
                for hint in 0..sizes.nodes {
                    assert_eq!(tick(&mut held.clone(), 0, hint), Ok(Answer::No));
                    let mut ticked = table.clone();
                    assert_eq!(tick(&mut ticked, 0, hint), Ok(Answer::Going));
                    let taken = ticked[sizes.record(0) + record::D];
                    assert_eq!(taken, hint.max(first));
                }
            }
        }
    }
}

#[test]
fn the_largest_table_fills_up() {
    let mut table = started(1024, 16, 64);
    let mut added = 0;
    loop {
        begin(&mut table, 15, LANE, ADD, added % 2, 63).expect("begin");
        let mut answers = vec![0; 3 * 4096];
        let (number, made) = run(&mut table, &[[15, 1023]; 4096].concat(), &mut answers);
        // Idle after its answer, the task is refused.
        assert_eq!(number, 10);
        match answers[3 * made as usize - 3] {
            5 => added += 1,
            6 => break,
            other => panic!("{other}"),
        }
    }
    // 15 chains of 64, and one of the 62 nodes left.
    assert_eq!(added, 16);
    let sizes = Sizes::new(1024, 16, 64, 1).expect("sizes in range");
    assert!((0..1024).all(|number| table[sizes.node(number) + node::VALUE] != 0));
    let marks = [LN, LX, RN, RX];
    assert!((0..1024).all(|number| marks.contains(&table[sizes.node(number) + node::VALUE])));
}
