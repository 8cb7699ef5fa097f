//! Request 2026-06: a register holds its node exactly while some path of steps may use it; what of "full" that cures,
//! and what it does not.

mod common;

use common::calls::{begin, call, to_answer, Call};
use common::free::{first, free};
use common::paths::{Needed, STEPS};
use common::tables::{sizes, started, steps_of, LANE};
use reference::table::{node, record, ADD, LEFT, LX, POP, PUSH, REMOVE, RIGHT, RX};
use reference::{read, tick, Answer};
use Answer::{Bag, Empty, Full, Going, No, Pushed, Yes};

const ADD_RIGHT: Option<Call> = Some((LANE, ADD, RIGHT, 0));
const ADD_RIGHT_TWO: Option<Call> = Some((LANE, ADD, RIGHT, 1));
const ADD_LEFT_TWO: Option<Call> = Some((LANE, ADD, LEFT, 1));
const REMOVE_RIGHT: Option<Call> = Some((LANE, REMOVE, RIGHT, 0));
const PUSH_RIGHT: Option<Call> = Some((LANE, PUSH, RIGHT, 51));
const PUSH_LEFT: Option<Call> = Some((LANE, PUSH, LEFT, 52));

/// A task begins a call, or goes on with its own; it gets so many ticks, and the last of them gives this.
type Part = (u32, Option<Call>, u32, Answer);

/// Slots, growth, and parts after which task 1 pushes and is to take a node. Its B names one that was cut off.
const CURED: [(u32, u32, &[Part]); 4] = [
    (
        4,
        0,
        &[
            (0, ADD_RIGHT, 5, Yes),
            (0, ADD_RIGHT, 7, Yes),
            (0, REMOVE_RIGHT, 3, Going),
            (1, PUSH_RIGHT, 2, Going),
            (0, None, 7, Yes),
            (0, ADD_RIGHT, 1, Going),
            (1, None, 2, Going),
        ],
    ),
    // All others are idle.
    (
        4,
        0,
        &[
            (1, ADD_RIGHT_TWO, 6, Yes),
            (1, PUSH_RIGHT, 2, Going),
            (0, REMOVE_RIGHT, 10, Yes),
            (1, None, 2, Going),
            (0, ADD_RIGHT, 5, Yes),
        ],
    ),
    (
        4,
        1,
        &[
            (1, PUSH_RIGHT, 11, Going),
            (0, REMOVE_RIGHT, 10, Yes),
            (0, PUSH_LEFT, 4, Going),
            (1, None, 2, Going),
        ],
    ),
    (
        5,
        0,
        &[
            (1, ADD_RIGHT_TWO, 6, Yes),
            (1, PUSH_RIGHT, 2, Going),
            (0, REMOVE_RIGHT, 10, Yes),
            (0, ADD_LEFT_TWO, 2, Going),
            (1, None, 2, Going),
        ],
    ),
];

/// The free nodes by the rule before the request, with all four registers, and by the one since.
fn by_both_rules(table: &[u32], needed: &Needed) -> [Vec<u32>; 2] {
    [
        free(table, |_, _| true),
        free(table, |step, register| needed.holds(step, register)),
    ]
}

fn step(table: &[u32], task: u32) -> u32 {
    table[sizes(table).record(task) + record::STEP]
}

/// Ticks of a part; by both rules they take the same nodes, so that they are the same ticks.
fn play(table: &mut [u32], needed: &Needed, (task, call, ticks, answer): Part) {
    if let Some((lane, operation, side, argument)) = call {
        begin(table, task, lane, operation, side, argument).expect("begin");
    }
    for number in 1..=ticks {
        if matches!(step(table, task), 28 | 31) {
            let [old, new] = by_both_rules(table, needed).map(|free| first(&free, 0));
            assert_eq!(old, new, "taken at step {}", step(table, task));
        }
        let wanted = if number < ticks { Going } else { answer };
        assert_eq!(tick(table, task, 0), Ok(wanted), "task {task}");
    }
}

/// A push is to take a node: none is free by the rule before, and now it goes on and is answered "pushed".
fn cured(table: &mut [u32], needed: &Needed, task: u32) {
    assert_eq!(step(table, task), 28);
    let [old, new] = by_both_rules(table, needed);
    assert_eq!(old, [], "by all four registers");
    assert_ne!(new, [], "by the registers in need");
    assert_eq!(to_answer(table, task), Pushed);
}

#[test]
fn full_by_all_four_registers_and_not_now() {
    let needed = Needed::new();
    for (slots, growth, parts) in CURED {
        let mut table = started(slots, 2, growth);
        for &part in parts {
            play(&mut table, &needed, part);
        }
        cured(&mut table, &needed, 1);
    }
}

/// A pop left stalls at 40, its A on the end of the list, while bags go in at the right and out at the left with the
/// slots removed behind them. From each slot that was cut off a link leads to the next, so that A holds them all.
fn bags_pass(slots: u32) -> Vec<u32> {
    let mut table = started(slots, 2, 0);
    begin(&mut table, 1, LANE, POP, LEFT, 0).expect("begin");
    assert_eq!(tick(&mut table, 1, 0), Ok(Going));
    for bag in 1..=slots - 2 {
        let tag = u64::from(bag);
        assert_eq!(call(&mut table, 0, (LANE, PUSH, RIGHT, tag)), Pushed);
        assert_eq!(call(&mut table, 0, (LANE, POP, LEFT, 0)), Bag(tag));
        // One slot too many is left standing, two are cut off.
        let removed = if bag % 2 == 1 { No } else { Yes };
        assert_eq!(call(&mut table, 0, (LANE, REMOVE, LEFT, 0)), removed);
    }
    assert_eq!(step(&table, 1), 40);
    assert_eq!(read(&table, LANE, &mut []), Ok(0));
    table
}

/// Nothing that the other task does makes a node free.
fn full_at_both_ends(table: &mut [u32]) {
    for side in [LEFT, RIGHT] {
        assert_eq!(call(table, 0, (LANE, PUSH, side, 51)), Full);
        assert_eq!(call(table, 0, (LANE, ADD, side, 0)), No);
        assert_eq!(call(table, 0, (LANE, POP, side, 0)), Empty);
        assert_eq!(call(table, 0, (LANE, REMOVE, side, 0)), Yes);
    }
}

#[test]
fn a_stalled_pop_keeps_all_nodes_until_its_answer() {
    for slots in [4, 6, 40] {
        let mut table = bags_pass(slots);
        full_at_both_ends(&mut table);
        full_at_both_ends(&mut table);
        assert_eq!(to_answer(&mut table, 1), Empty);
        for tag in 1..=u64::from(slots - 2) {
            assert_eq!(call(&mut table, 0, (LANE, PUSH, RIGHT, tag)), Pushed);
        }
        assert_eq!(call(&mut table, 0, (LANE, PUSH, RIGHT, 51)), Full);
    }
}

#[test]
fn a_stalled_pop_that_will_read_its_hat_keeps_none() {
    let needed = Needed::new();
    for slots in 4..=6 {
        let mut table = bags_pass(slots);
        play(&mut table, &needed, (1, None, 2, Going));
        assert_eq!(step(&table, 1), 39);
        play(&mut table, &needed, (0, PUSH_RIGHT, 3, Going));
        cured(&mut table, &needed, 0);
    }
}

/// Task 0 at a step, its register on a slot that leads to the only other one outside the list.
fn standing(operation: u32, step: u32, side: u32, register: usize) -> Vec<u32> {
    let mut table = started(4, 2, 1);
    let sizes = sizes(&table);
    let argument = match operation {
        PUSH => 51,
        POP => 0,
        _ => 1,
    };
    begin(&mut table, 0, LANE, operation, side, argument).expect("begin");
    let at = sizes.record(0);
    table[at + record::STEP] = step;
    table[at + record::VALUE] = match (step, side) {
        (48, LEFT) => RX,
        (48, _) => LX,
        _ => 51,
    };
    table[at + register] = 2;
    table[sizes.node(2) + node::RIGHT] = 3;
    table
}

#[test]
fn a_register_holds_exactly_where_a_path_uses_it() {
    let needed = Needed::new();
    for operation in [PUSH, POP, ADD, REMOVE] {
        for step in steps_of(operation) {
            for register in record::A..=record::D {
                for side in [LEFT, RIGHT] {
                    let mut table = standing(operation, step, side, register);
                    begin(&mut table, 1, LANE, ADD, side, 0).expect("begin");
                    let held = needed.holds(step, register);
                    let answer = if held { No } else { Going };
                    let at = (operation, step, side, register);
                    assert_eq!(tick(&mut table, 1, 3), Ok(answer), "{at:?}");
                }
            }
        }
    }
}

#[test]
fn every_step_is_listed_once() {
    let mut listed = STEPS.map(|(step, ..)| step);
    listed.sort_unstable();
    let mut steps: Vec<u32> = [PUSH, POP, ADD, REMOVE].map(steps_of).concat();
    steps.sort_unstable();
    steps.dedup();
    assert_eq!(steps, listed);
}
