//! No single call is promised an answer: a pop that is ticked for ever may starve while calls of another task answer.

mod common;

use common::calls::{begin, call, to_answer};
use common::tables::{started, LANE};
use reference::table::{LEFT, POP, PUSH, RIGHT};
use reference::{tick, Answer};

/// In each the pop gets four ticks.
const ROUNDS: usize = 25_000;

/// Task 0 pops at one end, task 1 pushes a bag and pops it, again and again, at an end of its own.
fn starve(end: u32, other: u32) {
    let mut table = started(4, 2, 0);
    begin(&mut table, 0, LANE, POP, end, 0).expect("begin");
    for round in 0..ROUNDS {
        for _ in 0..3 {
            assert_eq!(tick(&mut table, 0, 0), Ok(Answer::Going));
        }
        // The pop has read the hat and the value beside it; one of the two changes, and its compare fails.
        let (between, answer) = [
            ((LANE, PUSH, other, 51), Answer::Pushed),
            ((LANE, POP, other, 0), Answer::Bag(51)),
        ][round % 2];
        assert_eq!(call(&mut table, 1, between), answer);
        assert_eq!(tick(&mut table, 0, 0), Ok(Answer::Going), "round {round}");
    }
    assert_eq!(to_answer(&mut table, 0), Answer::Empty);
}

#[test]
fn a_pop_starves_by_calls_at_its_end() {
    starve(RIGHT, RIGHT);
    starve(LEFT, LEFT);
}

#[test]
fn a_pop_starves_by_calls_at_the_other_end() {
    starve(RIGHT, LEFT);
    starve(LEFT, RIGHT);
}
