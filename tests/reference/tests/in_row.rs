//! Consecutive ticks and dispatches: the single ones up to the first that does not answer "going", or so many of them.

mod common;

use common::calls::begin;
use common::random::Random;
use common::tables::{shaped, sizes, started, LANE};
use reference::table::{header, record, ADD, POP, PUSH, RIGHT};
use reference::{dispatch, dispatches, tick, ticks, Answer};

/// What came of consecutive calls, by name.
const ENDS: [&str; 5] = [
    "all going",
    "the first is the last",
    "a later one is the last",
    "the first is refused",
    "a later one is refused",
];

/// The single calls that consecutive calls stand for: what the last gives, and its place in `ENDS`.
fn singly<T: PartialEq + Copy>(
    times: u32,
    going: T,
    mut single: impl FnMut() -> Result<T, u32>,
) -> (Result<T, u32>, usize) {
    for place in 0..times {
        let given = single();
        let later = usize::from(place > 0);
        match given {
            Ok(answer) if answer == going => {}
            Ok(_) => return (given, 1 + later),
            Err(_) => return (given, 3 + later),
        }
    }
    (Ok(going), 0)
}

/// Consecutive ticks give what the last single one does, and leave the table of all of them.
fn check_ticks(
    table: &mut [u32],
    task: u32,
    hint: u32,
    times: u32,
) -> (Result<Answer, u32>, usize) {
    let mut copy = table.to_vec();
    let wanted = singly(times, Answer::Going, || tick(&mut copy, task, hint));
    assert_eq!(ticks(table, task, hint, times), wanted.0);
    assert_eq!(table, copy);
    wanted
}

/// The same of dispatches.
fn check_dispatches(
    table: &mut [u32],
    hint: u32,
    times: u32,
) -> (Result<Option<Answer>, u32>, usize) {
    let mut copy = table.to_vec();
    let wanted = singly(times, Some(Answer::Going), || dispatch(&mut copy, hint));
    assert_eq!(dispatches(table, hint, times), wanted.0);
    assert_eq!(table, copy);
    wanted
}

/// A table of three tasks, two of them in the middle of a call.
fn with_calls() -> Vec<u32> {
    let mut table = started(8, 3, 0);
    begin(&mut table, 0, LANE, PUSH, RIGHT, 51).expect("begin");
    begin(&mut table, 2, LANE, POP, RIGHT, 0).expect("begin");
    table
}

#[test]
fn a_push_is_ticked_to_its_answer_and_no_further() {
    // A push alone on an empty deque with one spare node at each end has eleven ticks.
    for (times, answer, made) in [
        (0, Answer::Going, 0),
        (1, Answer::Going, 1),
        (10, Answer::Going, 10),
        (11, Answer::Pushed, 11),
        (12, Answer::Pushed, 11),
        (u32::MAX, Answer::Pushed, 11),
    ] {
        let mut table = with_calls();
        assert_eq!(check_ticks(&mut table, 0, 5, times).0, Ok(answer));
        assert_eq!(table[header::TICKS], made, "{times} ticks");
    }
}

#[test]
fn dispatches_stop_where_a_call_ends() {
    let mut table = with_calls();
    // Tasks 0 and 2 in turn: the pop's fourth tick is the eighth of all.
    assert_eq!(
        check_dispatches(&mut table, 0, 7).0,
        Ok(Some(Answer::Going))
    );
    let answer = check_dispatches(&mut table, 0, u32::MAX).0;
    assert_eq!(answer, Ok(Some(Answer::Empty)));
    assert_eq!((table[header::TICKS], table[header::DISPATCHED]), (8, 2));
    let answer = check_dispatches(&mut table, 0, u32::MAX).0;
    assert_eq!(answer, Ok(Some(Answer::Pushed)));
    assert_eq!((table[header::TICKS], table[header::DISPATCHED]), (15, 0));
    let before = table.clone();
    assert_eq!(check_dispatches(&mut table, 0, u32::MAX).0, Ok(None));
    assert_eq!(table, before);
}

#[test]
fn none_asked_for_tests_nothing() {
    let mut random = Random::new(41);
    for length in 0..100 {
        let mut words: Vec<u32> = (0..length).map(|_| random.word()).collect();
        let before = words.clone();
        let (task, hint) = (random.word(), random.word());
        assert_eq!(ticks(&mut words, task, hint, 0), Ok(Answer::Going));
        assert_eq!(dispatches(&mut words, hint, 0), Ok(Some(Answer::Going)));
        assert_eq!(words, before);
    }
}

#[test]
fn the_first_is_refused_as_a_single_one() {
    let mut broken = with_calls();
    broken[header::ZEROS[1]] = 1;
    let mut long = broken.clone();
    long.push(0);
    for (table, task, hint, wanted) in [
        (long, 3, 8, Err(3)),
        (broken, 3, 8, Err(4)),
        (with_calls(), 3, 8, Err(5)),
        (with_calls(), 1, 8, Err(9)),
        (with_calls(), 1, 7, Err(10)),
    ] {
        for times in [1, 2, u32::MAX] {
            let mut copy = table.clone();
            assert_eq!(check_ticks(&mut copy, task, hint, times).0, wanted);
            assert_eq!(copy, table);
        }
    }
    for times in [1, 2, u32::MAX] {
        let mut table = with_calls();
        assert_eq!(check_dispatches(&mut table, 8, times).0, Err(9));
        assert_eq!(table, with_calls());
    }
}

#[test]
fn a_later_refusal_keeps_the_ticks_before_it() {
    let mut table = started(8, 1, 0);
    begin(&mut table, 0, LANE, ADD, RIGHT, 0).expect("begin");
    // With no node to go through at 24, two ticks from 15 on.
    let at = sizes(&table).record(0);
    table[at + record::STEP] = 15;
    let mut other = table.clone();
    assert_eq!(check_ticks(&mut table, 0, 0, 9).0, Err(11));
    assert_eq!(check_dispatches(&mut other, 0, 9).0, Err(11));
    assert_eq!(table[header::TICKS], 2);
    assert_eq!(table, other);
}

#[test]
fn they_are_single_ones_on_any_table() {
    let mut random = Random::new(42);
    let mut ends = [[0; ENDS.len()]; 2];
    for _ in 0..15_000 {
        let mut table = shaped(&mut random);
        if random.once_in(20) {
            let at = random.below(table.len() as u32) as usize;
            table[at] = random.word();
        }
        for _ in 0..3 {
            let (task, hint) = (random.below(4), random.below(4));
            let times = random.pick(&[1, 2, 3, 8, 40]);
            let (_, end) = check_ticks(&mut table, task, hint, times);
            ends[0][end] += 1;
            let times = random.pick(&[1, 2, 3, 8, 40]);
            let (_, end) = check_dispatches(&mut table, hint, times);
            ends[1][end] += 1;
        }
    }
    for (calls, ends) in ["ticks", "dispatches"].iter().zip(ends) {
        for (name, count) in ENDS.iter().zip(ends) {
            assert!(count > 100, "{calls}, {name}: {count}");
        }
    }
}
