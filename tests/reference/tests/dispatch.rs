//! The dispatcher: whose tick it is, in which order it refuses, and that nothing else touches its word.

mod common;

use common::calls::begin;
use common::random::Random;
use common::tables::{shaped, sizes, started, LANE};
use common::turns::next_in;
use reference::table::{header, record, POP, PUSH, RIGHT};
use reference::{dispatch, panel, run, start, tick, Answer};

/// A started table with the task last dispatched, and these tasks in a pop.
fn with_pops(tasks: u32, last: u32, busy: &[u32]) -> Vec<u32> {
    let mut table = started(4, tasks, 0);
    table[header::DISPATCHED] = last;
    for &task in busy {
        begin(&mut table, task, LANE, POP, RIGHT, 0).expect("begin");
    }
    table
}

/// A dispatch is a tick of the next busy task, after which the word names it, if it was made.
fn check(table: &mut [u32], hint: u32) -> Result<Option<Answer>, u32> {
    let mut wanted = table.to_vec();
    let answer = match next_in(table) {
        Some(task) => {
            let ticked = tick(&mut wanted, task, hint);
            if ticked.is_ok() {
                wanted[header::DISPATCHED] = task;
            }
            ticked.map(Some)
        }
        None => Ok(None),
    };
    assert_eq!(dispatch(table, hint), answer);
    assert_eq!(table, wanted);
    answer
}

#[test]
fn every_task_last_dispatched_with_every_set_of_busy_tasks() {
    for tasks in 1..=6 {
        for last in 0..tasks {
            for set in 0..1u32 << tasks {
                let busy: Vec<u32> = (0..tasks).filter(|task| set >> task & 1 == 1).collect();
                let mut table = with_pops(tasks, last, &busy);
                let before = table.clone();
                let answer = check(&mut table, 0);
                if busy.is_empty() {
                    assert_eq!(answer, Ok(None));
                    assert_eq!(table, before);
                } else {
                    assert_eq!(answer, Ok(Some(Answer::Going)));
                    assert_eq!(table[header::TICKS], 1);
                }
            }
        }
    }
}

#[test]
fn the_tasks_come_round_in_order() {
    let mut table = with_pops(5, 4, &[4, 1, 3]);
    let mut order = Vec::new();
    while dispatch(&mut table, 0).expect("a hint below S").is_some() {
        order.push(table[header::DISPATCHED]);
    }
    // A pop of an empty deque alone has four ticks.
    assert_eq!(order, [1, 3, 4].repeat(4));
    assert_eq!(table[header::DISPATCHED], 4);
}

#[test]
fn its_own_task_comes_last() {
    let mut table = with_pops(3, 1, &[0, 1]);
    assert_eq!(check(&mut table, 0), Ok(Some(Answer::Going)));
    assert_eq!(table[header::DISPATCHED], 0);
    let mut table = with_pops(3, 1, &[1]);
    for _ in 0..3 {
        assert_eq!(check(&mut table, 0), Ok(Some(Answer::Going)));
        assert_eq!(table[header::DISPATCHED], 1);
    }
    assert_eq!(check(&mut table, 0), Ok(Some(Answer::Empty)));
    assert_eq!(check(&mut table, 0), Ok(None));
}

#[test]
fn a_start_has_the_next_dispatch_look_from_task_0_on() {
    for tasks in 1..=16 {
        let all: Vec<u32> = (0..tasks).collect();
        let mut table = with_pops(tasks, tasks / 2, &all);
        assert_eq!(start(&mut table, 4, tasks, 0, 1), Ok(()));
        assert_eq!(table[header::DISPATCHED], tasks - 1);
        for task in all {
            begin(&mut table, task, LANE, POP, RIGHT, 0).expect("begin");
        }
        assert_eq!(check(&mut table, 0), Ok(Some(Answer::Going)));
        assert_eq!(table[header::DISPATCHED], 0);
    }
}

#[test]
fn refusals_and_idle_in_order() {
    let made = with_pops(2, 0, &[0]);
    let mut refused = made.clone();
    // A step through a register that is none.
    refused[sizes(&made).record(0) + record::STEP] = 40;
    for (good, otherwise) in [
        (with_pops(2, 0, &[]), Ok(None)),
        (made, Ok(Some(Answer::Going))),
        (refused, Err(11)),
    ] {
        for (long, broken) in [(true, true), (true, false), (false, true), (false, false)] {
            for hint in [0, 3, 4, u32::MAX] {
                let mut table = good.clone();
                table[header::ZEROS[0]] = u32::from(broken);
                table.extend(long.then_some(0));
                let before = table.clone();
                let wanted = match (long, broken, hint < 4) {
                    (true, ..) => Err(3),
                    (_, true, _) => Err(4),
                    (.., false) => Err(9),
                    _ => otherwise,
                };
                assert_eq!(dispatch(&mut table, hint), wanted);
                let is_made = matches!(wanted, Ok(Some(_)));
                assert_eq!(table != before, is_made, "{wanted:?}");
            }
        }
    }
}

#[test]
fn a_task_whose_tick_is_refused_keeps_its_turn() {
    let mut table = with_pops(2, 0, &[0, 1]);
    let at = sizes(&table).record(1);
    table[at + record::STEP] = 40;
    for _ in 0..3 {
        assert_eq!(check(&mut table, 0), Err(11));
        assert_eq!(tick(&mut table, 0, 0), Ok(Answer::Going));
    }
    assert_eq!(table[header::DISPATCHED], 0);
}

#[test]
fn a_dispatch_is_the_tick_of_its_task_on_any_table() {
    let mut random = Random::new(21);
    let [mut made, mut idle, mut refused] = [0; 3];
    for _ in 0..20_000 {
        let mut table = shaped(&mut random);
        for _ in 0..random.below(6) {
            let hint = random.below(table[header::NODES]);
            match check(&mut table, hint) {
                Ok(Some(_)) => made += 1,
                Ok(None) => idle += 1,
                Err(number) => {
                    assert_eq!(number, 11);
                    refused += 1;
                }
            }
        }
    }
    assert!(made > 1000 && idle > 1000 && refused > 1000);
}

#[test]
fn no_other_call_but_start_touches_its_word() {
    let mut random = Random::new(22);
    let mut made = [0; 4];
    for _ in 0..20_000 {
        let mut table = shaped(&mut random);
        let last = table[header::DISPATCHED];
        for _ in 0..4 {
            let (task, hint) = (random.below(3), random.below(3));
            let list = [task, hint, random.below(3), hint];
            let call = random.below(4) as usize;
            let is_made = match call {
                0 => {
                    let lane = random.below(table[header::LANES]);
                    let (operation, side) = (PUSH + random.below(4), random.below(2));
                    begin(
                        &mut table,
                        task,
                        lane,
                        operation,
                        side,
                        random.below(3).into(),
                    )
                    .is_ok()
                }
                1 => tick(&mut table, task, hint).is_ok(),
                2 => run(&mut table, &list, &mut [0; 6]).1 > 0,
                _ => panel(&mut table, &list, &mut [0; 6]).1 > 0,
            };
            made[call] += u32::from(is_made);
            assert_eq!(table[header::DISPATCHED], last, "call {call}");
        }
    }
    assert!(made.iter().all(|&count| count > 1000), "{made:?}");
}
