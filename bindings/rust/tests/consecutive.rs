//! Consecutive ticks and dispatches by the wrapper: the single ones up to the first that does not say "going", a whole call
//! by them, and every task brought to its answer.

use lane::{max_ticks_alone, words, Answer, Dispatched, Lanes, Operation, Refusal, Side, Tag};

const TASKS: u32 = 3;
const PUSH: Operation = Operation::Push(Tag::MAX);

fn started() -> Lanes<Vec<u32>> {
    Lanes::start(vec![7; words(8, TASKS)], 8, TASKS, 1, 2).expect("the sizes fit")
}

/// A task each in a push and a pop, on different lanes; the third is idle.
fn with_calls() -> Lanes<Vec<u32>> {
    let mut lanes = started();
    for (task, operation) in [(0, PUSH), (1, Operation::Pop)] {
        let begun = lanes.begin(task, task, operation, Side::Right);
        begun.expect("an idle task");
    }
    lanes
}

/// Single calls on a copy, up to the first that does not give `going`, or so many: what the last gives, and the table.
fn singly<T: PartialEq>(
    lanes: &Lanes<Vec<u32>>,
    going: Result<T, Refusal>,
    times: u32,
    single: impl Fn(&mut Lanes<Vec<u32>>) -> Result<T, Refusal>,
) -> (Result<T, Refusal>, Lanes<Vec<u32>>) {
    let mut lanes = lanes.clone();
    for _ in 0..times {
        let given = single(&mut lanes);
        if given != going {
            return (given, lanes);
        }
    }
    (going, lanes)
}

#[test]
fn ticks_in_a_row_are_single_ticks() {
    for task in 0..=TASKS {
        for hint in [0, 5, 8] {
            for times in 0..20 {
                let mut lanes = with_calls();
                let single = |lanes: &mut Lanes<_>| lanes.tick(task, hint);
                let wanted = singly(&lanes, Ok(Answer::Going), times, single);
                let given = lanes.ticks(task, hint, times);
                assert_eq!((given, lanes), wanted, "{times} ticks of task {task}");
            }
        }
    }
}

#[test]
fn dispatches_in_a_row_are_single_dispatches() {
    for hint in [0, 5, 8] {
        for times in 0..20 {
            let mut lanes = with_calls();
            // One after another, to "idle" or the refusal.
            for _ in 0..4 {
                let going = Ok(Dispatched::Ticked(Answer::Going));
                let single = |lanes: &mut Lanes<_>| lanes.dispatch(hint);
                let (given, table) = singly(&lanes, going, times, single);
                assert_eq!(lanes.dispatches(hint, times), given, "{times} dispatches");
                assert_eq!(lanes, table, "{times} dispatches");
            }
        }
    }
}

#[test]
fn none_asked_for_is_going_whatever_the_words() {
    for words in [vec![], vec![7; 37], vec![0; 4320]] {
        let mut lanes = Lanes::over(words.clone());
        assert_eq!(lanes.ticks(0, 0, 1), Err(Refusal::Table));
        assert_eq!(lanes.dispatches(0, 1), Err(Refusal::Table));
        assert_eq!(lanes.ticks(9, 9999, 0), Ok(Answer::Going));
        let going = Dispatched::Ticked(Answer::Going);
        assert_eq!(lanes.dispatches(9999, 0), Ok(going));
        assert_eq!(lanes.into_words(), words);
    }
}

#[test]
fn a_whole_call_is_a_begin_and_its_ticks() {
    let mut lanes = started();
    let mut single = lanes.clone();
    for (operation, side) in [
        (PUSH, Side::Left),
        (Operation::Add(2), Side::Right),
        (Operation::Remove(0), Side::Right),
        (Operation::Pop, Side::Right),
        (Operation::Pop, Side::Right),
    ] {
        let before = lanes.tick_count().expect("a table");
        let answer = lanes.call(2, 1, operation, side).expect("an idle task");
        let ticks = lanes.tick_count().expect("a table") - before;
        single.begin(2, 1, operation, side).expect("an idle task");
        for tick in 1..=ticks {
            let wanted = if tick == ticks { answer } else { Answer::Going };
            assert_eq!(single.tick(2, 0), Ok(wanted));
        }
        assert_eq!(lanes, single);
        assert!(ticks <= max_ticks_alone(8), "{operation:?}: {ticks} ticks");
    }
}

#[test]
fn dispatches_drain_the_table() {
    let mut lanes = with_calls();
    let begun = lanes.begin(2, 0, Operation::Add(1), Side::Left);
    begun.expect("an idle task");
    let mut ended = Vec::new();
    while let Dispatched::Ticked(answer) = lanes.dispatches(0, u32::MAX).expect("a table") {
        ended.push((lanes.dispatched().expect("a table"), answer));
    }
    let wanted = [(1, Answer::Empty), (2, Answer::Yes), (0, Answer::Pushed)];
    assert_eq!(ended, wanted);
    for task in 0..TASKS {
        assert_eq!(lanes.is_busy(task), Ok(false));
    }
    assert!(lanes.bags(0).expect("a lane").eq([Tag::MAX]));
}
