//! Ticks shared out in turn: what a dispatch gives, and which task the accessor names.

use lane::{words, Answer, Dispatched, Lane, Operation, Refusal, Side, Tag};

const GOING: Result<Dispatched, Refusal> = Ok(Dispatched::Ticked(Answer::Going));

/// The word that has the task last dispatched.
const DISPATCHED: usize = 5;

fn started() -> Lane<Vec<u32>> {
    Lane::start(vec![7; words(8, 3)], 8, 3, 0).expect("the sizes fit")
}

/// The next busy task by the accessors, going round; the one last dispatched comes last.
fn next(lane: &Lane<Vec<u32>>) -> Option<u32> {
    let (last, tasks) = (lane.dispatched().unwrap(), lane.tasks().unwrap());
    let mut round = (1..=tasks).map(|places| (last + places) % tasks);
    round.find(|&task| lane.is_busy(task) == Ok(true))
}

#[test]
fn busy_tasks_are_ticked_in_turn_to_their_answers() {
    let mut lane = started();
    let operations = [
        Operation::Push(Tag::MAX),
        Operation::Pop,
        Operation::Remove(0),
    ];
    for (task, operation) in (0..).zip(operations) {
        lane.begin(task, operation, Side::Right).expect("idle");
    }
    let mut ended = Vec::new();
    while let Some(task) = next(&lane) {
        let mut ticked = lane.clone();
        let answer = ticked.tick(task, 5).expect("a busy task");
        assert_eq!(lane.dispatch(5), Ok(Dispatched::Ticked(answer)));
        assert_eq!(lane.dispatched(), Ok(task));
        // The same words but for the task last dispatched, which a plain tick leaves.
        let mut table = ticked.into_words();
        table[DISPATCHED] = task;
        assert_eq!(lane.words(), table);
        if answer != Answer::Going {
            ended.push((task, answer));
        }
    }
    let answers = [(2, Answer::Yes), (1, Answer::Empty), (0, Answer::Pushed)];
    assert_eq!(ended, answers);
    let before = lane.clone();
    assert_eq!(lane.dispatch(0), Ok(Dispatched::Idle));
    assert_eq!(lane, before);
}

#[test]
fn other_ticks_leave_the_turn() {
    let mut lane = started();
    for task in 0..3 {
        lane.begin(task, Operation::Pop, Side::Left).expect("idle");
    }
    assert_eq!(lane.dispatched(), Ok(2));
    assert_eq!(lane.tick(1, 0), Ok(Answer::Going));
    assert_eq!(lane.run(&[[0, 0], [1, 0]], &mut [[0; 3]; 2]).made(), 2);
    assert_eq!(lane.panel(&[[1, 0]], &mut [[0; 3]]).made(), 1);
    assert_eq!(lane.dispatched(), Ok(2));
    assert_eq!(lane.dispatch(0), GOING);
    assert_eq!(lane.dispatched(), Ok(0));
}

#[test]
fn the_hint_is_tested_before_the_choice() {
    let mut lane = started();
    let before = lane.clone();
    assert_eq!(lane.dispatch(8), Err(Refusal::Hint));
    assert_eq!(lane.dispatch(7), Ok(Dispatched::Idle));
    assert_eq!(lane, before);
    lane.begin(1, Operation::Pop, Side::Left).expect("idle");
    let before = lane.clone();
    assert_eq!(lane.dispatch(8), Err(Refusal::Hint));
    assert_eq!(lane, before);
}

#[test]
fn the_word_names_a_task_or_the_shape_is_broken() {
    let mut table = started().into_words();
    for (word, read) in [(0, Ok(0)), (2, Ok(2)), (3, Err(Refusal::Shape))] {
        table[DISPATCHED] = word;
        let mut lane = Lane::over(&mut table[..]);
        assert_eq!(lane.dispatched(), read);
        assert_eq!(lane.dispatch(0), read.map(|_| Dispatched::Idle));
    }
    // As if task 0 had been dispatched last: the next dispatch looks from task 1 on.
    table[DISPATCHED] = 0;
    let mut lane = Lane::over(table);
    for task in 0..3 {
        lane.begin(task, Operation::Pop, Side::Left).expect("idle");
    }
    assert_eq!(lane.dispatch(0), GOING);
    assert_eq!(lane.dispatched(), Ok(1));
}
