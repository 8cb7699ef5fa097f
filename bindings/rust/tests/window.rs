//! Windows of lost swaps: what is fed by hand and what is ticked and fed at once come to the same.

use lane::{
    window_words, words, Answer, Dispatched, Lane, Lanes, Operation, Refusal, Side, Tag, Window,
};

const TASKS: u32 = 3;
const WIDTH: u32 = 8;

/// Two lanes with calls under way at the same ends, which fight.
fn fighting() -> Lanes<Vec<u32>> {
    let mut lanes =
        Lanes::start(vec![0; words(16, TASKS)], 16, TASKS, 2, 2).expect("the sizes fit");
    for tag in (1..=4).filter_map(Tag::new) {
        let pushed = lanes.call(0, 1, Operation::Push(tag), Side::Right);
        assert_eq!(pushed, Ok(Answer::Pushed));
    }
    begin_idle(&mut lanes, 10);
    lanes
}

/// Gives every idle task a call: a push of a tag of its own, or a pop, all at the right of lane 1.
fn begin_idle(lanes: &mut Lanes<Vec<u32>>, round: u64) {
    for task in 0..TASKS {
        if lanes.step(task) == Ok(0) {
            let tag = Tag::new(10 * round + u64::from(task)).expect("a tag");
            let operation = if (round + u64::from(task)) % 2 == 0 {
                Operation::Push(tag)
            } else {
                Operation::Pop
            };
            assert_eq!(lanes.begin(task, 1, operation, Side::Right), Ok(()));
        }
    }
}

fn window() -> Window<[u32; window_words(WIDTH)]> {
    Window::start([7; window_words(WIDTH)], WIDTH).expect("the width fits")
}

#[test]
fn ticks_fed_by_hand_and_at_once_come_to_the_same() {
    let (mut by_hand, mut at_once) = (window(), window());
    let mut lanes = fighting();
    let mut most = 0;
    for round in 11..400 {
        let mut copy = lanes.clone();
        let (watched, task) = if round % 3 == 0 {
            let before: Vec<_> = (0..TASKS).map(|task| lanes.step(task)).collect();
            let watched = at_once.dispatch(&mut copy, 0);
            let watched = watched.expect("not refused").expect("a busy task");
            let dispatched = lanes.dispatch(0).expect("not refused");
            assert_eq!(dispatched, Dispatched::Ticked(watched.answer));
            let task = lanes.dispatched().expect("a table");
            (watched, (task, before[task as usize]))
        } else {
            let task = round as u32 % TASKS;
            let before = lanes.step(task);
            let watched = at_once.tick(&mut copy, task, 0).expect("not refused");
            assert_eq!(lanes.tick(task, 0), Ok(watched.answer));
            (watched, (task, before))
        };
        let (task, before) = task;
        let steps = [before, lanes.step(task)].map(|step| step.expect("a task"));
        let count = lanes.tick_count().expect("a table");
        assert_eq!(by_hand.feed(count, steps[0], steps[1]), watched.lost);
        assert_eq!(by_hand, at_once);
        assert_eq!(copy, lanes);
        most = most.max(watched.lost.expect("in turn"));
        begin_idle(&mut lanes, round);
    }
    assert!((2..=WIDTH).contains(&most), "{most}");
}

#[test]
fn what_is_refused_is_not_fed() {
    let mut lane = Lane::start([0; words(4, 1)], 4, 1, 0).expect("the sizes fit");
    let mut window = window();
    let fresh = window;
    assert_eq!(window.tick(&mut lane, 0, 0), Err(Refusal::Idle));
    assert_eq!(window.tick(&mut lane, 1, 0), Err(Refusal::Task));
    assert_eq!(window.tick(&mut lane, u32::MAX, 4), Err(Refusal::Task));
    assert_eq!(window.dispatch(&mut lane, 4), Err(Refusal::Hint));
    assert_eq!(window.dispatch(&mut lane, 0), Ok(None));
    for words in [&mut [][..], &mut [0; 3], &mut [u32::MAX; 37], &mut [2; 37]] {
        let mut table = Lanes::over(words);
        assert_eq!(window.tick(&mut table, 3, 0), Err(Refusal::Table));
        assert_eq!(window.dispatch(&mut table, 0), Err(Refusal::Table));
    }
    assert_eq!(window, fresh);
}

#[test]
fn a_tick_that_the_window_refuses_is_made_all_the_same() {
    let mut lane = Lane::start([0; words(4, 1)], 4, 1, 0).expect("the sizes fit");
    lane.begin(0, Operation::Pop, Side::Left).expect("idle");
    let mut window = window();
    assert_eq!(window.tick(&mut lane, 0, 0).map(|w| w.lost), Ok(Ok(0)));
    assert_eq!(lane.tick(0, 0), Ok(Answer::Going));
    let watched = window.tick(&mut lane, 0, 0).expect("busy");
    assert_eq!(watched.lost, Err(Refusal::Count));
    assert_eq!(lane.tick_count(), Ok(3));
    let watched = Window::over([]).tick(&mut lane, 0, 0).expect("busy");
    assert_eq!(watched.lost, Err(Refusal::Window));
    assert_eq!(watched.answer, Answer::Empty);
}

#[test]
fn a_window_is_shown_by_its_header() {
    assert_eq!(
        format!("{:?}", window()),
        "Window { width: 8, fed: 0, last_count: 0 }"
    );
    assert_eq!(format!("{:?}", Window::over([1, 2])), "Window { words: 2 }");
}
