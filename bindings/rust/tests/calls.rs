//! The wrapper's calls on a small table with one lane: what they give, and which refusal each wrong number gets.

use lane::{words, Answer, Lane, Operation, Refusal, Side, Tag};

fn tag(number: u64) -> Tag {
    Tag::new(number).expect("a tag")
}

fn push(number: u64) -> Operation {
    Operation::Push(tag(number))
}

fn bag(number: u64) -> Answer {
    Answer::Bag(tag(number))
}

/// What a read with so many places gives.
fn read<W: AsRef<[u32]>>(lane: &Lane<W>, places: usize) -> Result<Vec<Tag>, Refusal> {
    let mut out = vec![[9; 2]; places];
    let tags: Vec<Tag> = lane.read(&mut out)?.collect();
    assert_eq!(out[tags.len()..], vec![[9; 2]; places - tags.len()]);
    Ok(tags)
}

fn small() -> Lane<Vec<u32>> {
    Lane::start(vec![7; words(8, 2)], 8, 2, 0).expect("the sizes fit")
}

/// Ticks until the task answers.
fn finish<W: AsRef<[u32]> + AsMut<[u32]>>(lane: &mut Lane<W>, task: u32) -> Answer {
    loop {
        match lane.tick(task, 0).expect("a busy task") {
            Answer::Going => {}
            answer => return answer,
        }
    }
}

#[test]
fn bags_pushed_at_both_ends_are_read_and_popped_in_order() {
    let mut lane = small();
    // Two have one low part, and that of the third is 0.
    let [one, other, none] = [51, 9_000_000_051, 1_000_000_000];
    for (number, side) in [(one, Side::Right), (other, Side::Right), (none, Side::Left)] {
        assert_eq!(lane.begin(1, push(number), side), Ok(()));
        assert_eq!(finish(&mut lane, 1), Answer::Pushed);
    }
    let tags = [none, one, other].map(tag);
    assert_eq!(read(&lane, 3), Ok(tags.to_vec()));
    assert_eq!(read(&lane, 4), Ok(tags.to_vec()));
    assert_eq!(read(&lane, 2), Err(Refusal::Out));
    assert!(lane.bags().expect("a lane").eq(tags));
    for (side, answer) in [
        (Side::Left, bag(none)),
        (Side::Right, bag(other)),
        (Side::Right, bag(one)),
        (Side::Left, Answer::Empty),
    ] {
        assert_eq!(lane.begin(0, Operation::Pop, side), Ok(()));
        assert_eq!(finish(&mut lane, 0), answer);
    }
}

#[test]
fn adds_and_removes_say_yes_or_no_and_a_push_says_full() {
    let mut lane = small();
    lane.begin(0, Operation::Add(0), Side::Right).expect("idle");
    assert_eq!(finish(&mut lane, 0), Answer::Yes);
    lane.begin(0, Operation::Remove(0), Side::Right)
        .expect("idle");
    assert_eq!(finish(&mut lane, 0), Answer::No);
    let mut lane = Lane::start([0; words(2, 1)], 2, 1, 0).expect("the sizes fit");
    lane.begin(0, push(1), Side::Left).expect("idle");
    assert_eq!(finish(&mut lane, 0), Answer::Full);
}

#[test]
fn a_run_gives_the_answers_of_the_ticks_made() {
    let mut lane = small();
    lane.begin(0, Operation::Pop, Side::Left).expect("idle");
    let mut answers = [[8; 3]; 6];
    let ran = lane.run(&[[0, 0]; 6], &mut answers);
    assert_eq!((ran.made(), ran.refusal()), (4, Some(Refusal::Idle)));
    let going = Answer::Going;
    assert!(ran.answers().eq([going, going, going, Answer::Empty]));
    assert_eq!(answers[4..], [[8; 3]; 2]);
    let ran = lane.run(&[], &mut []);
    assert_eq!((ran.made(), ran.refusal()), (0, None));
    let pushed = lane.call(0, push(1_000_000_051), Side::Left);
    assert_eq!(pushed, Ok(Answer::Pushed));
    lane.begin(0, Operation::Pop, Side::Left).expect("idle");
    let ran = lane.run(&[[0, 0]; 4], &mut answers);
    assert_eq!(ran.answers().last(), Some(bag(1_000_000_051)));
    assert_eq!(answers[3], [2, 1, 51]);
}

#[test]
fn the_panel_takes_32_ticks() {
    let mut lane = small();
    lane.begin(0, Operation::Pop, Side::Left).expect("idle");
    let mut answers = [[8; 3]; 33];
    let mut other = lane.clone();
    let ran = other.run(&[[0, 0]; 32], &mut answers);
    assert_eq!((ran.made(), ran.refusal()), (4, Some(Refusal::Idle)));
    let mut places = [[8; 3]; 33];
    let long = lane.panel(&[[0, 0]; 33], &mut places[..1]);
    assert_eq!((long.made(), long.refusal()), (0, Some(Refusal::Panel)));
    let ran = lane.panel(&[[0, 0]; 32], &mut places);
    assert_eq!((ran.made(), ran.refusal()), (4, Some(Refusal::Idle)));
    assert_eq!((lane, places), (other, answers));
}

#[test]
fn wrong_numbers_get_their_refusals_and_change_nothing() {
    let sizes = Lane::start([7; 37], 1025, 1, 0).unwrap_err();
    assert_eq!((sizes.refusal, sizes.words), (Refusal::Sizes, [7; 37]));
    let length = Lane::start([7; 36], 2, 1, 0).unwrap_err();
    assert_eq!((length.refusal, length.words), (Refusal::Length, [7; 36]));
    let mut lane = small();
    lane.begin(1, Operation::Pop, Side::Left).expect("idle");
    let before = lane.clone();
    for operation in [Operation::Add(65), Operation::Remove(1024)] {
        let begun = lane.begin(0, operation, Side::Left);
        assert_eq!(begun, Err(Refusal::Argument));
    }
    assert_eq!(
        lane.begin(2, Operation::Pop, Side::Left),
        Err(Refusal::Task)
    );
    assert_eq!(
        lane.begin(1, Operation::Pop, Side::Left),
        Err(Refusal::Busy)
    );
    assert_eq!(lane.tick(1, 8), Err(Refusal::Hint));
    assert_eq!(lane.tick(0, 0), Err(Refusal::Idle));
    let mut answers = vec![[0; 3]; 4097];
    let long = lane.run(&vec![[1, 0]; 4097], &mut answers);
    assert_eq!((long.made(), long.refusal()), (0, Some(Refusal::List)));
    let short = lane.run(&[[1, 0]; 2], &mut answers[..1]);
    assert_eq!((short.made(), short.refusal()), (0, Some(Refusal::Answers)));
    assert_eq!(lane, before);
}

#[test]
fn a_bag_is_pushed_once_until_it_is_popped() {
    let mut lane = small();
    assert_eq!(lane.begin(0, push(51), Side::Right), Ok(()));
    let twice = Err(Refusal::Twice);
    // While the push is busy, on its own task too; then while the bag is in the lane.
    for pushed in [false, true] {
        let before = lane.clone();
        for (task, side) in [(0, Side::Left), (0, Side::Right), (1, Side::Left)] {
            assert_eq!(lane.begin(task, push(51), side), twice);
        }
        assert_eq!(lane.call(1, push(51), Side::Right), Err(Refusal::Twice));
        assert_eq!(lane, before);
        if !pushed {
            let other_digit = lane.begin(0, push(1_000_000_051), Side::Right);
            assert_eq!(other_digit, Err(Refusal::Busy));
            assert_eq!(finish(&mut lane, 0), Answer::Pushed);
        }
    }
    assert_eq!(lane.begin(1, Operation::Add(51), Side::Left), Ok(()));
    assert_eq!(lane.begin(1, push(51), Side::Left), twice);
    assert_eq!(lane.begin(1, push(52), Side::Left), Err(Refusal::Busy));
    assert_eq!(lane.call(0, Operation::Pop, Side::Left), Ok(bag(51)));
    assert_eq!(lane.begin(0, push(51), Side::Left), Ok(()));
    assert_eq!(finish(&mut lane, 1), Answer::Yes);
    assert_eq!(lane.begin(1, push(1_000_000_051), Side::Left), Ok(()));
}

#[test]
fn lent_words_are_tested_at_every_call() {
    let mut table = small().into_words();
    assert_eq!(read(&Lane::over(&table), 8), Ok(vec![]));
    assert_eq!(Lane::over(&mut table[1..]).tick(0, 0), Err(Refusal::Table));
    // The second zero of the header; the digit of the first slot, which has a mark.
    for place in [15, 19] {
        table[place] = 1;
        assert_eq!(read(&Lane::over(&table), 8), Err(Refusal::Shape));
        table[place] = 0;
    }
    // The left hat's link to the right made none, which no call does.
    table[17] = 65_535;
    let mut lane = Lane::over(&mut table[..]);
    assert_eq!(read(&lane, 8), Err(Refusal::NoSlot));
    // A push walks the lane, the others do not.
    let begun = lane.begin(0, push(51), Side::Left);
    assert_eq!(begun, Err(Refusal::NoSlot));
    assert_eq!(lane.begin(0, Operation::Pop, Side::Left), Ok(()));
}
