//! Several lanes over one table by the wrapper: rows apart, slots and tags in common, and a table with one lane as
//! either.

use std::fmt::Debug;

use lane::{words, Answer, Lane, Lanes, Operation, Refusal, Side, Tag};

const SIDES: [Side; 2] = [Side::Left, Side::Right];

fn push(number: u64) -> Operation {
    Operation::Push(Tag::new(number).expect("a tag"))
}

/// The tags of a lane as numbers, by a read.
fn read<W: AsRef<[u32]>>(lanes: &Lanes<W>, lane: u32) -> Vec<u64> {
    let mut out = [[0; 2]; 16];
    let tags = lanes.read(lane, &mut out).expect("a lane");
    tags.map(Tag::number).collect()
}

fn started(slots: u32, count: u32) -> Lanes<Vec<u32>> {
    Lanes::start(vec![7; words(slots, 2)], slots, 2, 0, count).expect("the sizes fit")
}

#[test]
fn each_lane_is_a_row_of_its_own() {
    let mut lanes = started(16, 4);
    for lane in 0..4 {
        for (tag, side) in (1..).zip(SIDES) {
            let pushed = lanes.call(0, lane, push(10 * u64::from(lane) + tag), side);
            assert_eq!(pushed, Ok(Answer::Pushed));
        }
    }
    for lane in 0..4 {
        let first = 10 * u64::from(lane);
        assert_eq!(read(&lanes, lane), [first + 1, first + 2]);
    }
    let popped = lanes.call(1, 2, Operation::Pop, Side::Right);
    assert_eq!(popped, Ok(Answer::Bag(Tag::new(22).expect("a tag"))));
    let rows = [0, 1, 2, 3].map(|lane| read(&lanes, lane));
    assert_eq!(rows, [vec![1, 2], vec![11, 12], vec![21], vec![31, 32]]);
}

#[test]
fn the_slots_are_shared() {
    // Two slots beyond the ends: a lane that has both leaves none to the other.
    let mut lanes = started(6, 2);
    for tag in 1..=2 {
        let pushed = lanes.call(0, 0, push(tag), Side::Right);
        assert_eq!(pushed, Ok(Answer::Pushed));
    }
    for (lane, side) in [(0, Side::Left), (1, Side::Left), (1, Side::Right)] {
        assert_eq!(lanes.call(0, lane, push(3), side), Ok(Answer::Full));
    }
    assert_eq!(read(&lanes, 0).len() as u32, Lanes::max_bags(6, 2));
    for _ in 0..2 {
        let popped = lanes.call(0, 0, Operation::Pop, Side::Right);
        assert!(matches!(popped, Ok(Answer::Bag(_))), "{popped:?}");
    }
    let given_back = lanes.call(0, 0, Operation::Remove(0), Side::Right);
    assert_eq!(given_back, Ok(Answer::Yes));
    assert_eq!(lanes.call(0, 1, push(3), Side::Left), Ok(Answer::Pushed));
}

#[test]
fn a_tag_is_in_one_place_of_all_lanes() {
    let mut lanes = started(8, 2);
    assert_eq!(lanes.begin(0, 1, push(51), Side::Left), Ok(()));
    // While the push is busy; then while the bag is in its lane.
    for lane in [0, 1] {
        let before = lanes.clone();
        assert_eq!(
            lanes.begin(1, lane, push(51), Side::Left),
            Err(Refusal::Twice)
        );
        assert_eq!(lanes, before);
    }
    while lanes.tick(0, 0) == Ok(Answer::Going) {}
    assert_eq!(lanes.begin(1, 0, push(51), Side::Left), Err(Refusal::Twice));
    let popped = lanes.call(0, 1, Operation::Pop, Side::Right);
    assert!(matches!(popped, Ok(Answer::Bag(_))), "{popped:?}");
    assert_eq!(lanes.begin(1, 0, push(51), Side::Left), Ok(()));
}

#[test]
fn a_lane_that_is_not_there_is_refused_before_the_task() {
    for count in lane::MIN_LANES..=lane::MAX_LANES {
        let mut lanes = started(8, count);
        for lane in [count, u32::MAX] {
            let before = lanes.clone();
            let begun = lanes.begin(2, lane, Operation::Pop, Side::Left);
            assert_eq!(begun, Err(Refusal::Lane));
            assert_eq!(lanes.read(lane, &mut []).err(), Some(Refusal::Lane));
            assert_eq!(lanes.bags(lane).err(), Some(Refusal::Lane));
            assert_eq!(lanes, before);
        }
        let begun = lanes.begin(2, count - 1, Operation::Pop, Side::Left);
        assert_eq!(begun, Err(Refusal::Task));
    }
}

#[test]
fn a_lane_that_cannot_be_walked_stops_a_push_on_another() {
    let mut table = started(8, 2).into_words();
    // The link to the right of lane 1's left end made none, which no call does.
    table[16 + 4 * 2 + 1] = 65_535;
    let mut lanes = Lanes::over(table);
    assert_eq!(read(&lanes, 0), []);
    assert_eq!(lanes.bags(1).err(), Some(Refusal::NoSlot));
    let shown = format!("{lanes:?}");
    assert!(shown.contains("lanes: [Lane { bags: [], "), "{shown}");
    assert!(shown.contains("Lane { bags: NoSlot, "), "{shown}");
    assert_eq!(
        lanes.begin(0, 0, push(51), Side::Left),
        Err(Refusal::NoSlot)
    );
    assert_eq!(lanes.begin(0, 0, Operation::Pop, Side::Left), Ok(()));
}

#[test]
fn a_table_with_one_lane_is_the_same_by_either_name() {
    let table = vec![7; words(8, 2)];
    let mut one = Lane::start(table.clone(), 8, 2, 1).expect("the sizes fit");
    let mut lanes = Lanes::start(table, 8, 2, 1, 1).expect("the sizes fit");
    let calls = [
        push(51),
        push(52),
        Operation::Pop,
        Operation::Add(1),
        Operation::Remove(0),
        push(52),
    ];
    for (task, operation) in calls.into_iter().enumerate() {
        let (task, side) = (task as u32 % 2, SIDES[task % 2]);
        let named = lanes.call(task, 0, operation, side);
        assert_eq!(one.call(task, operation, side), named);
        assert_eq!(one.words(), lanes.words());
        assert!(one
            .bags()
            .expect("a lane")
            .eq(lanes.bags(0).expect("a lane")));
    }
    let of_one = |shown: &dyn Debug| format!("{shown:?}").replacen("Lanes", "Lane", 1);
    assert_eq!(of_one(&one), of_one(&lanes));
    assert_eq!(one.begin(0, Operation::Pop, Side::Left), Ok(()));
    assert_eq!(lanes.begin(0, 0, Operation::Pop, Side::Left), Ok(()));
    assert_eq!(one.into_words(), lanes.into_words());
}

#[test]
fn of_several_lanes_a_lane_is_the_first() {
    let mut lanes = started(8, 2);
    for (lane, tag) in [(0, 51), (1, 52)] {
        let pushed = lanes.call(0, lane, push(tag), Side::Right);
        assert_eq!(pushed, Ok(Answer::Pushed));
    }
    let mut one = Lane::over(lanes.clone().into_words());
    assert!(one.bags().expect("a lane").eq(Tag::new(51)));
    let mut out = [[0; 2]; 1];
    assert!(one.read(&mut out).expect("a lane").eq(Tag::new(51)));
    let popped = one.call(1, Operation::Pop, Side::Right);
    assert_eq!(popped, lanes.call(1, 0, Operation::Pop, Side::Right));
    assert_eq!(one.words(), lanes.words());
    assert_eq!(read(&one, 1), [52]);
}
