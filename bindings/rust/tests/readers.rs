//! What looks at a table without a call: what it costs, the places of the words, and the way out of "full".

use std::hint::black_box;
use std::time::{Duration, Instant};

use lane::{place, words, Answer, Dispatched, Lane, Lanes, Operation, Refusal, Side, Tag};

/// The least of several rounds, so that what else the machine does has no say.
fn time(mut work: impl FnMut()) -> Duration {
    let round = |_| {
        let begun = Instant::now();
        for _ in 0..100 {
            work();
        }
        begun.elapsed()
    };
    let rounds = (0..30).map(round);
    rounds.min().expect("some rounds")
}

/// A dispatch tests the whole table; to look at a word of a table that a call has accepted is next to nothing.
#[test]
fn a_look_at_a_word_costs_no_test_of_the_table() {
    let mut lane = Lane::start(vec![0; words(1024, 16)], 1024, 16, 64).expect("the sizes fit");
    for tag in (1..=1000).filter_map(Tag::new) {
        assert_eq!(
            lane.call(0, Operation::Push(tag), Side::Right),
            Ok(Answer::Pushed)
        );
    }
    let dispatches = time(|| assert_eq!(black_box(&mut lane).dispatch(0), Ok(Dispatched::Idle)));
    for (name, look) in [
        (
            "is_busy",
            time(|| assert_eq!(black_box(&lane).is_busy(15), Ok(false))),
        ),
        (
            "step",
            time(|| assert_eq!(black_box(&lane).step(15), Ok(0))),
        ),
        (
            "dispatched",
            time(|| assert_eq!(black_box(&lane).dispatched(), Ok(15))),
        ),
        (
            "tick_count",
            time(|| assert!(black_box(&lane).tick_count().is_ok())),
        ),
        (
            "slots",
            time(|| assert_eq!(black_box(&lane).slots(), Ok(1024))),
        ),
    ] {
        assert!(
            2 * look < dispatches,
            "{name}: {look:?} beside {dispatches:?}"
        );
    }
}

/// Words that no call has accepted are tested at every look, and what is tested once is not forgotten.
#[test]
fn words_are_trusted_after_a_call_alone() {
    let mut table = vec![0; words(4, 2)];
    Lane::start(&mut table[..], 4, 2, 0).expect("the sizes fit");
    table[place::DISPATCHED] = 2;
    let mut lane = Lane::over(&mut table[..]);
    assert_eq!(lane.is_busy(0), Err(Refusal::Shape));
    assert_eq!(lane.ticks(0, 0, 0), Ok(Answer::Going)); // tests nothing
    assert_eq!(lane.dispatched(), Err(Refusal::Shape));
    assert_eq!(lane.tick(0, 0), Err(Refusal::Shape));
    assert_eq!(lane.dispatched(), Err(Refusal::Shape));

    table[place::DISPATCHED] = 0;
    let mut lane = Lane::over(&mut table[..]);
    assert_eq!(
        lane.begin(2, Operation::Pop, Side::Left),
        Err(Refusal::Task)
    );
    assert_eq!(lane.begin(1, Operation::Pop, Side::Left), Ok(()));
    assert_eq!((lane.is_busy(0), lane.is_busy(1)), (Ok(false), Ok(true)));
    assert_eq!(lane.is_busy(2), Err(Refusal::Task));
    assert_eq!(
        Lane::over(lane.words()),
        Lane::over(lane.words().to_vec().as_slice())
    );
}

/// What stands at each place is what the start and the begin were given, and what the looks say.
#[test]
fn each_place_has_its_word() {
    let mut lanes = Lanes::start([7; words(8, 2)], 8, 2, 5, 3).expect("the sizes fit");
    let tag = Tag::new(9_000_000_051).expect("a tag");
    let pushed = lanes.call(0, 2, Operation::Push(tag), Side::Right);
    assert_eq!(pushed, Ok(Answer::Pushed));
    lanes
        .begin(1, 2, Operation::Pop, Side::Right)
        .expect("idle");
    for _ in 0..3 {
        let _ = lanes.dispatch(0).expect("a busy task");
    }
    let words = lanes.words();
    assert_eq!(
        words.len(),
        place::HEADER + 8 * place::NODE + 2 * place::RECORD
    );
    for (at, word) in [
        (place::SLOTS, 8),
        (place::TASKS, 2),
        (place::GROWTH, 5),
        (place::LANES, 3),
        (place::TICK_COUNT, lanes.tick_count().expect("a table")),
        (place::DISPATCHED, 1),
        (place::hats(3), place::NONE),
    ] {
        assert_eq!(words[at], word, "{at}");
    }
    let node = |number: u32| &words[place::node(number)..][..place::NODE];
    let [left, right] = [0, 1].map(|side| words[place::hats(2) + side]);
    let bag = node(left)[place::RIGHT_LINK];
    assert_eq!(
        [node(bag)[place::DIGIT], node(bag)[place::VALUE]],
        tag.words()
    );
    assert_eq!(node(bag)[place::LEFT_LINK], left);
    assert_eq!(node(bag)[place::RIGHT_LINK], right);

    assert_eq!(place::record(8, 0), place::HEADER + 8 * place::NODE);
    let record = &words[place::record(8, 1)..];
    assert_eq!(record.len(), place::RECORD);
    assert_eq!(record[place::OPERATION], Operation::Pop.number());
    assert_eq!(record[place::STEP], lanes.step(1).expect("a task"));
    assert_eq!(record[place::SIDE], Side::Right.number());
    assert_eq!(
        [record[place::ARGUMENT_DIGIT], record[place::ARGUMENT]],
        [0, 0]
    );
    assert_eq!(record[place::COUNTED], 0);
    assert_eq!(
        [record[place::VALUE_READ_DIGIT], record[place::VALUE_READ]],
        tag.words()
    );
    // The pop has gone from the hat, in A, to the slot with the bag, in B.
    assert_eq!(record[place::REGISTERS..][..2], [right, bag]);
    assert_eq!(record[place::LANE], 2);
}

/// At every end of two lanes, with the free slots spare at any other, as many bags as there is place for.
#[test]
fn room_is_made_at_every_end() {
    let ends = [0, 1].map(|lane| [(lane, Side::Left), (lane, Side::Right)]);
    let ends = ends.as_flattened();
    let most = Lanes::max_bags(8, 2) as usize;
    for &(lane, side) in ends {
        for &(other, at) in ends {
            let mut lanes = Lanes::start([0; words(8, 2)], 8, 2, 0, 2).expect("the sizes fit");
            assert_eq!(
                lanes.call(1, other, Operation::Add(64), at),
                Ok(Answer::Yes)
            );
            let mut tags = (1..).map_while(Tag::new);
            let room = tags.by_ref().take_while(|&tag| {
                let answer = lanes.make_room(0, lane, tag, side).expect("new tags");
                assert!(matches!(answer, Answer::Pushed | Answer::Full));
                answer == Answer::Pushed
            });
            let pushed = room.count();
            assert!(pushed == most || pushed == most - 1 && (lane, side) != (other, at));
            assert_eq!(lanes.bags(lane).expect("a lane").count(), pushed);
            assert_eq!(lanes.bags(1 - lane).expect("a lane").count(), 0);
        }
    }
    let mut lanes = Lanes::start([0; words(8, 2)], 8, 2, 0, 2).expect("the sizes fit");
    assert_eq!(
        lanes.make_room(0, 1, Tag::MAX, Side::Left),
        Ok(Answer::Pushed)
    );
    let refused = [
        (0, 0, Tag::MAX, Refusal::Twice),
        (0, 2, Tag::MIN, Refusal::Lane),
        (2, 0, Tag::MIN, Refusal::Task),
    ];
    for (task, lane, tag, refusal) in refused {
        assert_eq!(lanes.make_room(task, lane, tag, Side::Left), Err(refusal));
    }
}
