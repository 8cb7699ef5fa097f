//! The wrapper's constants and texts are those of `include/lane.h`, and the library keeps to them.

use lane::{tags_write, window_words, words, Lane, Lanes, Operation, Refusal, Side, Tag, Window};

const HEADER: &str = include_str!("../../../include/lane.h");

/// The first word after the name of a definition.
fn defined(name: &str) -> &'static str {
    let mut lines = HEADER.lines().map(|line| line.split_whitespace());
    lines
        .find_map(|mut line| {
            (line.next() == Some("#define") && line.next() == Some(name)).then(|| line.next())
        })
        .flatten()
        .unwrap_or_else(|| panic!("include/lane.h has no {name}"))
}

#[test]
fn the_header_has_the_same_numbers() {
    for (name, number) in [
        ("LANE_TABLE_FORMAT", lane::TABLE_FORMAT),
        ("LANE_MIN_SLOTS", lane::MIN_SLOTS),
        ("LANE_MAX_SLOTS", lane::MAX_SLOTS),
        ("LANE_MIN_TASKS", lane::MIN_TASKS),
        ("LANE_MAX_TASKS", lane::MAX_TASKS),
        ("LANE_MAX_GROWTH", lane::MAX_GROWTH),
        ("LANE_MIN_LANES", lane::MIN_LANES),
        ("LANE_MAX_LANES", lane::MAX_LANES),
        ("LANE_MAX_DIGIT", lane::MAX_DIGIT),
        ("LANE_MAX_LOW", lane::MAX_LOW),
        ("LANE_MAX_ADD", lane::MAX_ADD),
        ("LANE_MAX_REMOVE", lane::MAX_REMOVE),
        ("LANE_MAX_TICKS", lane::MAX_TICKS as u32),
        ("LANE_MAX_PANEL_TICKS", lane::MAX_PANEL_TICKS as u32),
        ("LANE_TAG_BYTES", lane::TAG_BYTES as u32),
        ("LANE_LIST_TAGS", lane::LIST_TAGS as u32),
        ("LANE_LIST_LINES", lane::LIST_LINES as u32),
        ("LANE_LIST_BYTES", lane::LIST_BYTES as u32),
        ("LANE_PAGES", lane::PAGES),
        ("LANE_PAGE_TAGS", lane::PAGE_TAGS as u32),
        ("LANE_PAGE_LINES", lane::PAGE_LINES as u32),
        ("LANE_PAGE_COLUMNS", lane::PAGE_COLUMNS as u32),
        ("LANE_PAGE_BYTES", lane::PAGE_BYTES as u32),
        ("LANE_MAX_WIDTH", lane::MAX_WIDTH),
        ("LANE_LEFT", Side::Left.number()),
        ("LANE_RIGHT", Side::Right.number()),
        ("LANE_PUSH", Operation::Push(Tag::MIN).number()),
        ("LANE_POP", Operation::Pop.number()),
        ("LANE_ADD", Operation::Add(0).number()),
        ("LANE_REMOVE", Operation::Remove(0).number()),
    ] {
        assert_eq!(defined(name), number.to_string(), "{name}");
    }
    assert_eq!(defined("LANE_VERSION"), format!("\"{}\"", lane::VERSION));
    let numbers = lane::VERSION
        .split('.')
        .map(|number| format!("{number:0>3}"));
    let number = numbers.collect::<String>();
    assert_eq!(
        defined("LANE_VERSION_NUMBER"),
        number.trim_start_matches('0')
    );
    assert_eq!(defined("LANE_MIN_TAG"), Tag::MIN.number().to_string());
    let most = Tag::MAX.number();
    assert_eq!(defined("LANE_MAX_TAG"), format!("UINT64_C({most})"));
}

#[test]
fn the_header_has_the_same_texts() {
    for refusal in (1..=99).filter_map(Refusal::from_number) {
        // A list of odd length cannot be handed to the wrapper.
        if refusal != Refusal::List {
            let shown = refusal.to_string();
            let (_, text) = shown.split_once(": ").expect("a number, then the text");
            assert!(HEADER.contains(&format!("return \"{text}\";")), "{text}");
        }
    }
}

#[test]
fn each_limit_is_accepted_and_the_number_beyond_it_is_not() {
    let sizes = |slots, tasks, growth, lanes| {
        let table = vec![0; words(slots, tasks)];
        let started = Lanes::start(table, slots, tasks, growth, lanes);
        started.map(|_| ()).map_err(Refusal::from)
    };
    for lanes in lane::MIN_LANES..=lane::MAX_LANES {
        let least = (lane::MIN_SLOTS * lanes, lane::MIN_TASKS);
        assert_eq!(sizes(least.0, least.1, 0, lanes), Ok(()));
        let most = (lane::MAX_SLOTS, lane::MAX_TASKS, lane::MAX_GROWTH);
        assert_eq!(sizes(most.0, most.1, most.2, lanes), Ok(()));
        for (slots, tasks, growth) in [
            (least.0 - 1, least.1, 0),
            (least.0, least.1 - 1, 0),
            (most.0 + 1, most.1, most.2),
            (most.0, most.1 + 1, most.2),
            (most.0, most.1, most.2 + 1),
        ] {
            let refused = sizes(slots, tasks, growth, lanes);
            assert_eq!(refused, Err(Refusal::Sizes));
            for lanes in [lane::MIN_LANES - 1, lane::MAX_LANES + 1] {
                let refused = sizes(slots, tasks, growth, lanes);
                assert_eq!(refused, Err(Refusal::Lanes));
            }
        }
    }

    let begin = |operation| {
        let mut lane = Lane::start([0; words(4, 1)], 4, 1, 0).expect("the sizes fit");
        lane.begin(0, operation, Side::Left)
    };
    let beyond = Err(Refusal::Argument);
    assert_eq!(begin(Operation::Push(Tag::MIN)), Ok(()));
    assert_eq!(begin(Operation::Push(Tag::MAX)), Ok(()));
    assert_eq!(begin(Operation::Add(lane::MAX_ADD)), Ok(()));
    assert_eq!(begin(Operation::Add(lane::MAX_ADD + 1)), beyond);
    assert_eq!(begin(Operation::Remove(lane::MAX_REMOVE)), Ok(()));
    assert_eq!(begin(Operation::Remove(lane::MAX_REMOVE + 1)), beyond);

    let most = vec![Tag::MAX.words(); lane::LIST_TAGS + 1];
    let mut list = vec![0; lane::TAG_BYTES * most.len()];
    let written = tags_write(&most[1..], &mut list).map(<[u8]>::len);
    assert_eq!(written, Ok(lane::TAG_BYTES * lane::LIST_TAGS));
    let beyond = tags_write(&most, &mut list).map_err(Refusal::from);
    assert_eq!(beyond, Err(Refusal::Tags));

    let window = |width| {
        let started = Window::start(vec![7; window_words(width)], width);
        started.map(|_| ()).map_err(Refusal::from)
    };
    assert_eq!([1, lane::MAX_WIDTH].map(window), [Ok(()); 2]);
    let beyond = [0, lane::MAX_WIDTH + 1].map(window);
    assert_eq!(beyond, [Err(Refusal::Window); 2]);
}
