//! Every refusal, the order among those that apply, and that words stay.

mod common;

use common::calls::{begin, tags};
use common::columns::by_columns;
use common::records::{place, words};
use common::tables::{sizes, started, started_lanes, steps_of, LANE};
use reference::airlines::push_by_list;
use reference::sheet::{sheet, BYTES};
use reference::table::{
    header, node, record, ADD, LEFT, LN, LX, LY, MAX_TAG, NONE, POP, PUSH, REMOVE, RIGHT, RN, RX,
    RY,
};
use reference::{begin_record, dispatch, panel, put, read, run, start, take, tick, Answer};

/// What every call but start refuses the table with.
fn refused_by_all(table: &[u32], number: u32, what: &str) {
    let mut lent = table.to_vec();
    let found = begin(&mut lent, 0, LANE, PUSH, 1, 5);
    assert_eq!(found, Err(number), "{what}");
    assert_eq!(tick(&mut lent, 0, 0), Err(number), "{what}");
    assert_eq!(dispatch(&mut lent, 0), Err(number), "{what}");
    let mut answers = [8; 4];
    assert_eq!(run(&mut lent, &[0, 0], &mut answers), (number, 0), "{what}");
    assert_eq!(run(&mut lent, &[], &mut answers), (number, 0), "{what}");
    let mut out = [8; 4];
    assert_eq!(read(&lent, LANE, &mut out), Err(number), "{what}");
    assert_eq!(lent, table, "{what}");
    assert_eq!((answers, out), ([8; 4], [8; 4]), "{what}");
    let list = b"(others right)";
    let found = push_by_list(list, &mut lent, 0, LANE, 0, 5);
    assert_eq!(found, (number, 0), "{what}");
    assert_eq!(lent, table, "{what}");
    let mut page = [8; BYTES];
    assert_eq!(sheet(table, LANE, 0, &mut page), number, "{what}");
    assert_eq!(page, [8; BYTES], "{what}");
    // Lent as it stands in the table, the record has its faults.
    let record = place(table, 0).map_or(record::FRESH, |_| words(table, 0));
    let mut lent = record;
    let found = begin_record(&mut lent, table, 0, LANE, PUSH, 1, 0, 5);
    assert_eq!((found, lent), (number, record), "{what}");
    let mut snapshot = vec![8; table.len()];
    assert_eq!(take(table, &mut snapshot), Err(number), "{what}");
    assert_eq!(snapshot, vec![8; table.len()], "{what}");
    assert_eq!(put_over(table, number == 3), Err(number), "{what}");
}

/// What putting a table back gives; without sizes there is no order, and the words stand as they are.
fn put_over(table: &[u32], no_sizes: bool) -> Result<(), u32> {
    let snapshot = if no_sizes {
        table.to_vec()
    } else {
        by_columns(table)
    };
    let mut over = vec![8; table.len()];
    let found = put(&snapshot, &mut over);
    match found {
        Ok(()) => assert_eq!(over, table),
        Err(_) => assert_eq!(over, vec![8; table.len()]),
    }
    found
}

/// In the table and in its snapshot alike.
fn shape_holds(table: &[u32]) -> bool {
    let holds = run(&mut table.to_vec(), &[], &mut []) == (0, 0);
    assert_eq!(put_over(table, false).is_ok(), holds);
    holds
}

/// All lists of faults, with the number wanted: that of the first in order.
fn subsets(numbers: &[u32]) -> Vec<(Vec<u32>, u32)> {
    (1..1 << numbers.len())
        .map(|bits: u32| {
            let chosen: Vec<u32> = (0..numbers.len())
                .filter(|at| bits >> at & 1 == 1)
                .map(|at| numbers[at])
                .collect();
            let first = chosen[0];
            (chosen, first)
        })
        .collect()
}

/// A table with task 0 at a step through a register that is none, task 1 idle,
/// and the faults 3 and 4 if chosen.
fn faulty(chosen: &[u32]) -> Vec<u32> {
    let mut table = started(4, 2, 0);
    let at = sizes(&table).record(0);
    begin(&mut table, 0, LANE, PUSH, 1, 51).expect("begin");
    table[at + record::STEP] = 3;
    if chosen.contains(&4) {
        table[header::ZEROS[1]] = 1;
    }
    if chosen.contains(&3) {
        table.push(0);
    }
    table
}

/// The length of a table, as the paper gives it.
fn length(nodes: u32, tasks: u32) -> usize {
    16 + 4 * nodes as usize + 13 * tasks as usize
}

/// What is no number of lanes.
const NO_LANES: [u32; 5] = [0, 5, 6, NONE, u32::MAX];

#[test]
fn start_in_order() {
    for (chosen, first) in subsets(&[25, 1, 2]) {
        for lanes in 1..=4 {
            // One node short of two for each lane, and every other size past its limit.
            let bad_sizes = [
                (2 * lanes - 1, 1, 0),
                (1025, 1, 0),
                (2 * lanes, 0, 0),
                (2 * lanes, 17, 0),
                (2 * lanes, 1, 65),
            ];
            for (bad_size, bad_lanes) in bad_sizes.into_iter().zip(NO_LANES) {
                let (nodes, tasks, growth) = if chosen.contains(&1) {
                    bad_size
                } else {
                    (2 * lanes, 1, 0)
                };
                let lanes = if chosen.contains(&25) {
                    bad_lanes
                } else {
                    lanes
                };
                let words = length(nodes, tasks) - usize::from(chosen.contains(&2));
                let mut table = vec![3; words];
                let found = start(&mut table, nodes, tasks, growth, lanes);
                assert_eq!(
                    found,
                    Err(first),
                    "{chosen:?}, {lanes} lanes, {nodes} nodes"
                );
                assert_eq!(table, vec![3; words], "{chosen:?}");
            }
        }
    }
}

#[test]
fn start_1_and_2() {
    let bad = [
        (1, 1, 0),
        (0, 1, 0),
        (1025, 1, 0),
        (u32::MAX, 1, 0),
        (2, 0, 0),
        (2, 17, 0),
        (2, u32::MAX, 0),
        (2, 1, 65),
        (2, 1, u32::MAX),
    ];
    for (nodes, tasks, growth) in bad {
        for words in [0, 36, 37, 38] {
            let mut table = vec![3; words];
            assert_eq!(start(&mut table, nodes, tasks, growth, 1), Err(1));
            assert_eq!(table, vec![3; words]);
        }
    }
    for (nodes, tasks, growth) in [(2, 1, 0), (1024, 16, 64), (5, 3, 1)] {
        let exact = length(nodes, tasks);
        for words in [0, exact - 1, exact + 1, exact + 13] {
            let mut table = vec![3; words];
            assert_eq!(start(&mut table, nodes, tasks, growth, 1), Err(2));
            assert_eq!(table, vec![3; words]);
        }
        assert_eq!(start(&mut vec![3; exact], nodes, tasks, growth, 1), Ok(()));
    }
}

#[test]
fn all_others_3() {
    let good = started(4, 1, 0);
    assert!(shape_holds(&good));
    for length in 0..good.len() {
        refused_by_all(&good[..length], 3, "short");
    }
    let shortest = started(2, 1, 0);
    assert!(shape_holds(&shortest));
    refused_by_all(&shortest[..36], 3, "36 words");
    let mut long = good.clone();
    long.push(0);
    refused_by_all(&long, 3, "long");
    for (word, values) in [
        (header::NODES, &[0, 1, 3, 5, 1025, u32::MAX][..]),
        (header::TASKS, &[0, 2, 17, u32::MAX]),
        (header::GROWTH, &[65, u32::MAX]),
        // Four nodes are enough for two lanes.
        (header::LANES, &[0, 3, 4, 5, NONE, u32::MAX]),
    ] {
        for &value in values {
            let mut table = good.clone();
            table[word] = value;
            refused_by_all(&table, 3, "header");
        }
    }
    // Sizes out of range on slices of the length they ask for.
    for (nodes, tasks) in [(1, 2), (1025, 1), (4, 0), (2, 17)] {
        let mut table = vec![0; length(nodes, tasks)];
        table[header::NODES] = nodes;
        table[header::TASKS] = tasks;
        table[header::LANES] = 1;
        refused_by_all(&table, 3, "matching length");
    }
}

/// Two nodes for each lane are enough, and one fewer is not.
#[test]
fn all_others_3_lanes() {
    for lanes in 1..=4 {
        for nodes in 2 * lanes..=9 {
            let good = started_lanes(nodes, 1, 0, lanes);
            assert!(shape_holds(&good));
            for bad in NO_LANES.into_iter().chain(nodes / 2 + 1..5) {
                let mut table = good.clone();
                table[header::LANES] = bad;
                refused_by_all(&table, 3, "lanes");
            }
        }
    }
}

/// What was a table before 2026-04, and before 2026-12, is none now.
#[test]
fn all_others_3_tables_of_before() {
    for (header_words, node_words, record_words) in [(8, 3, 10), (8, 4, 12)] {
        for (nodes, tasks) in (2..=1024).flat_map(|nodes| [1, 2, 16].map(|tasks| (nodes, tasks))) {
            let words = header_words + node_words * nodes as usize + record_words * tasks as usize;
            let mut table = vec![0; words];
            table[..8].copy_from_slice(&[nodes, tasks, 0, 0, 1, 0, tasks - 1, 0]);
            // The left hat stood where the lanes stand now.
            for left_hat in 0..5 {
                table[3] = left_hat;
                assert_eq!(run(&mut table, &[], &mut []), (3, 0));
            }
        }
    }
}

#[test]
fn all_others_4_header_and_nodes() {
    let good = started(4, 1, 0);
    let size = sizes(&good);
    let links: &[u32] = &[4, 5, 65_534, 65_536, u32::MAX];
    let mut words = vec![
        (header::DISPATCHED, &[1, 2, u32::MAX][..]),
        (header::ZEROS[0], &[1, NONE, u32::MAX]),
        (header::ZEROS[1], &[1, NONE, u32::MAX]),
    ];
    for number in 0..4 {
        let at = size.node(number);
        words.extend([(at, links), (at + 1, links)]);
    }
    for (word, values) in words {
        for &value in values {
            let mut table = good.clone();
            table[word] = value;
            refused_by_all(&table, 4, "node or header");
        }
    }
    for number in 0..4 {
        for content in contents() {
            let mut table = good.clone();
            let at = size.node(number) + node::VALUE;
            table[at..at + 2].copy_from_slice(&content);
            if may_stand(content) {
                assert!(shape_holds(&table), "{content:?}");
            } else {
                refused_by_all(&table, 4, "content");
            }
        }
    }
}

/// A hat of a lane in use is any node, and one of another lane is none.
#[test]
fn all_others_4_hats() {
    for lanes in 1..=4 {
        let good = started_lanes(9, 2, 0, lanes);
        for (lane, side) in (0..4).flat_map(|lane| [(lane, LEFT), (lane, RIGHT)]) {
            for hat in (0..12).chain([65_534, NONE, 65_536, u32::MAX]) {
                let mut table = good.clone();
                table[header::hat(lane, side)] = hat;
                let holds = if lane < lanes { hat < 9 } else { hat == NONE };
                if holds {
                    assert!(shape_holds(&table), "lane {lane} of {lanes}, {hat}");
                } else {
                    refused_by_all(&table, 4, "hat");
                }
            }
        }
    }
}

/// The lane of a busy task is one of the lanes; that of an idle one is 0.
#[test]
fn all_others_4_lane() {
    for lanes in 1..=4 {
        for operation in [PUSH, POP, ADD, REMOVE] {
            let mut busy = started_lanes(9, 2, 0, lanes);
            let idle = busy.clone();
            let argument = u64::from(operation == PUSH);
            begin(&mut busy, 1, LANE, operation, 1, argument).expect("begin");
            for lane in (0..6).chain([NONE, u32::MAX]) {
                for (good, holds) in [(&busy, lane < lanes), (&idle, lane == 0)] {
                    let mut table = good.clone();
                    let at = sizes(good).record(1) + record::LANE;
                    table[at] = lane;
                    if holds {
                        assert!(shape_holds(&table), "lane {lane} of {lanes}");
                    } else {
                        refused_by_all(&table, 4, "lane");
                    }
                }
            }
        }
    }
}

/// V and digit in every combination, at the limits and past them.
fn contents() -> impl Iterator<Item = [u32; 2]> {
    const VALUES: [u32; 12] = [
        0,
        1,
        999_999_999,
        1_000_000_000,
        LN,
        LX,
        LY,
        RN,
        RX,
        RY,
        1_000_000_007,
        u32::MAX,
    ];
    const DIGITS: [u32; 6] = [0, 1, 9, 10, 1_000_000_004, u32::MAX];
    VALUES
        .into_iter()
        .flat_map(|value| DIGITS.map(|digit| [value, digit]))
}

/// A digit is 0 to 9, that of a mark 0.
fn may_stand([value, digit]: [u32; 2]) -> bool {
    match value {
        0..=999_999_999 => digit < 10,
        1_000_000_001..=1_000_000_006 => digit == 0,
        _ => false,
    }
}

/// V 0 is a tag exactly with a digit other than 0.
fn may_be_pushed([value, digit]: [u32; 2]) -> bool {
    value < 1_000_000_000 && digit < 10 && value + digit > 0
}

#[test]
fn all_others_4_idle_record() {
    let good = started_lanes(4, 2, 3, 2);
    let at = sizes(&good).record(1);
    for offset in 1..record::WORDS {
        let mut table = good.clone();
        table[at + offset] = 1;
        refused_by_all(&table, 4, "idle record");
    }
    let mut table = good;
    table[at] = 5;
    refused_by_all(&table, 4, "operation 5");
}

#[test]
fn all_others_4_steps() {
    let every: Vec<u32> = (0..200).chain([u32::MAX]).collect();
    let list = [
        (
            PUSH,
            &[2, 3, 5, 8, 28, 31, 15, 17, 18, 24, 25, 67, 68, 69, 70, 72][..],
        ),
        (ADD, &[28, 31, 15, 17, 18, 24, 25, 67, 68, 69, 70, 72]),
        (POP, &[39, 40, 42, 48, 51]),
        (REMOVE, &[54, 56, 58, 60, 62, 64, 74, 77, 78, 79, 81, 82]),
    ];
    for (operation, steps) in list {
        let argument = if operation == POP { 0 } else { 1 };
        for &step in &every {
            let mut table = started(4, 1, 1);
            let at = sizes(&table).record(0);
            begin(&mut table, 0, LANE, operation, 1, argument).expect("begin");
            table[at + record::STEP] = step;
            table[at + record::VALUE] = match step {
                48 => LX,
                51 => 1,
                _ => 0,
            };
            if steps.contains(&step) {
                assert!(shape_holds(&table), "{operation} {step}");
            } else {
                refused_by_all(&table, 4, "step");
            }
        }
    }
}

/// Operations with an argument, its digit, and whether these are the operation's.
fn arguments() -> impl Iterator<Item = (u32, [u32; 2], bool)> {
    const OTHERS: [(u32, [u32; 2], bool); 17] = [
        (POP, [0, 0], true),
        (POP, [1, 0], false),
        (POP, [u32::MAX, 0], false),
        (POP, [0, 1], false),
        (POP, [0, 10], false),
        (ADD, [0, 0], true),
        (ADD, [64, 0], true),
        (ADD, [65, 0], false),
        (ADD, [u32::MAX, 0], false),
        (ADD, [0, 1], false),
        (ADD, [64, 9], false),
        (REMOVE, [0, 0], true),
        (REMOVE, [1023, 0], true),
        (REMOVE, [1024, 0], false),
        (REMOVE, [u32::MAX, 0], false),
        (REMOVE, [0, 1], false),
        (REMOVE, [1023, 9], false),
    ];
    let pushes = contents().map(|content| (PUSH, content, may_be_pushed(content)));
    pushes.chain(OTHERS)
}

#[test]
fn all_others_4_argument() {
    for (operation, content, fits) in arguments() {
        for side in [0, 1] {
            let mut table = started(4, 1, 0);
            let at = sizes(&table).record(0);
            let argument = u64::from(operation == PUSH);
            begin(&mut table, 0, LANE, operation, side, argument).expect("begin");
            table[at + record::ARGUMENT..at + record::COUNTED].copy_from_slice(&content);
            if fits {
                assert!(shape_holds(&table), "{operation} {content:?}");
            } else {
                refused_by_all(&table, 4, "argument");
            }
        }
    }
}

#[test]
fn begin_7() {
    for (operation, [argument, digit], fits) in arguments() {
        for side in [0, 1] {
            let mut table = started(4, 1, 0);
            let found = reference::begin(&mut table, 0, LANE, operation, side, digit, argument);
            let wanted = if fits { Ok(()) } else { Err(7) };
            assert_eq!(found, wanted, "{operation} {digit} {argument}");
        }
    }
}

#[test]
fn all_others_4_side_and_registers() {
    for operation in [PUSH, POP, ADD, REMOVE] {
        for side in [0, 1] {
            let mut table = started(4, 1, 0);
            let at = sizes(&table).record(0);
            let argument = u64::from(operation == PUSH);
            begin(&mut table, 0, LANE, operation, side, argument).expect("begin");
            for register in record::A..=record::D {
                for (number, holds) in [(0, true), (3, true), (4, false), (65_536, false)] {
                    let mut table = table.clone();
                    table[at + register] = number;
                    assert_eq!(shape_holds(&table), holds);
                }
            }
            table[at + record::SIDE] = 2;
            refused_by_all(&table, 4, "side");
        }
    }
}

#[test]
fn all_others_4_counted() {
    for operation in [PUSH, POP, ADD, REMOVE] {
        for goal in 0..3 {
            for step in steps_of(operation) {
                for counted in 0..5 {
                    let mut table = started(4, 1, goal);
                    let at = sizes(&table).record(0);
                    let argument = match operation {
                        // Any tag will do: the goal is the growth.
                        PUSH => 51,
                        POP => 0,
                        _ => u64::from(goal),
                    };
                    begin(&mut table, 0, LANE, operation, 1, argument).expect("begin");
                    table[at + record::STEP] = step;
                    table[at + record::COUNTED] = counted;
                    table[at + record::VALUE] = if step == 48 { LN } else { 1 };
                    let goal = if operation == POP { 0 } else { goal };
                    let holds = match step {
                        54 => counted == 0,
                        31 | 56 | 58 => counted < goal,
                        _ => counted <= goal,
                    };
                    assert_eq!(shape_holds(&table), holds, "{operation} {step} {counted}");
                }
            }
        }
    }
}

#[test]
fn all_others_4_value_read() {
    for side in [0, 1] {
        for step in steps_of(POP) {
            for content in contents() {
                let mut table = started(4, 1, 0);
                let at = sizes(&table).record(0);
                begin(&mut table, 0, LANE, POP, side, 0).expect("begin");
                table[at + record::STEP] = step;
                table[at + record::VALUE..at + record::A].copy_from_slice(&content);
                let holds = match (step, side) {
                    (48, 0) => content == [RN, 0] || content == [RX, 0],
                    (48, _) => content == [LN, 0] || content == [LX, 0],
                    (51, _) => may_be_pushed(content),
                    _ => may_stand(content),
                };
                assert_eq!(shape_holds(&table), holds, "{side} {step} {content:?}");
            }
        }
    }
}

/// The tags of a lane, two of them with one low part and one with none.
const STANDING: [u64; 3] = [61, 2_000_000_061, 3_000_000_000];
/// The tag of a busy push beside them.
const PUSHED: u64 = 4_000_000_051;

/// A table of 8 nodes with these tags in one of its two lanes and none in the other, task 0 in a push on lane 0 and
/// task 1 idle.
fn standing(lane: u32) -> Vec<u32> {
    let mut table = started_lanes(8, 2, 0, 2);
    #[rustfmt::skip]
    table[16..16 + 4 * 8].copy_from_slice(&[
        NONE, 1, LX, 0,
        0, 2, 61, 0,
        1, 3, 61, 2,
        2, 4, 0, 3,
        3, NONE, RX, 0,
        NONE, NONE, 0, 0,
        NONE, 7, LX, 0,
        6, NONE, RX, 0,
    ]);
    for (lane, hats) in [(lane, [0, 4]), (1 - lane, [6, 7])] {
        let at = header::hat(lane, LEFT);
        table[at..at + 2].copy_from_slice(&hats);
    }
    assert_eq!(tags(&table, lane), Ok(STANDING.to_vec()));
    assert_eq!(tags(&table, 1 - lane), Ok(vec![]));
    begin(&mut table, 0, 0, PUSH, 1, PUSHED).expect("begin");
    table
}

/// A link each that leaves a lane without an end: of the lane with the tags the hat's, the last tag's, and two that
/// lead back; of the other lane the hat's.
const UNREADABLE: [(usize, u32); 5] = [
    (16 + 1, NONE),
    (16 + 4 * 3 + 1, NONE),
    (16 + 4 + 1, 1),
    (16 + 4 * 3 + 1, 2),
    (16 + 4 * 6 + 1, NONE),
];

#[test]
fn begin_in_order() {
    for (chosen, first) in subsets(&[3, 4, 26, 5, 6, 7, 11, 16, 8]) {
        // Ways to be refused with 26, with 6, with 11 and with 16, for pushes on the lane of the tags and on the other.
        let bad_calls = [
            (2, 5, 1),
            (3, 0, 1),
            (4, REMOVE, u32::MAX),
            (NONE, PUSH, 2),
            (u32::MAX, u32::MAX, u32::MAX),
        ];
        for (way, (bad_lane, bad_operation, bad_side)) in bad_calls.into_iter().enumerate() {
            for (tags_lane, push_lane) in [(0, 0), (0, 1), (1, 0), (1, 1)] {
                let mut table = standing(tags_lane);
                let (word, link) = UNREADABLE[way];
                if chosen.contains(&11) {
                    table[word] = link;
                }
                if chosen.contains(&4) {
                    table[header::ZEROS[0]] = 1;
                }
                if chosen.contains(&3) {
                    table.push(0);
                }
                let before = table.clone();
                let lane = if chosen.contains(&26) {
                    bad_lane
                } else {
                    push_lane
                };
                let busy = u32::from(!chosen.contains(&8));
                let task = if chosen.contains(&5) { 2 } else { busy };
                let (operation, side) = if chosen.contains(&6) {
                    (bad_operation, bad_side)
                } else {
                    (PUSH, 1)
                };
                // Of those that are nowhere, some share a low part with one that is somewhere.
                let arguments = match (chosen.contains(&7), chosen.contains(&16)) {
                    (true, _) => [0, MAX_TAG + 1, 0, MAX_TAG + 1, 0],
                    (false, true) => {
                        let [one, two, three] = STANDING;
                        [PUSHED, one, two, three, one]
                    }
                    (false, false) => [51, 1_000_000_061, 9_000_000_000, 52, 53],
                };
                let argument = arguments[way];
                let found = begin(&mut table, task, lane, operation, side, argument);
                assert_eq!(found, Err(first), "{chosen:?}");
                assert_eq!(table, before, "{chosen:?}");
            }
        }
    }
    let mut table = faulty(&[]);
    assert_eq!(begin(&mut table, 1, LANE, PUSH, 1, 52), Ok(()));
    assert_eq!(begin(&mut table, 1, LANE, PUSH, 1, 53), Err(8));
}

#[test]
fn begin_and_read_26() {
    for lanes in 1..=4 {
        let good = started_lanes(9, 1, 0, lanes);
        for lane in (0..9).chain([NONE, u32::MAX]) {
            let wanted = if lane < lanes { Ok(()) } else { Err(26) };
            for (operation, argument) in [(PUSH, 51), (POP, 0), (ADD, 1), (REMOVE, 1)] {
                let mut table = good.clone();
                let found = begin(&mut table, 0, lane, operation, 1, argument);
                assert_eq!(found, wanted, "lane {lane} of {lanes}");
                assert_eq!(table == good, found.is_err(), "lane {lane} of {lanes}");
            }
            let found = tags(&good, lane);
            assert_eq!(found, wanted.map(|()| vec![]), "lane {lane} of {lanes}");
        }
    }
}

/// What a push of each tag is refused with on a task, or 0: the same at both sides of every lane.
fn pushes(table: &[u32], task: u32, tags: &[u64]) -> Vec<u32> {
    let ends = (0..table[header::LANES]).flat_map(|lane| [(lane, LEFT), (lane, RIGHT)]);
    let push = |&tag: &u64| {
        let mut given = ends.clone().map(|(lane, side)| {
            let mut lent = table.to_vec();
            let found = begin(&mut lent, task, lane, PUSH, side, tag);
            assert_eq!(found.is_err(), lent == table, "{tag}");
            found.err().unwrap_or(0)
        });
        let first = given.next().expect("a lane");
        assert!(given.all(|number| number == first), "{tag}");
        first
    };
    tags.iter().map(push).collect()
}

#[test]
fn begin_16_in_a_lane() {
    for mut table in [0, 1].map(standing) {
        assert_eq!(pushes(&table, 1, &STANDING), [16, 16, 16]);
        assert_eq!(pushes(&table, 0, &STANDING), [16, 16, 16]);
        assert_eq!(pushes(&table, 1, &[1, 60, 62, MAX_TAG]), [0; 4]);
        // Whole tags are compared, and not their digits or low parts.
        let others = [1_000_000_061, 3_000_000_061, 2_000_000_060, 2_000_000_000];
        assert_eq!(pushes(&table, 1, &others), [0; 4]);
        // A tag in a node outside of it, and one in the left hat's node, are not in it.
        table[16 + 4 * 5 + 2] = 70;
        table[16 + 2] = 71;
        assert_eq!(pushes(&table, 1, &[70, 71, 61]), [0, 0, 16]);
        // V 0 with its digit is in it; without, it ends it.
        table[16 + 4 * 2 + 2] = 0;
        let [first, second, third] = STANDING;
        let known = [first, second, 2_000_000_000, third];
        assert_eq!(pushes(&table, 1, &known), [16, 0, 16, 16]);
        table[16 + 4 * 2 + 3] = 0;
        assert_eq!(pushes(&table, 1, &known), [16, 0, 0, 0]);
    }
}

#[test]
fn begin_16_of_a_busy_push() {
    let tags = [1_000_000_051, 51, 2_000_000_051, 1_000_000_000];
    for step in steps_of(PUSH) {
        for (lane, side) in [(0, LEFT), (0, RIGHT), (1, LEFT), (1, RIGHT)] {
            let mut table = started_lanes(6, 3, 1, 2);
            let at = sizes(&table).record(1);
            begin(&mut table, 1, lane, PUSH, side, tags[0]).expect("begin");
            table[at + record::STEP] = step;
            assert!(shape_holds(&table), "{step}");
            assert_eq!(pushes(&table, 0, &tags), [16, 0, 0, 0], "{step}");
            assert_eq!(pushes(&table, 2, &tags), [16, 0, 0, 0], "{step}");
            // Its own task is busy, which is tested later.
            assert_eq!(pushes(&table, 1, &tags), [16, 8, 8, 8], "{step}");
        }
    }
    // Arguments of adds and removes are no tags, and neither is what a pop has read.
    for (operation, argument) in [(ADD, 51), (REMOVE, 51), (POP, 0)] {
        let mut table = started_lanes(4, 2, 0, 2);
        let at = sizes(&table).record(0);
        begin(&mut table, 0, 1, operation, 1, argument).expect("begin");
        table[at + record::VALUE] = 51;
        assert_eq!(pushes(&table, 1, &[51]), [0], "{operation}");
        assert_eq!(pushes(&table, 0, &[51]), [8], "{operation}");
    }
}

#[test]
fn begin_16_until_the_answer() {
    for (lanes, lane) in [(1, 0), (2, 0), (2, 1)] {
        let mut table = started_lanes(2 * lanes + 1, 2, 0, lanes);
        // Pushed: from the begin to the pop's answer.
        begin(&mut table, 0, lane, PUSH, 1, 51).expect("begin");
        while tick(&mut table, 0, 0) == Ok(Answer::Going) {
            assert_eq!(pushes(&table, 1, &[51]), [16]);
        }
        assert_eq!(tags(&table, lane), Ok(vec![51]));
        begin(&mut table, 0, lane, POP, 0, 0).expect("begin");
        for _ in 0..3 {
            assert_eq!(tick(&mut table, 0, 0), Ok(Answer::Going));
            assert_eq!(pushes(&table, 1, &[51]), [16]);
        }
        assert_eq!(tick(&mut table, 0, 0), Ok(Answer::Bag(51)));
        assert_eq!(pushes(&table, 1, &[51]), [0]);
        // Full: to its answer.
        let mut table = started_lanes(2 * lanes, 2, 0, lanes);
        begin(&mut table, 0, lane, PUSH, 1, 51).expect("begin");
        for _ in 0..3 {
            assert_eq!(tick(&mut table, 0, 0), Ok(Answer::Going));
            assert_eq!(pushes(&table, 1, &[51]), [16]);
        }
        assert_eq!(tick(&mut table, 0, 0), Ok(Answer::Full));
        assert_eq!(pushes(&table, 1, &[51]), [0]);
    }
}

#[test]
fn begin_11_before_16() {
    for ((word, link), lane) in UNREADABLE.into_iter().flat_map(|way| [(way, 0), (way, 1)]) {
        let mut table = standing(lane);
        table[word] = link;
        assert!(shape_holds(&table));
        let found = [0, 1].map(|lane| tags(&table, lane));
        let (ends, no_end): (Vec<_>, Vec<_>) = found.into_iter().partition(Result::is_ok);
        assert_eq!((ends.len(), no_end), (1, vec![Err(11)]));
        // Whether the tag is a busy push's, or met before the fault, or nowhere; on an idle and on a busy task.
        for task in [0, 1] {
            assert_eq!(pushes(&table, task, &STANDING), [11; 3]);
            assert_eq!(pushes(&table, task, &[PUSHED, 51, 52]), [11; 3]);
            assert_eq!(pushes(&table, task, &[0, MAX_TAG + 1]), [7; 2]);
        }
        // The others walk nothing.
        for (operation, argument) in [(POP, 0), (ADD, 1), (REMOVE, 1)] {
            assert_eq!(begin(&mut table, 0, lane, operation, 1, argument), Err(8));
            let mut table = table.clone();
            assert_eq!(begin(&mut table, 1, lane, operation, 1, argument), Ok(()));
        }
    }
}

#[test]
fn begin_writes_its_record_only() {
    for (operation, digit, argument, step) in [
        (PUSH, 0, 51, 2),
        (PUSH, 9, 0, 2),
        (PUSH, 9, 999_999_999, 2),
        (POP, 0, 0, 39),
        (ADD, 0, 64, 28),
        (REMOVE, 0, 1023, 54),
    ] {
        for (lane, side) in (0..4).flat_map(|lane| [(lane, LEFT), (lane, RIGHT)]) {
            let mut table = started_lanes(8, 3, 2, 4);
            let mut wanted = table.clone();
            let at = sizes(&table).record(1);
            wanted[at..at + 5].copy_from_slice(&[operation, step, side, argument, digit]);
            wanted[at + 12] = lane;
            let found = reference::begin(&mut table, 1, lane, operation, side, digit, argument);
            assert_eq!(found, Ok(()));
            assert_eq!(table, wanted);
        }
    }
}

#[test]
fn tick_in_order() {
    for (chosen, first) in subsets(&[3, 4, 5, 9, 10, 11]) {
        let mut table = faulty(&chosen);
        if chosen.contains(&10) {
            let at = 16 + 4 * 4;
            table[at..at + record::WORDS].copy_from_slice(&record::FRESH);
        } else if !chosen.contains(&11) {
            table[16 + 4 * 4 + record::A] = 1;
        }
        let before = table.clone();
        let task = if chosen.contains(&5) { 2 } else { 0 };
        let hint = if chosen.contains(&9) { 4 } else { 3 };
        assert_eq!(tick(&mut table, task, hint), Err(first), "{chosen:?}");
        assert_eq!(table, before, "{chosen:?}");
    }
    let mut table = faulty(&[]);
    assert_eq!(tick(&mut table, u32::MAX, u32::MAX), Err(5));
    assert_eq!(tick(&mut table, 1, u32::MAX), Err(9));
}

/// The registers each step goes through, or moves a hat to.
const NEEDED: [(u32, u32, &[usize]); 47] = {
    use record::{A, B, C, D};
    [
        (PUSH, 2, &[]),
        (PUSH, 3, &[A]),
        (PUSH, 5, &[A, B]),
        (PUSH, 8, &[A]),
        (PUSH, 67, &[]),
        (PUSH, 68, &[A]),
        (PUSH, 69, &[A]),
        (PUSH, 70, &[B]),
        (PUSH, 72, &[C]),
        (PUSH, 28, &[]),
        (PUSH, 31, &[D]),
        (PUSH, 15, &[]),
        (PUSH, 17, &[A]),
        (PUSH, 18, &[A]),
        (PUSH, 24, &[A, D]),
        (PUSH, 25, &[A]),
        (ADD, 67, &[]),
        (ADD, 68, &[A]),
        (ADD, 69, &[A]),
        (ADD, 70, &[B]),
        (ADD, 72, &[C]),
        (ADD, 28, &[]),
        (ADD, 31, &[D]),
        (ADD, 15, &[]),
        (ADD, 17, &[A]),
        (ADD, 18, &[A]),
        (ADD, 24, &[A, D]),
        (ADD, 25, &[A]),
        (POP, 39, &[]),
        (POP, 40, &[A]),
        (POP, 42, &[B]),
        (POP, 48, &[B]),
        (POP, 51, &[B]),
        (REMOVE, 54, &[]),
        (REMOVE, 56, &[A]),
        (REMOVE, 58, &[A]),
        (REMOVE, 60, &[A]),
        (REMOVE, 62, &[A, B]),
        (REMOVE, 64, &[A]),
        (REMOVE, 74, &[B]),
        (REMOVE, 77, &[B]),
        (REMOVE, 78, &[B]),
        (REMOVE, 79, &[A]),
        (REMOVE, 81, &[A]),
        (REMOVE, 82, &[A]),
        // Once more with no free node: the test precedes the search.
        (PUSH, 31, &[D]),
        (ADD, 31, &[D]),
    ]
};

#[test]
fn tick_11_at_every_step() {
    for (row, (operation, step, needed)) in NEEDED.into_iter().enumerate() {
        let nodes = if row < 45 { 6 } else { 2 };
        for side in [0, 1] {
            for nones in 0..16 {
                let mut table = started(nodes, 1, 1);
                let at = sizes(&table).record(0);
                let argument = if operation == POP { 0 } else { 1 };
                begin(&mut table, 0, LANE, operation, side, argument).expect("begin");
                table[at + record::STEP] = step;
                table[at + record::VALUE] = match (step, side) {
                    (48, 0) => RX,
                    (48, _) => LX,
                    _ => 1,
                };
                for register in 0..4 {
                    if nones >> register & 1 == 0 {
                        table[at + record::A + register] = 1;
                    }
                }
                let before = table.clone();
                let found = tick(&mut table, 0, 0);
                if needed.iter().any(|&register| before[at + register] == NONE) {
                    assert_eq!(found, Err(11), "step {step}, {nones:04b}");
                    assert_eq!(table, before, "step {step}, {nones:04b}");
                } else {
                    assert!(found.is_ok(), "step {step}, {nones:04b}");
                    assert!(shape_holds(&table), "step {step}, {nones:04b}");
                }
            }
        }
    }
}

#[test]
fn steps_of_the_register_table_are_all_steps() {
    for operation in [PUSH, POP, ADD, REMOVE] {
        for step in steps_of(operation) {
            let found = NEEDED.iter().any(|row| (row.0, row.1) == (operation, step));
            assert!(found, "{operation} {step}");
        }
    }
}

#[test]
fn read_in_order() {
    for (chosen, first) in subsets(&[3, 4, 26, 11, 12]) {
        let mut table = faulty(&chosen);
        // Two tags, then the right sentinel or a way back.
        let last = if chosen.contains(&11) { 1 } else { 3 };
        table[16 + 4..16 + 4 * 4].copy_from_slice(&[0, 2, 51, 0, 1, last, 0, 9, 2, NONE, RX, 0]);
        table[header::hat(LANE, RIGHT)] = 3;
        let lane = if chosen.contains(&26) { 1 } else { LANE };
        let length = if chosen.contains(&12) { 3 } else { 4 };
        let mut out = vec![6; length];
        assert_eq!(read(&table, lane, &mut out), Err(first), "{chosen:?}");
        assert_eq!(out, vec![6; length], "{chosen:?}");
    }
}

#[test]
fn read_11_and_12() {
    let mut table = started(4, 1, 0);
    let mut read_nodes = |nodes: [[u32; 4]; 4], out: &mut [u32]| {
        table[16..16 + 16].copy_from_slice(nodes.as_flattened());
        read(&table, LANE, out)
    };
    let (hat, end) = ([NONE, 1, LX, 0], [2, NONE, RX, 0]);
    let (one, two, three) = ([0, 2, 51, 0], [1, 3, 0, 9], [2, 0, 53, 1]);
    for nodes in [
        // The hat has no link.
        [[NONE, NONE, LX, 0], one, two, end],
        // The chain breaks off after a tag.
        [hat, one, [1, NONE, 0, 9], end],
        // A ring of all nodes, and one node on its own.
        [[3, 1, 50, 0], one, two, three],
        [[0, 0, 50, 0], one, two, three],
    ] {
        assert_eq!(read_nodes(nodes, &mut [0; 9]), Err(11), "{nodes:?}");
    }
    // A tag in the left hat's node is not in the deque; a node never used ends it like a mark.
    let nodes = [[NONE, 1, 50, 0], one, two, [2, 0, 0, 0]];
    let mut out = [6; 5];
    for short in 0..4 {
        assert_eq!(read_nodes(nodes, &mut out[..short]), Err(12));
    }
    assert_eq!(out, [6; 5]);
    assert_eq!(read_nodes(nodes, &mut out[..4]), Ok(2));
    assert_eq!(out, [0, 51, 9, 0, 6]);
    assert_eq!(read_nodes(nodes, &mut out), Ok(2));
    assert_eq!(out, [0, 51, 9, 0, 6]);
    // S - 1 tags is the most there can be.
    let mut out = [6; 6];
    let found = read_nodes([[NONE, 1, LN, 0], one, two, three], &mut out);
    assert_eq!(found, Ok(3));
    assert_eq!(out, [0, 51, 9, 0, 1, 53]);
}

#[test]
fn run_in_order() {
    for (chosen, first) in subsets(&[3, 4, 13, 14]) {
        for odd in [true, false] {
            let mut table = faulty(&chosen);
            table[16 + 4 * 4 + record::A] = 1;
            let before = table.clone();
            let length = match (chosen.contains(&13), odd) {
                (true, true) => 3,
                (true, false) => 8194,
                (false, _) => 4,
            };
            let list = vec![0; length];
            let room = 3 * (length / 2) - usize::from(chosen.contains(&14));
            let mut answers = vec![6; room];
            let found = run(&mut table, &list, &mut answers);
            assert_eq!(found, (first, 0), "{chosen:?}");
            assert_eq!(table, before, "{chosen:?}");
            assert_eq!(answers, vec![6; room], "{chosen:?}");
        }
    }
}

#[test]
fn panel_in_order() {
    for (chosen, first) in subsets(&[3, 4, 13, 15, 14]) {
        for odd in [true, false] {
            let mut table = faulty(&chosen);
            table[16 + 4 * 4 + record::A] = 1;
            let before = table.clone();
            let length = match (chosen.contains(&13), chosen.contains(&15), odd) {
                (true, true, true) => 65,
                (true, false, true) => 3,
                (true, _, false) => 8194,
                (false, true, _) => 66,
                (false, false, _) => 64,
            };
            let list = vec![0; length];
            let room = match (chosen.contains(&14), odd) {
                (true, true) => 0,
                (true, false) => 3 * (length / 2) - 1,
                (false, _) => 3 * (length / 2),
            };
            let mut answers = vec![6; room];
            let found = panel(&mut table, &list, &mut answers);
            assert_eq!(found, (first, 0), "{chosen:?}");
            assert_eq!(table, before, "{chosen:?}");
            assert_eq!(answers, vec![6; room], "{chosen:?}");
        }
    }
}

/// Up to 32 ticks a panel's schedule is a run, whether it is refused or not.
#[test]
fn panel_runs_short_schedules() {
    for length in [0, 1, 2, 3, 62, 63, 64] {
        let exact: usize = 3 * (length / 2);
        for room in [0, 1, exact.saturating_sub(1), exact, exact + 2] {
            let mut table = started(4, 1, 0);
            begin(&mut table, 0, LANE, POP, 1, 0).expect("begin");
            // Without a way inward the pop goes round for ever.
            table[16 + 4] = NONE;
            let mut other = table.clone();
            let list = vec![0; length];
            let mut answers = vec![6; room];
            let mut others = answers.clone();
            let found = panel(&mut table, &list, &mut answers);
            assert_eq!(found, run(&mut other, &list, &mut others));
            assert_eq!((table, answers), (other, others));
            if length == 64 && room >= exact {
                assert_eq!(found, (0, 32));
            }
        }
    }
}

#[test]
fn run_stops_at_the_first_refused_tick() {
    for (pair, number) in [([2, 9], 5), ([1, 4], 9), ([1, 0], 10)] {
        let mut table = started(4, 2, 0);
        begin(&mut table, 0, LANE, PUSH, 1, 51).expect("begin");
        let mut wanted = table.clone();
        for _ in 0..2 {
            assert_eq!(tick(&mut wanted, 0, 0), Ok(Answer::Going));
        }
        let list = [0, 0, 0, 0, pair[0], pair[1], 0, 0];
        let mut answers = [6; 13];
        assert_eq!(run(&mut table, &list, &mut answers), (number, 2));
        assert_eq!(table, wanted);
        assert_eq!(answers, [0, 0, 0, 0, 0, 0, 6, 6, 6, 6, 6, 6, 6]);
    }
    // A register that is none, met in the third tick.
    let mut table = started(4, 1, 0);
    begin(&mut table, 0, LANE, ADD, 1, 0).expect("begin");
    let at = sizes(&table).record(0);
    table[at + record::STEP] = 15;
    let mut wanted = table.clone();
    for _ in 0..2 {
        assert_eq!(tick(&mut wanted, 0, 0), Ok(Answer::Going));
    }
    let mut answers = [6; 12];
    assert_eq!(run(&mut table, &[0; 8], &mut answers), (11, 2));
    assert_eq!(table, wanted);
    assert_eq!(answers, [0, 0, 0, 0, 0, 0, 6, 6, 6, 6, 6, 6]);
}

#[test]
fn run_takes_the_longest_schedule() {
    let mut table = started(4, 1, 0);
    begin(&mut table, 0, LANE, POP, 1, 0).expect("begin");
    // Without a way inward the pop goes round for ever.
    table[16 + 4] = NONE;
    table[header::TICKS] = u32::MAX - 95;
    let mut answers = vec![6; 3 * 4096];
    assert_eq!(run(&mut table, &vec![0; 8192], &mut answers), (0, 4096));
    assert!(answers.iter().all(|&word| word == 0));
    // The tick count went round to 0 on the way.
    assert_eq!(table[header::TICKS], 4000);
}

#[test]
fn run_writes_the_number_of_each_answer() {
    let words = |answer: Answer| answer.words();
    assert_eq!(words(Answer::Going), [0, 0, 0]);
    assert_eq!(words(Answer::Pushed), [1, 0, 0]);
    assert_eq!(words(Answer::Bag(51)), [2, 0, 51]);
    assert_eq!(words(Answer::Bag(9_000_000_000)), [2, 9, 0]);
    assert_eq!(words(Answer::Bag(9_999_999_999)), [2, 9, 999_999_999]);
    assert_eq!(words(Answer::Empty), [3, 0, 0]);
    assert_eq!(words(Answer::Full), [4, 0, 0]);
    assert_eq!(words(Answer::Yes), [5, 0, 0]);
    assert_eq!(words(Answer::No), [6, 0, 0]);

    let mut table = started(4, 2, 0);
    begin(&mut table, 0, LANE, PUSH, 1, 7_000_000_051).expect("begin");
    begin(&mut table, 1, LANE, POP, 0, 0).expect("begin");
    let list: Vec<u32> = [0; 11]
        .iter()
        .chain(&[1; 4])
        .flat_map(|&task| [task, 0])
        .collect();
    let mut answers = [6; 45];
    assert_eq!(run(&mut table, &list, &mut answers), (0, 15));
    let mut wanted = [0; 45];
    wanted[30] = 1;
    wanted[42..].copy_from_slice(&[2, 7, 51]);
    assert_eq!(answers, wanted);
}
