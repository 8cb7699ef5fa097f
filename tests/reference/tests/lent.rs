//! Request 2026-14: begin over a lent record is begin with the record in its task's place; every refusal in its order.

mod common;

use common::calls::{begin, tags, to_answer};
use common::random::Random;
use common::records::{any, begun, copied, place, words, Record};
use common::row::Note;
use common::tables::{shaped, sizes, started, started_lanes};
use reference::table::record::{self, FRESH};
use reference::table::{
    content, header, is_tag, node, Sizes, ADD, LEFT, MAX_TAG, NONE, POP, PUSH, REMOVE, RIGHT,
};
use reference::{begin_record, Answer};

/// Begins over a lent record; what it gives, and the record then.
fn lent(record: &Record, table: &[u32], task: u32, note: Note) -> (u32, Record) {
    let Note {
        lane,
        operation,
        side,
        digit,
        argument,
    } = note;
    let mut record = *record;
    let given = begin_record(
        &mut record,
        table,
        task,
        lane,
        operation,
        side,
        digit,
        argument,
    );
    (given, record)
}

/// The same held against a begin with the record in its place.
fn compared(record: &Record, table: &[u32], task: u32, note: Note) -> u32 {
    let found = lent(record, table, task, note);
    assert_eq!(
        found,
        begun(record, table, task, note),
        "task {task}, {note:?}, {record:?} over {table:?}"
    );
    found.0
}

#[test]
fn the_record_is_the_one_begin_writes() {
    let table = started_lanes(8, 3, 5, 2);
    for (operation, argument) in [(PUSH, MAX_TAG), (POP, 0), (ADD, 64), (REMOVE, 1023)] {
        for (task, lane, side) in [(0, 0, LEFT), (1, 1, RIGHT), (2, 1, LEFT)] {
            let mut by_begin = table.clone();
            begin(&mut by_begin, task, lane, operation, side, argument).expect("begin");
            let note = Note::new(lane, operation, side, argument);
            let (given, record) = lent(&FRESH, &table, task, note);
            assert_eq!(given, 0);
            assert_eq!(record, words(&by_begin, task));
            // The panel copies the words itself.
            assert_eq!(copied(&table, task, &record), by_begin);
        }
    }
    let note = Note::new(1, PUSH, RIGHT, 9_000_000_051);
    let (given, record) = lent(&FRESH, &table, 2, note);
    let fresh = [NONE; 4];
    assert_eq!(given, 0);
    assert_eq!(record[..8], [PUSH, 2, RIGHT, 51, 9, 0, 0, 0]);
    assert_eq!((&record[8..12], record[12]), (&fresh[..], 1));
}

/// Any table of good shape, any record, the task's words in the table damaged or not, with any numbers.
#[test]
fn begin_with_the_record_in_its_place() {
    let mut random = Random::new(14);
    let mut numbers = [0; 27];
    let mut damaged_place = 0;
    for _ in 0..100_000 {
        let mut table = shaped(&mut random);
        let Sizes { tasks, lanes, .. } = sizes(&table);
        let task = random.below(tasks + 1);
        let record = any(&mut random, &table, task);
        let lane = random.below(lanes + 1);
        let note = note(&mut random, &table, &record, lane);
        let over_damage = task < tasks && random.once_in(3);
        if over_damage {
            let at = sizes(&table).record(task);
            let field = random.below(record::WORDS as u32) as usize;
            table[at + field] = random.word();
        } else if random.once_in(8) {
            let at = random.below(table.len() as u32) as usize;
            table[at] = random.word();
        } else if random.once_in(20) {
            table.truncate(random.below(table.len() as u32) as usize);
        }
        let given = compared(&record, &table, task, note);
        numbers[given as usize] += 1;
        let task_refused = begin_given(&table, task, note) == 4;
        damaged_place += u32::from(over_damage && given == 0 && task_refused);
    }
    for number in [0, 3, 4, 26, 5, 6, 7, 11, 16, 8] {
        assert!(numbers[number] > 300, "{number}: {}", numbers[number]);
    }
    assert!(damaged_place > 300, "{damaged_place}");
}

/// What begin gives of the table as it is.
fn begin_given(table: &[u32], task: u32, note: Note) -> u32 {
    match place(table, task) {
        Some(_) => begun(&words(table, task), table, task, note).0,
        None => begun(&FRESH, table, task, note).0,
    }
}

/// A call with any numbers, or a push of a tag that stands in a slot, is some task's or the record's, or is new.
fn note(random: &mut Random, table: &[u32], record: &Record, lane: u32) -> Note {
    let sizes = sizes(table);
    let side = random.below(2);
    let standing = content(table, sizes.node(random.below(sizes.nodes)) + node::VALUE);
    let task = words(table, random.below(sizes.tasks));
    let [argument, digit] = match random.below(4) {
        0 if is_tag(standing) => standing,
        1 => content(&task, record::ARGUMENT),
        2 => content(record, record::ARGUMENT),
        _ => [1 + random.below(999_999_998), random.below(10)],
    };
    match random.below(6) {
        0 => Note {
            lane,
            operation: random.below(6),
            side: random.below(3),
            digit: random.digit(),
            argument: random.word(),
        },
        1 => Note::new(lane, random.pick(&[POP, ADD, REMOVE]), side, 0),
        _ => Note {
            lane,
            operation: PUSH,
            side,
            digit,
            argument,
        },
    }
}

#[test]
fn refusals_in_order() {
    let order = [3, 4, 26, 5, 6, 7, 11, 16, 8];
    for faults in 0..1 << order.len() {
        let has = |number: u32| {
            let bit = order.iter().position(|&other| other == number);
            faults >> bit.expect("one of them") & 1 == 1
        };
        let mut table = started_lanes(6, 2, 0, 2);
        let sizes = sizes(&table);
        let mut record = FRESH;
        if has(16) {
            begin(&mut table, 0, 0, PUSH, RIGHT, 51).expect("begin");
        }
        if has(8) {
            record = lent(&FRESH, &table, 1, Note::new(0, POP, LEFT, 0)).1;
        }
        if has(11) {
            let left = table[header::hat(1, LEFT)];
            table[sizes.node(left) + node::RIGHT] = NONE;
        }
        if has(4) {
            record[record::LANE] = 2;
        }
        if has(3) {
            table.push(0);
        }
        // A tag out of range is not one that a busy push can have: 7 hides 16.
        let note = Note {
            lane: if has(26) { 2 } else { 0 },
            operation: PUSH,
            side: if has(6) { 2 } else { 0 },
            digit: if has(7) { 10 } else { 0 },
            argument: 51,
        };
        let task = if has(5) { 2 } else { 1 };
        // Without a place the record is not looked at.
        let looked_at = |number: u32| number != 4 || !has(5);
        let wanted = order
            .into_iter()
            .find(|&number| has(number) && looked_at(number));
        let (given, after) = lent(&record, &table, task, note);
        assert_eq!(given, wanted.unwrap_or(0), "{faults:b}");
        assert_eq!(after == record, given != 0);
        compared(&record, &table, task, note);
    }
}

#[test]
fn a_task_with_no_place() {
    let mut random = Random::new(15);
    let table = started_lanes(6, 2, 0, 2);
    let mut broken = table.clone();
    broken[sizes(&table).record(1)] = 7;
    let push = Note::new(0, PUSH, RIGHT, 51);
    for task in [2, 3, 15, 16, 17, 65_535, u32::MAX] {
        for _ in 0..50 {
            let record = any(&mut random, &table, task);
            assert_eq!(compared(&record, &table, task, push), 5);
            let no_lane = Note { lane: 2, ..push };
            assert_eq!(compared(&record, &table, task, no_lane), 26);
            assert_eq!(compared(&record, &broken, task, no_lane), 4);
            assert_eq!(compared(&record, &table[1..], task, no_lane), 3);
        }
    }
}

/// The other tasks' words and the record say what is on its way, not the task's own in the table.
#[test]
fn a_tag_on_its_way() {
    let mut table = started(6, 2, 0);
    begin(&mut table, 0, 0, PUSH, RIGHT, 51).expect("begin");
    let push = Note::new(0, PUSH, LEFT, 51);
    let own = words(&table, 0);
    // Task 0 itself, lent fresh, and as it stands; the other task.
    assert_eq!(compared(&FRESH, &table, 0, push), 0);
    assert_eq!(compared(&own, &table, 0, push), 16);
    assert_eq!(compared(&FRESH, &table, 1, push), 16);
    assert_eq!(compared(&own, &table, 1, push), 16);
    // Busy with another tag, or without one.
    let other = lent(&FRESH, &table, 1, Note::new(0, PUSH, LEFT, 52)).1;
    let pop = lent(&FRESH, &table, 1, Note::new(0, POP, LEFT, 0)).1;
    for record in [other, pop] {
        assert_eq!(compared(&record, &table, 0, push), 8);
        assert_eq!(compared(&record, &table, 1, push), 16);
    }
    // With a digit more it is another tag.
    let digit = Note::new(0, PUSH, LEFT, 1_000_000_051);
    assert_eq!(compared(&FRESH, &table, 1, digit), 0);
}

/// Every word of the task's place may be anything; every word of the record is tested.
#[test]
fn the_record_stands_for_the_words() {
    let table = started(6, 2, 0);
    let push = Note::new(0, PUSH, LEFT, 51);
    for task in [0, 1] {
        let at = sizes(&table).record(task);
        for field in 0..record::WORDS {
            for word in [1, 2, 6, 10, NONE + 1, u32::MAX] {
                let mut broken = table.clone();
                broken[at + field] = word;
                assert_eq!(compared(&FRESH, &broken, task, push), 0);
                assert_eq!(compared(&FRESH, &broken, 1 - task, push), 4);
                let mut record = FRESH;
                record[field] = word;
                assert_eq!(compared(&record, &table, task, push), 4);
            }
        }
    }
}

/// A record that was begun and copied answers as one begun in the table.
#[test]
fn begun_copied_and_ticked() {
    let mut table = started(8, 2, 1);
    for (task, side, tag) in [(0, RIGHT, 51), (1, LEFT, 52), (1, RIGHT, 53)] {
        let record = words(&table, task);
        let (given, record) = lent(&record, &table, task, Note::new(0, PUSH, side, tag));
        assert_eq!(given, 0);
        table = copied(&table, task, &record);
        assert_eq!(to_answer(&mut table, task), Answer::Pushed);
    }
    assert_eq!(tags(&table, 0), Ok(vec![52, 51, 53]));
    let (given, _) = lent(&FRESH, &table, 0, Note::new(0, PUSH, LEFT, 51));
    assert_eq!(given, 16);
}
