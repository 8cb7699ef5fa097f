//! A begin over a lent record by the wrapper: what begin writes, in the record alone, and in the table when it is copied.

use lane::{place, words, Answer, Lanes, Operation, Record, Refusal, Side, Snapshot, Tag};

const OPERATIONS: [Operation; 4] = [
    Operation::Push(Tag::MAX),
    Operation::Pop,
    Operation::Add(64),
    Operation::Remove(1023),
];

type Table = Lanes<Vec<u32>>;

fn started() -> Table {
    Lanes::start(vec![7; words(8, 2)], 8, 2, 0, 2).expect("the sizes fit")
}

#[test]
fn copied_it_is_a_begin() {
    for operation in OPERATIONS {
        for (task, lane, side) in [(0, 0, Side::Left), (1, 1, Side::Right), (0, 1, Side::Left)] {
            let mut begun = started();
            begun.begin(task, lane, operation, side).expect("idle");
            let (mut table, mut record) = (started(), Record::FRESH);
            let lent = table.begin_record(&mut record, task, lane, operation, side);
            drop(lent.expect("fresh"));
            assert_eq!(table, started());
            assert_eq!(begun.record(task), Ok(record));

            record = Record::FRESH;
            let lent = table.begin_record(&mut record, task, lane, operation, side);
            lent.expect("fresh").copy();
            assert_eq!(table, begun);
            assert_eq!(table.is_busy(task), Ok(true));
        }
    }
}

#[test]
fn a_refusal_leaves_the_record() {
    let mut table = started();
    table
        .begin(0, 1, Operation::Push(Tag::MAX), Side::Left)
        .expect("idle");
    let busy = table.record(0).expect("a task");
    let mut broken = Record::FRESH.words();
    broken[place::LANE] = 1;
    let broken = Record::from_words(broken);
    let push = Operation::Push(Tag::MAX);
    for (record, task, lane, operation, refusal) in [
        (broken, 1, 0, push, Refusal::Shape),
        (broken, 2, 2, push, Refusal::Lane), // without a place it is not looked at
        (broken, 2, 1, push, Refusal::Task),
        (busy, 1, 0, Operation::Add(65), Refusal::Argument),
        (busy, 1, 0, push, Refusal::Twice),
        (Record::FRESH, 1, 0, push, Refusal::Twice),
        (busy, 0, 0, Operation::Push(Tag::MIN), Refusal::Busy),
        (busy, 1, 0, Operation::Pop, Refusal::Busy),
    ] {
        let (mut lent, before) = (record, table.clone());
        let given = table.begin_record(&mut lent, task, lane, operation, Side::Right);
        assert_eq!(given.map(drop), Err(refusal));
        assert_eq!((lent, &table), (record, &before));
    }
    let mut record = Record::FRESH;
    let mut short = Lanes::over([0; 36]);
    let given = short.begin_record(&mut record, 0, 0, Operation::Pop, Side::Left);
    assert_eq!(given.map(drop), Err(Refusal::Table));
}

/// The words in the place of the task have no say; the record stands for them, and mends them when it is copied.
#[test]
fn the_record_stands_for_the_words() {
    for word in place::record(8, 1)..words(8, 2) {
        let mut broken = started().into_words();
        broken[word] = 70_000;
        let mut table = Lanes::over(broken);
        assert_eq!(table.record(1), Err(Refusal::Shape));
        let mut record = Record::FRESH;
        let refused = table.begin_record(&mut record, 0, 0, Operation::Pop, Side::Left);
        assert_eq!(refused.map(drop), Err(Refusal::Shape));
        let begun = table.begin_record(&mut record, 1, 0, Operation::Push(Tag::MIN), Side::Left);
        begun.expect("fresh").copy();
        assert_eq!(table.record(1), Ok(record));
        assert_eq!(table.ticks(1, 0, u32::MAX), Ok(Answer::Pushed));
        let stale = table.begin_record(&mut record, 1, 0, Operation::Pop, Side::Left);
        assert_eq!(stale.map(drop), Err(Refusal::Busy));
    }
}

/// What is told not to be done: a copy over a remove that has made its cut; and the way back.
#[test]
fn a_copy_over_a_remove_can_lose_slots() {
    let mut table = Lanes::start([0; words(4, 1)], 4, 1, 0, 1).expect("the sizes fit");
    assert_eq!(
        table.call(0, 0, Operation::Add(1), Side::Left),
        Ok(Answer::Yes)
    );
    let mut snapshot = Snapshot::over([0; words(4, 1)]);
    table.take(&mut snapshot).expect("a table");
    table
        .begin(0, 0, Operation::Remove(0), Side::Left)
        .expect("idle");
    while table.step(0) != Ok(64) {
        assert_eq!(table.tick(0, 0), Ok(Answer::Going));
    }
    let mut record = Record::FRESH;
    let begun = table.begin_record(&mut record, 0, 0, Operation::Add(0), Side::Left);
    begun.expect("fresh").copy();
    assert_eq!(table.ticks(0, 0, u32::MAX), Ok(Answer::No));
    for side in [Side::Left, Side::Right] {
        assert_eq!(table.make_room(0, 0, Tag::MIN, side), Ok(Answer::Full));
    }
    table.put(&snapshot).expect("as it was taken");
    assert_eq!(
        table.make_room(0, 0, Tag::MIN, Side::Right),
        Ok(Answer::Pushed)
    );
}
