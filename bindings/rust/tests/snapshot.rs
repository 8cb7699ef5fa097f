//! Snapshots by the wrapper: owned and lent words, what comes back with one, sizes that change, and every refusal.

use lane::{words, Answer, Dispatched, Lane, Lanes, Operation, Refusal, Side, Snapshot, Tag};

const SLOTS: u32 = 8;
const TASKS: u32 = 3;
const WORDS: usize = words(SLOTS, TASKS);

/// A bag in lane 0, a push in the middle on lane 1, a pop on lane 0, and an idle task.
fn with_calls() -> Lanes<[u32; WORDS]> {
    let mut lanes = Lanes::start([7; WORDS], SLOTS, TASKS, 1, 2).expect("the sizes fit");
    let pushed = lanes.call(0, 0, Operation::Push(Tag::MIN), Side::Right);
    assert_eq!(pushed, Ok(Answer::Pushed));
    for (task, lane, operation) in [(0, 1, Operation::Push(Tag::MAX)), (2, 0, Operation::Pop)] {
        let begun = lanes.begin(task, lane, operation, Side::Right);
        begun.expect("an idle task");
    }
    assert_eq!(lanes.dispatch(0), Ok(Dispatched::Ticked(Answer::Going)));
    lanes
}

fn taken(lanes: &Lanes<[u32; WORDS]>) -> Snapshot<[u32; WORDS]> {
    let mut snapshot = Snapshot::over([7; WORDS]);
    lanes.take(&mut snapshot).expect("a table of this length");
    snapshot
}

/// Every answer up to idle, with its task and the tick count.
fn drained(lanes: &mut Lanes<[u32; WORDS]>) -> Vec<(u32, Answer, u32)> {
    let mut answers = Vec::new();
    while let Dispatched::Ticked(answer) = lanes.dispatches(0, u32::MAX).expect("a hint below S") {
        let (task, ticks) = (lanes.dispatched(), lanes.tick_count());
        answers.push((task.expect("a table"), answer, ticks.expect("a table")));
    }
    answers
}

#[test]
fn the_words_are_the_same_by_columns() {
    let lanes = with_calls();
    let snapshot = taken(&lanes);
    let (table, columns, slots) = (lanes.words(), snapshot.words(), SLOTS as usize);
    assert_eq!(columns[..16], table[..16]);
    for (column, words) in columns[16..].chunks(slots).take(4).enumerate() {
        for (slot, &word) in words.iter().enumerate() {
            assert_eq!(word, table[16 + 4 * slot + column], "{column}, {slot}");
        }
    }
    assert_eq!(columns[16 + 4 * slots..], table[16 + 4 * slots..]);
    assert_eq!(lanes, with_calls(), "a take writes no word of the table");
}

#[test]
fn what_is_put_back_goes_on_as_before() {
    let mut lanes = with_calls();
    let snapshot = taken(&lanes);
    let answers = drained(&mut lanes);
    assert_eq!(answers.len(), 2);
    assert!(lanes.bags(1).expect("lane 1").eq([Tag::MAX]));
    for _ in 0..2 {
        lanes.put(&snapshot).expect("as it was taken");
        assert_eq!(lanes, with_calls());
        assert_eq!(taken(&lanes), snapshot);
        let again = lanes.begin(1, 0, Operation::Push(Tag::MAX), Side::Left);
        assert_eq!(
            again,
            Err(Refusal::Twice),
            "the push is in the middle again"
        );
        assert_eq!(drained(&mut lanes), answers);
    }
}

#[test]
fn a_start_does_not_spoil_an_older_one() {
    let mut table = with_calls().into_words();
    let snapshot = taken(&Lanes::over(table));
    Lanes::start(&mut table[..], SLOTS, TASKS, 0, 1).expect("the sizes fit");
    let mut lanes = Lanes::over(table);
    assert_eq!(lanes.lanes(), Ok(1));
    lanes.put(&snapshot).expect("as it was taken");
    assert_eq!(lanes, with_calls());
}

#[test]
fn words_owned_and_lent() {
    let lanes = with_calls();
    let mut owned = Snapshot::over(vec![0; WORDS]);
    lanes.take(&mut owned).expect("a table of this length");
    let mut words = [0; WORDS];
    let mut lent = Snapshot::over(&mut words[..]);
    lanes.take(&mut lent).expect("a table of this length");
    assert_eq!(owned.words(), lent.words());
    let mut table = vec![7; WORDS];
    let mut other = Lanes::over(&mut table[..]);
    other.put(&Snapshot::over(&words[..])).expect("as taken");
    assert_eq!(table, lanes.words());
    assert_eq!(owned.into_words(), words);
}

#[test]
fn slots_tasks_and_lanes_are_the_snapshot_s() {
    // 13 slots for 4 tasks.
    const LENGTH: usize = words(2, 5);
    let few = Lane::start([0; LENGTH], 2, 5, 0).expect("the sizes fit");
    let mut many = Lanes::start([0; LENGTH], 15, 1, 3, 4).expect("the sizes fit");
    let mut snapshot = Snapshot::over([0; LENGTH]);
    few.take(&mut snapshot).expect("a table of this length");
    many.put(&snapshot).expect("as it was taken");
    assert_eq!(
        [many.slots(), many.tasks(), many.lanes()],
        [Ok(2), Ok(5), Ok(1)]
    );
    assert_eq!(many.words(), few.words());
}

#[test]
fn refusals_in_order_and_no_word_written() {
    let lanes = with_calls();
    let good = taken(&lanes).into_words();
    let mut broken = good;
    broken[16] = SLOTS;
    let mut no_table = broken;
    no_table[0] += 1;
    for (words, refusal) in [(broken, Refusal::Shape), (no_table, Refusal::Table)] {
        let mut table = lanes.clone();
        let cut = table.put(&Snapshot::over(&words[1..]));
        assert_eq!(cut, Err(Refusal::Snapshot));
        assert_eq!(table.put(&Snapshot::over(words)), Err(refusal));
        assert_eq!(table, lanes);

        // The header and the first link stand at the same places in a table.
        let mut table = lanes.words().to_vec();
        table[..17].copy_from_slice(&words[..17]);
        let table = Lanes::over(table);
        let mut short = Snapshot::over([7; WORDS - 1]);
        assert_eq!(table.take(&mut short), Err(Refusal::Snapshot));
        assert_eq!(short.words(), [7; WORDS - 1]);
        let mut snapshot = Snapshot::over([7; WORDS]);
        assert_eq!(table.take(&mut snapshot), Err(refusal));
        assert_eq!(snapshot.words(), [7; WORDS]);
    }
    let mut none = Lanes::over([]);
    assert_eq!(none.take(&mut Snapshot::over([])), Err(Refusal::Table));
    assert_eq!(none.put(&Snapshot::over([])), Err(Refusal::Table));
    assert_eq!(none.put(&Snapshot::over(good)), Err(Refusal::Snapshot));
}
