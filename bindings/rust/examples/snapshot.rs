//! A snapshot taken in the middle of two calls: what comes after it, put back, and the same again; then by columns:
//! `cargo run --example snapshot`.

use lane::{Answer, Dispatched, Lane, Operation, Refusal, Side, Snapshot, Tag};

const SLOTS: u32 = 6;
const TASKS: u32 = 2;
const GROWTH: u32 = 0;
const WORDS: usize = lane::words(SLOTS, TASKS);

type Table = Lane<[u32; WORDS]>;
type Kept = Snapshot<[u32; WORDS]>;

fn main() -> Result<(), Refusal> {
    let mut lane = Lane::start([0; WORDS], SLOTS, TASKS, GROWTH)?;
    for tag in [51, 52] {
        let pushed = lane.call(0, Operation::Push(known(tag)), Side::Right)?;
        assert_eq!(pushed, Answer::Pushed);
    }
    lane.begin(0, Operation::Push(known(53)), Side::Right)?;
    lane.begin(1, Operation::Pop, Side::Left)?;
    assert_eq!(lane.ticks(0, 0, 5)?, Answer::Going);

    println!("two bags, and a push and a pop in the middle: a snapshot is taken");
    let mut first = Snapshot::over([0; WORDS]);
    lane.take(&mut first)?;
    print_lane(&lane)?;
    println!("going on");
    go_on(&mut lane)?;
    println!("a second snapshot; the first has other words at these slots");
    let mut second = first;
    lane.take(&mut second)?;
    compare(&first, &second);
    println!("the first is put back: the popped bag stands in the lane again");
    lane.put(&first)?;
    print_lane(&lane)?;
    println!("going on, with the same answers");
    go_on(&mut lane)?;
    lane.take(&mut first)?;
    println!("and with the same words");
    compare(&first, &second);

    println!("altered, so that it would give no table, it is not put back");
    let mut words = first.into_words();
    words[16] = SLOTS; // L of slot 0 made no slot
    let refused = lane.put(&Snapshot::over(words)).expect_err("no table");
    println!("  {refused}");
    print_lane(&lane)
}

fn known(tag: u64) -> Tag {
    Tag::new(tag).expect("not 0, and ten digits")
}

/// Dispatches until every task is idle, with each answer on the way.
fn go_on(lane: &mut Table) -> Result<(), Refusal> {
    while let Dispatched::Ticked(answer) = lane.dispatches(0, u32::MAX)? {
        let (task, tick) = (lane.dispatched()?, lane.tick_count()?);
        println!("  task {task}: {answer}, tick {tick}");
    }
    print_lane(lane)
}

/// The slots at which two snapshots differ, column by column.
fn compare(first: &Kept, second: &Kept) {
    let [first, second] = [first, second].map(|kept| kept.words()[16..].chunks(SLOTS as usize));
    for (name, (first, second)) in ["L", "R", "V", "digit"].iter().zip(first.zip(second)) {
        let differ = (0..SLOTS as usize).filter(|&slot| first[slot] != second[slot]);
        let slots: String = differ.map(|slot| format!(" {slot}")).collect();
        println!("  {name}:{slots}");
    }
}

fn print_lane(lane: &Table) -> Result<(), Refusal> {
    let tags: String = lane.bags()?.map(|tag| format!(" {tag}")).collect();
    println!("  lane:{tags}");
    Ok(())
}
