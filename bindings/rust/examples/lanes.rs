//! Two lanes over one table: one is "full" by the slots that the other has, the way out, and a tag wanted in both:
//! `cargo run --example lanes`.

use lane::{Answer, Lanes, Operation, Refusal, Side, Tag};

const SLOTS: u32 = 8;
const GROWTH: u32 = 3;

// The two lanes; each has a task of its own, with the same number.
const NAMES: [&str; 2] = ["north", "south"];
const NORTH: u32 = 0;
const SOUTH: u32 = 1;
const LANES: u32 = 2;
const TASKS: u32 = LANES;

const ENDS: [(u32, Side); 4] = [
    (NORTH, Side::Left),
    (NORTH, Side::Right),
    (SOUTH, Side::Left),
    (SOUTH, Side::Right),
];

type Table = Lanes<[u32; lane::words(SLOTS, TASKS)]>;

fn main() -> Result<(), Refusal> {
    let mut table = Lanes::start([0; lane::words(SLOTS, TASKS)], SLOTS, TASKS, GROWTH, LANES)?;
    let mut tag = 51;

    println!("the first push in the north adds a slot and, by the growth, three more: all that were free");
    assert!(push(&mut table, (NORTH, Side::Right), tag)?);
    tag += 1;
    assert!(!push(&mut table, (SOUTH, Side::Right), tag)?);
    println!("push {tag:010} is full in the south, where no bag is");
    print_lanes(&table)?;
    println!("push, pop, remove 0 at one other end after another, and again the push");
    let pushed = push_for_sure(&mut table, (SOUTH, Side::Right), tag)?;
    println!("  {}", if pushed { "pushed" } else { "no room" });
    print_lanes(&table)?;

    println!(
        "tag {tag:010} stands in the south, and the north refuses it; a third lane is not there"
    );
    for lane in [NORTH, LANES] {
        let begun = table.begin(0, lane, Operation::Push(known(tag)), Side::Left);
        println!("  {}", begun.expect_err("the tag stands in a lane"));
    }

    println!("bags at one end after another, until no end has room");
    for end in ENDS {
        while push_for_sure(&mut table, end, tag + 1)? {
            tag += 1;
        }
    }
    print_lanes(&table)?;
    println!("that is as much as 8 slots carry in two lanes, 4 bags");
    Ok(())
}

fn known(tag: u64) -> Tag {
    Tag::new(tag).expect("not 0, and ten digits")
}

/// Whether the push found a slot.
fn push(table: &mut Table, (lane, side): (u32, Side), tag: u64) -> Result<bool, Refusal> {
    let answer = table.call(lane, lane, Operation::Push(known(tag)), side)?;
    Ok(answer == Answer::Pushed)
}

/// A push that is tried again after each other end has given back what it can. False if this end has no room.
fn push_for_sure(table: &mut Table, (lane, side): (u32, Side), tag: u64) -> Result<bool, Refusal> {
    let answer = table.make_room(lane, lane, known(tag), side)?;
    Ok(answer == Answer::Pushed)
}

fn print_lanes(table: &Table) -> Result<(), Refusal> {
    for (lane, name) in (0..).zip(NAMES) {
        let tags: String = table.bags(lane)?.map(|tag| format!(" {tag}")).collect();
        println!("  {name}:{tags}");
    }
    Ok(())
}
