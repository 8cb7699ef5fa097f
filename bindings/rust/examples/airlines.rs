//! An airline list: edits of it are checked, and the accepted one says at which end each bag is loaded; then the lane on
//! the shift sheet: `cargo run --example airlines`.

use lane::{AirlineList, Answer, Lane, Refusal, Tag};

const SLOTS: u32 = 16;
const TASKS: u32 = 1;
const GROWTH: u32 = 2;

const EDITS: [&str; 3] = [
    "(airline (code 125) left)\n(airline (code 020) right)\n(airline (code 125) right)\n(others right)\n",
    "(airline (code 125) left)\n(airline (code 20) left)\n(others right)\n",
    "(airline (code 125) left)\n(airline (code 020) left)\n(others right)\n",
];

type Table = Lane<[u32; lane::words(SLOTS, TASKS)]>;

fn main() -> Result<(), Refusal> {
    println!(
        "three edits of the list, each checked; of a faulty one the first faulty line is shown"
    );
    let mut used = None;
    for text in EDITS {
        used = accepted(text).or(used);
    }
    let list = used.expect("an accepted list");

    println!("bags of the airlines 250, 125, 020 and 000, loaded by the accepted list");
    let mut lane = Lane::start([0; lane::words(SLOTS, TASKS)], SLOTS, TASKS, GROWTH)?;
    for tag in [1_250_000_051, 9_125_000_052, 20_000_053, 54] {
        load(&mut lane, &list, tag)?;
        print_lane(&lane)?;
    }

    println!("five more of airline 125, and the first page of the shift sheet");
    for tag in 125_000_055..125_000_060 {
        load(&mut lane, &list, tag)?;
    }
    let page = lane.sheet(0)?;
    for line in page.lines().filter(|line| !line.starts_with(' ')) {
        println!("  |{line}|");
    }
    Ok(())
}

/// The list, if it is accepted; its first faulty line is shown.
fn accepted(text: &str) -> Option<AirlineList<&str>> {
    match AirlineList::parse(text) {
        Ok(list) => {
            println!("  accepted");
            Some(list)
        }
        Err(fault) => {
            println!("  {}", fault.refusal);
            let line = text.lines().nth(fault.line - 1).unwrap_or("");
            println!("  line {}: {line}", fault.line);
            None
        }
    }
}

/// A push by list, to its answer.
fn load(lane: &mut Table, list: &AirlineList<&str>, tag: u64) -> Result<(), Refusal> {
    let tag = Tag::new(tag).expect("not 0, and ten digits");
    lane.push_by_list(0, tag, list)?;
    assert_eq!(
        lane.ticks(0, 0, lane::max_ticks_alone(SLOTS))?,
        Answer::Pushed
    );
    Ok(())
}

fn print_lane(lane: &Table) -> Result<(), Refusal> {
    let tags: String = lane.bags()?.map(|tag| format!(" {tag}")).collect();
    println!("  lane:{tags}");
    Ok(())
}
