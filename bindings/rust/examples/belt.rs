//! The belt run of the paper, printed as the paper prints it: `cargo run --example belt`.

use lane::{Lane, Operation, Refusal, Side, Tag};

fn main() {
    let tag = Tag::new(51).expect("not 0, and ten digits");
    let mut lane = Lane::start(vec![0; lane::words(4, 1)], 4, 1, 0).expect("the sizes fit");
    print_reply(&Ok(()));
    print_reply(&lane.begin(0, Operation::Push(tag), Side::Right));
    print_ticks(&mut lane, 10);
    print_ticks(&mut lane, 1);
    print_lane(&lane);
    print_reply(&lane.begin(0, Operation::Pop, Side::Left));
    print_ticks(&mut lane, 4);
    print_reply(&lane.begin(0, Operation::Pop, Side::Right));
    print_ticks(&mut lane, 4);
    print_ticks(&mut lane, 1);
}

fn print_reply(reply: &Result<(), Refusal>) {
    match reply {
        Ok(()) => println!("(ok)"),
        Err(refusal) => println!("(refused {})", refusal.number()),
    }
}

/// Ticks of task 0 until an answer, a refusal, or so many; prints the last outcome.
fn print_ticks(lane: &mut Lane<Vec<u32>>, times: u32) {
    match lane.ticks(0, 0, times) {
        Ok(answer) => println!("({answer})"),
        Err(refusal) => println!("(refused {})", refusal.number()),
    }
}

fn print_lane(lane: &Lane<Vec<u32>>) {
    match lane.bags() {
        Ok(bags) => {
            let tags: String = bags.map(|tag| format!(" {tag}")).collect();
            println!("(lane{tags})");
        }
        Err(refusal) => println!("(refused {})", refusal.number()),
    }
}
