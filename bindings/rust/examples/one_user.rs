//! One user who makes whole calls alone: a few numbers foretell every answer, and how many bags an end takes:
//! `cargo run --example one_user`.

use std::collections::VecDeque;

use lane::{Answer, Lane, Operation, Refusal, Side, Tag};

const SLOTS: u32 = 8;
const GROWTH: u32 = 1;

/// All that the user keeps: the bags, and how many slots are spare at each end.
struct User {
    row: VecDeque<Tag>,
    spare: [u32; 2],
}

impl User {
    fn free(&self) -> u32 {
        SLOTS - self.row.len() as u32 - self.spare[0] - self.spare[1]
    }

    /// How many new bags an end takes.
    fn room(&self, side: Side) -> u32 {
        self.spare[side.number() as usize] + self.free() - 1
    }

    /// A call's answer; what is kept is then as the call leaves it. The tag of a push is not in the lane.
    fn foretell(&mut self, operation: Operation, side: Side) -> Answer {
        let (free, room) = (self.free(), self.room(side));
        let r = &mut self.spare[side.number() as usize];
        match operation {
            Operation::Push(_) if room == 0 => Answer::Full,
            Operation::Push(tag) => {
                *r = if *r > 1 { *r - 1 } else { free.min(GROWTH + 1) };
                match side {
                    Side::Left => self.row.push_front(tag),
                    Side::Right => self.row.push_back(tag),
                }
                Answer::Pushed
            }
            Operation::Pop => {
                let popped = match side {
                    Side::Left => self.row.pop_front(),
                    Side::Right => self.row.pop_back(),
                };
                *r += u32::from(popped.is_some());
                popped.map_or(Answer::Empty, Answer::Bag)
            }
            Operation::Add(_) if free == 0 => Answer::No,
            Operation::Add(n) => {
                *r += free.min(n + 1);
                Answer::Yes
            }
            Operation::Remove(n) if *r == n + 2 => Answer::No,
            Operation::Remove(n) => {
                *r = (*r).min(n + 1);
                Answer::Yes
            }
        }
    }
}

type Table = Lane<[u32; lane::words(SLOTS, 1)]>;

fn main() -> Result<(), Refusal> {
    let mut table = Lane::start([0; lane::words(SLOTS, 1)], SLOTS, 1, GROWTH)?;
    let mut user = User {
        row: VecDeque::new(),
        spare: [1, 1],
    };
    for (operation, side) in [
        (Operation::Pop, Side::Left),
        (push(51), Side::Right),
        (Operation::Remove(0), Side::Right),
        (Operation::Add(3), Side::Left),
        (Operation::Add(0), Side::Right),
        (push(52), Side::Right),
        (Operation::Pop, Side::Left),
        (Operation::Remove(1), Side::Left),
        (Operation::Add(0), Side::Right),
        (push(53), Side::Left),
        (Operation::Remove(7), Side::Right),
    ] {
        let _ = call(&mut table, &mut user, operation, side)?;
    }
    let more = user.room(Side::Right);
    println!("{more} more bags at the right, and it is full");
    let mut tag = 61;
    while call(&mut table, &mut user, push(tag), Side::Right)? == Answer::Pushed {
        tag += 1;
    }
    assert_eq!(tag, 61 + u64::from(more));
    Ok(())
}

fn push(tag: u64) -> Operation {
    Operation::Push(Tag::new(tag).expect("not 0, and ten digits"))
}

/// Makes a call, whose answer was foretold, and prints it with the room that is left.
fn call(
    table: &mut Table,
    user: &mut User,
    operation: Operation,
    side: Side,
) -> Result<Answer, Refusal> {
    let foretold = user.foretell(operation, side);
    let answer = table.call(0, operation, side)?;
    assert_eq!(answer, foretold);
    let name = ["push", "pop", "add", "remove"][operation.number() as usize - 1];
    let side = ["left", "right"][side.number() as usize];
    let [_, argument] = operation.argument();
    let [left, right] = [Side::Left, Side::Right].map(|side| user.room(side));
    println!("{name} {side} {argument}: {answer}; room left {left}, right {right}");
    Ok(answer)
}
