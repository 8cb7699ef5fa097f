//! Calls with tags and arguments as whole numbers, and calls of a task that gets all the ticks up to its answer, with
//! hint 0.

use reference::table::{digit, header, low_part, tag, Sizes};
use reference::{tick, Answer};

/// A call by its lane, operation, side and argument.
pub type Call = (u32, u32, u32, u64);

/// Begins with the argument as one number; only a tag's has a leading digit other than 0.
pub fn begin(
    table: &mut [u32],
    task: u32,
    lane: u32,
    operation: u32,
    side: u32,
    argument: u64,
) -> Result<(), u32> {
    let (digit, low) = (digit(argument), low_part(argument));
    reference::begin(table, task, lane, operation, side, digit, low)
}

/// The tags of a lane, leftmost first.
pub fn tags(table: &[u32], lane: u32) -> Result<Vec<u64>, u32> {
    let mut out = [0; 2 * Sizes::MAX_NODES];
    let count = reference::read(table, lane, &mut out)?;
    Ok(whole(&out[..2 * count as usize]))
}

/// The tags that a read wrote.
pub fn whole(words: &[u32]) -> Vec<u64> {
    words
        .chunks_exact(2)
        .map(|pair| tag(pair[0], pair[1]))
        .collect()
}

/// Begins a call and gives its answer.
pub fn call(table: &mut [u32], task: u32, (lane, operation, side, argument): Call) -> Answer {
    begin(table, task, lane, operation, side, argument).expect("begin");
    to_answer(table, task)
}

/// The answer of a busy task, which comes within 8S + 400 ticks by 2026-08.
pub fn to_answer(table: &mut [u32], task: u32) -> Answer {
    for _ in 0..8 * table[header::NODES] + 400 {
        match tick(table, task, 0).expect("a busy task") {
            Answer::Going => {}
            answer => return answer,
        }
    }
    panic!("task {task} alone does not come to an answer");
}
