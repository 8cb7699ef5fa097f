//! The dispatcher: the table itself says whose tick is next.

use crate::answer::Answer;
use crate::refusal;
use crate::shape;
use crate::step;
use crate::table::{header, record, Sizes, IDLE};

/// Makes one tick of the next busy task after the one last dispatched; none where every task is idle.
pub fn dispatch(table: &mut [u32], hint: u32) -> Result<Option<Answer>, u32> {
    let sizes = check(table, hint)?;
    checked_dispatch(table, sizes, hint)
}

/// Makes dispatches until one does not answer "going", or so many; returns what the last one does. Where none is asked
/// for, nothing is tested.
pub fn dispatches(table: &mut [u32], hint: u32, times: u32) -> Result<Option<Answer>, u32> {
    if times == 0 {
        return Ok(Some(Answer::Going));
    }
    let sizes = check(table, hint)?;
    for _ in 0..times {
        match checked_dispatch(table, sizes, hint)? {
            Some(Answer::Going) => {}
            answer => return Ok(answer),
        }
    }
    Ok(Some(Answer::Going))
}

/// The tests before the choice of a task; a tick keeps what they find.
fn check(table: &[u32], hint: u32) -> Result<Sizes, u32> {
    let sizes = shape::check(table)?;
    if hint >= sizes.nodes {
        return Err(refusal::HINT);
    }
    Ok(sizes)
}

/// A dispatch on a table that has passed them.
fn checked_dispatch(table: &mut [u32], sizes: Sizes, hint: u32) -> Result<Option<Answer>, u32> {
    let Some(task) = next_busy(table, sizes) else {
        return Ok(None);
    };
    let answer = step::advance(table, sizes, task, hint)?;
    table[header::DISPATCHED] = task;
    Ok(Some(answer))
}

/// By task number, going round; the task last dispatched comes last.
fn next_busy(table: &[u32], sizes: Sizes) -> Option<u32> {
    let last = table[header::DISPATCHED];
    (last + 1..sizes.tasks)
        .chain(0..=last)
        .find(|&task| table[sizes.record(task) + record::OPERATION] != IDLE)
}
