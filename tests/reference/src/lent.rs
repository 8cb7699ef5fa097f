//! Begin over a task's record that its panel keeps: the table is read, the record is written.

use crate::calls::{is_pushed, stands, Call};
use crate::refusal;
use crate::shape;
use crate::table::record::{self, WORDS};
use crate::table::{IDLE, PUSH};

/// Gives the task of a lent record an operation on a lane; returns 0 or the refusal. In every test the record stands for
/// that task's words in the table; a refused call leaves it.
#[allow(clippy::too_many_arguments)]
pub fn begin_record(
    record: &mut [u32; WORDS],
    table: &[u32],
    task: u32,
    lane: u32,
    operation: u32,
    side: u32,
    digit: u32,
    argument: u32,
) -> u32 {
    let call = Call {
        lane,
        operation,
        side,
        digit,
        argument,
    };
    match begun(record, table, task, call) {
        Ok(words) => {
            *record = words;
            0
        }
        Err(number) => number,
    }
}

/// The words of the record after a begin that is accepted.
fn begun(record: &[u32; WORDS], table: &[u32], task: u32, call: Call) -> Result<[u32; WORDS], u32> {
    let sizes = shape::check_lent(table, task, record)?;
    call.check(sizes, task)?;
    if call.operation == PUSH {
        let tag = call.content();
        let parts = sizes.records_with(table, task, record);
        if stands(table, sizes, tag)? || parts.iter().any(|records| is_pushed(records, tag)) {
            return Err(refusal::TWICE);
        }
    }
    if record[record::OPERATION] != IDLE {
        return Err(refusal::BUSY);
    }
    Ok(call.record())
}
