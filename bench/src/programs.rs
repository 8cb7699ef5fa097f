//! The two programs under the same function types, so that both are called alike.

use lane::ffi;
use reference::table::{header, record};
use reference::{airlines, Answer, Call};

type BeginRecord = fn(&mut [u32; record::WORDS], &[u32], u32, u32, u32, u32, u32, u32) -> u32;
type PushByList = fn(&[u8], &mut [u32], u32, u32, u32, u32) -> u64;

/// The calls that are measured, answers as numbers of 64 bits.
pub struct Program {
    /// Task, lane, operation, side, digit and argument of a call.
    pub begin: fn(&mut [u32], u32, u32, u32, u32, u32, u32) -> u32,
    /// The same over a lent record, which comes first; the table is only read.
    pub begin_record: BeginRecord,
    /// One tick with its test of the table's shape.
    pub tick: fn(&mut [u32], u32, u32) -> u64,
    /// A whole call, as `lane_call` makes it: task, lane, operation, side, digit and argument.
    pub call: fn(&mut [u32], u32, u32, u32, u32, u32, u32) -> u64,
    /// One tick of the next busy task.
    pub dispatch: fn(&mut [u32], u32) -> u64,
    /// A list of ticks.
    pub run: fn(&mut [u32], &[u32], &mut [u32]) -> u64,
    /// The tags of a lane.
    pub read: fn(&[u32], u32, &mut [u32]) -> u64,
    /// A page of the shift sheet: lane and page.
    pub sheet: fn(&[u32], u32, u32, &mut [u8]) -> u32,
    /// A snapshot of a table.
    pub take: fn(&[u32], &mut [u32]) -> u32,
    /// A snapshot put back to a table.
    pub put: fn(&[u32], &mut [u32]) -> u32,
    /// A tag list in packed decimal, to words.
    pub read_tags: fn(&[u8], &mut [u32]) -> u64,
    /// The same from words.
    pub write_tags: fn(&[u32], &mut [u8]) -> u64,
    /// An airline list tested.
    pub check_list: fn(&[u8]) -> u64,
    /// A push begun by such a list: task, lane, digit and low part.
    pub push_by_list: PushByList,
    /// A fresh window of some width.
    pub window: fn(&mut [u32], u32) -> u32,
    /// A window fed: count, step before and step after.
    pub feed: fn(&mut [u32], u32, u32, u32) -> u64,
}

/// The proved machine, from the static library.
pub const PROVED: Program = Program {
    begin: ffi::begin,
    begin_record: ffi::begin_record,
    tick: ffi::tick,
    call: |table, task, lane, operation, side, digit, argument| match ffi::begin(
        table, task, lane, operation, side, digit, argument,
    ) {
        0 => ffi::ticks(table, task, 0, most_ticks(table)),
        number => answer(Err(number)),
    },
    dispatch: ffi::dispatch,
    run: ffi::run,
    read: ffi::read,
    sheet: ffi::sheet,
    take: ffi::take,
    put: ffi::put,
    read_tags: ffi::tags_read,
    write_tags: ffi::tags_write,
    check_list: ffi::list_check,
    push_by_list: ffi::push_by_list,
    window: ffi::window,
    feed: ffi::feed,
};

/// The second program in Rust.
pub const RUST: Program = Program {
    begin: |table, task, lane, operation, side, digit, argument| {
        let begun = reference::begin(table, task, lane, operation, side, digit, argument);
        refusal(begun)
    },
    begin_record: reference::begin_record,
    tick: |table, task, hint| answer(reference::tick(table, task, hint)),
    call: |table, task, lane, operation, side, digit, argument| {
        let call = Call {
            lane,
            operation,
            side,
            digit,
            argument,
        };
        let times = most_ticks(table);
        answer(reference::whole(table, task, call, times))
    },
    dispatch: |table, hint| {
        let given = reference::dispatch(table, hint);
        given.transpose().map_or(8 << 40, answer)
    },
    run: |table, list, answers| pair(reference::run(table, list, answers)),
    read: |table, lane, out| match reference::read(table, lane, out) {
        Ok(count) => u64::from(count),
        Err(number) => pair((number, 0)),
    },
    sheet: reference::sheet::sheet,
    take: |table, snapshot| refusal(reference::take(table, snapshot)),
    put: |snapshot, table| refusal(reference::put(snapshot, table)),
    read_tags: |bytes, words| pair(reference::read_tags(bytes, words)),
    write_tags: |words, bytes| pair(reference::write_tags(words, bytes)),
    check_list: |list| {
        let checked = airlines::check(list);
        checked.map_or_else(|fault| pair((fault.number, fault.line)), |()| 0)
    },
    push_by_list: |list, table, task, lane, digit, low| {
        pair(airlines::push_by_list(list, table, task, lane, digit, low))
    },
    window: reference::window::window,
    feed: |words, count, before, after| pair(reference::window::feed(words, count, before, after)),
};

/// Ticks that are enough for a call alone.
fn most_ticks(table: &[u32]) -> u32 {
    lane::max_ticks_alone(table[header::NODES])
}

fn refusal(given: Result<(), u32>) -> u32 {
    given.err().unwrap_or(0)
}

fn answer(given: Result<Answer, u32>) -> u64 {
    match given {
        Ok(Answer::Bag(tag)) => 2 << 40 | tag,
        Ok(answer) => u64::from(answer.words()[0]) << 40,
        Err(number) => 7 << 40 | u64::from(number),
    }
}

fn pair((high, low): (u32, u32)) -> u64 {
    u64::from(high) << 32 | u64::from(low)
}
