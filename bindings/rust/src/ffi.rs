//! The static library's functions over any slices and any numbers, as it takes and gives them.
//!
//! For programs that keep their own words, and for tests that hand in damaged ones. All are safe to call: the library
//! answers every slice and every number, and a refusal leaves all that is lent as it was, but for the ticks before it in
//! a call of several. This module has the crate's only unsafe code.

use core::slice;

use crate::place::RECORD;
use crate::Tag;

mod library {
    use crate::place::RECORD;

    // Nothing checks these lines against the library; `include/lane.h` has the same ones for C.
    extern "C" {
        pub fn lane_version() -> u64;
        pub fn lane_start(
            table: *mut u32,
            words: usize,
            slots: u32,
            tasks: u32,
            growth: u32,
            lanes: u32,
        ) -> u32;
        pub fn lane_begin(
            table: *mut u32,
            words: usize,
            task: u32,
            lane: u32,
            operation: u32,
            side: u32,
            digit: u32,
            argument: u32,
        ) -> u32;
        pub fn lane_begin_record(
            record: *mut [u32; RECORD],
            table: *const u32,
            words: usize,
            task: u32,
            lane: u32,
            operation: u32,
            side: u32,
            digit: u32,
            argument: u32,
        ) -> u32;
        pub fn lane_tick(table: *mut u32, words: usize, task: u32, hint: u32) -> u64;
        pub fn lane_ticks(table: *mut u32, words: usize, task: u32, hint: u32, times: u32) -> u64;
        pub fn lane_dispatch(table: *mut u32, words: usize, hint: u32) -> u64;
        pub fn lane_dispatches(table: *mut u32, words: usize, hint: u32, times: u32) -> u64;
        pub fn lane_run(
            table: *mut u32,
            words: usize,
            list: *const u32,
            list_words: usize,
            answers: *mut u32,
            answers_words: usize,
        ) -> u64;
        pub fn lane_panel(
            table: *mut u32,
            words: usize,
            list: *const u32,
            list_words: usize,
            answers: *mut u32,
            answers_words: usize,
        ) -> u64;
        pub fn lane_read(
            table: *const u32,
            words: usize,
            lane: u32,
            out: *mut u32,
            out_words: usize,
        ) -> u64;
        pub fn lane_sheet(
            table: *const u32,
            words: usize,
            lane: u32,
            page: u32,
            out: *mut u8,
            out_bytes: usize,
        ) -> u32;
        pub fn lane_take(
            table: *const u32,
            words: usize,
            snapshot: *mut u32,
            snapshot_words: usize,
        ) -> u32;
        pub fn lane_put(
            snapshot: *const u32,
            snapshot_words: usize,
            table: *mut u32,
            words: usize,
        ) -> u32;
        pub fn lane_tags_read(
            list: *const u8,
            bytes: usize,
            out: *mut u32,
            out_words: usize,
        ) -> u64;
        pub fn lane_tags_write(
            tags: *const u32,
            words: usize,
            out: *mut u8,
            out_bytes: usize,
        ) -> u64;
        pub fn lane_list_check(list: *const u8, list_bytes: usize) -> u64;
        pub fn lane_push_by_list(
            list: *const u8,
            list_bytes: usize,
            table: *mut u32,
            words: usize,
            task: u32,
            lane: u32,
            digit: u32,
            argument: u32,
        ) -> u64;
        pub fn lane_window(window: *mut u32, words: usize, width: u32) -> u32;
        pub fn lane_feed(
            window: *mut u32,
            words: usize,
            count: u32,
            before: u32,
            after: u32,
        ) -> u64;
    }
}

// Safety, for each call below: a slice is valid for its length and a mutable one is lent to nobody else; the library
// touches nothing outside the slices and keeps no pointer. It takes every length, 0 included.

/// The version and the table's format of the library: the format times 2^32, plus the first number of the version times
/// 1,000,000, the second times 1,000, and the third.
///
/// ```
/// use lane::ffi;
///
/// assert_eq!(ffi::version() >> 32, u64::from(lane::TABLE_FORMAT));
/// ```
#[must_use]
pub fn version() -> u64 {
    unsafe { library::lane_version() }
}

/// Writes empty lanes, 1 to 4 of them: 0, or the refusal.
///
/// ```
/// use lane::ffi;
///
/// assert_eq!(ffi::start(&mut [0; 45], 4, 1, 0, 2), 0);
/// assert_eq!(ffi::start(&mut [], 4, 1, 0, 5), 25);
/// assert_eq!(ffi::start(&mut [], 4, 1, 0, 3), 1);
/// assert_eq!(ffi::start(&mut [], 4, 1, 0, 2), 2);
/// ```
pub fn start(table: &mut [u32], slots: u32, tasks: u32, growth: u32, lanes: u32) -> u32 {
    let (pointer, words) = (table.as_mut_ptr(), table.len());
    unsafe { library::lane_start(pointer, words, slots, tasks, growth, lanes) }
}

/// Gives an idle task a call on a lane, its argument with the leading digit before it: 0, or the refusal.
///
/// ```
/// use lane::ffi;
///
/// let mut table = [0; 45];
/// assert_eq!(ffi::start(&mut table, 4, 1, 0, 2), 0);
/// assert_eq!(ffi::begin(&mut table, 0, 1, 1, 0, 9, 51), 0);
/// assert_eq!(ffi::begin(&mut table, 0, 0, 1, 0, 9, 51), 16);
/// assert_eq!(ffi::begin(&mut table, 0, 0, 1, 0, 0, 51), 8);
/// assert_eq!(ffi::begin(&mut table, 0, 0, 1, 0, 10, 51), 7);
/// assert_eq!(ffi::begin(&mut table, 0, 2, 1, 0, 10, 51), 26);
/// ```
pub fn begin(
    table: &mut [u32],
    task: u32,
    lane: u32,
    operation: u32,
    side: u32,
    digit: u32,
    argument: u32,
) -> u32 {
    let (pointer, words) = (table.as_mut_ptr(), table.len());
    unsafe { library::lane_begin(pointer, words, task, lane, operation, side, digit, argument) }
}

/// Gives the task of a lent record a call, as [`begin`] does with that record in the place of its task, and writes the
/// record alone: 0, or the refusal.
///
/// ```
/// use lane::ffi;
///
/// let (mut table, mut record) = ([0; 45], lane::Record::FRESH.words());
/// assert_eq!(ffi::start(&mut table, 4, 1, 0, 2), 0);
/// assert_eq!(ffi::begin_record(&mut record, &table, 0, 1, 1, 0, 9, 51), 0);
/// assert_eq!(record[..5], [1, 2, 0, 51, 9]); // a push, its first step, left, its tag
/// assert_eq!(ffi::begin_record(&mut record, &table, 0, 1, 1, 0, 9, 51), 16);
/// assert_eq!(ffi::begin_record(&mut record, &table, 0, 1, 1, 0, 0, 51), 8);
/// assert_eq!(ffi::begin_record(&mut record, &table, 1, 1, 1, 0, 0, 51), 5);
/// ```
#[allow(clippy::too_many_arguments)]
pub fn begin_record(
    record: &mut [u32; RECORD],
    table: &[u32],
    task: u32,
    lane: u32,
    operation: u32,
    side: u32,
    digit: u32,
    argument: u32,
) -> u32 {
    let (pointer, words) = (table.as_ptr(), table.len());
    unsafe {
        library::lane_begin_record(
            record, pointer, words, task, lane, operation, side, digit, argument,
        )
    }
}

/// Makes one tick: the kind (0 to 6) times 2^40 plus the tag or 0; kind 7 for a refusal, with its number.
///
/// ```
/// use lane::ffi;
///
/// let mut table = [0; 45];
/// assert_eq!(ffi::start(&mut table, 4, 1, 0, 1), 0);
/// assert_eq!(ffi::tick(&mut table, 0, 0), 7 << 40 | 10);
/// ```
pub fn tick(table: &mut [u32], task: u32, hint: u32) -> u64 {
    let (pointer, words) = (table.as_mut_ptr(), table.len());
    unsafe { library::lane_tick(pointer, words, task, hint) }
}

/// Makes ticks of one task until one does not say "going", or so many: what [`tick`] gives for the last; with 0 of them
/// "going", whatever the words.
///
/// ```
/// use lane::ffi;
///
/// let mut table = [0; 45];
/// assert_eq!(ffi::start(&mut table, 4, 1, 0, 1), 0);
/// assert_eq!(ffi::begin(&mut table, 0, 0, 2, 0, 0, 0), 0);
/// assert_eq!(ffi::ticks(&mut table, 0, 0, 3), 0);
/// assert_eq!(ffi::ticks(&mut table, 0, 0, 9), 3 << 40);
/// assert_eq!(table[4], 4);
/// assert_eq!(ffi::ticks(&mut table, 0, 0, 9), 7 << 40 | 10);
/// assert_eq!(ffi::ticks(&mut [], 0, 0, 0), 0);
/// ```
pub fn ticks(table: &mut [u32], task: u32, hint: u32, times: u32) -> u64 {
    let (pointer, words) = (table.as_mut_ptr(), table.len());
    unsafe { library::lane_ticks(pointer, words, task, hint, times) }
}

/// Makes one tick of the next busy task after the one last dispatched: what [`tick`] gives, or kind 8 times 2^40 with
/// every task idle.
///
/// ```
/// use lane::ffi;
///
/// let mut table = [0; 45];
/// assert_eq!(ffi::start(&mut table, 4, 1, 0, 1), 0);
/// assert_eq!(ffi::dispatch(&mut table, 0), 8 << 40);
/// assert_eq!(ffi::dispatch(&mut table, 4), 7 << 40 | 9);
/// assert_eq!(ffi::begin(&mut table, 0, 0, 2, 0, 0, 0), 0);
/// assert_eq!(ffi::dispatch(&mut table, 0), 0);
/// ```
pub fn dispatch(table: &mut [u32], hint: u32) -> u64 {
    let (pointer, words) = (table.as_mut_ptr(), table.len());
    unsafe { library::lane_dispatch(pointer, words, hint) }
}

/// Makes dispatches until one does not say "going", or so many: what [`dispatch`] gives for the last; with 0 of them
/// "going", whatever the words.
///
/// ```
/// use lane::ffi;
///
/// let mut table = [0; 58];
/// assert_eq!(ffi::start(&mut table, 4, 2, 0, 1), 0);
/// for task in 0..2 {
///     assert_eq!(ffi::begin(&mut table, task, 0, 2, 0, 0, 0), 0);
/// }
/// assert_eq!(ffi::dispatches(&mut table, 0, u32::MAX), 3 << 40);
/// assert_eq!(table[4..6], [7, 0]);
/// assert_eq!(ffi::dispatches(&mut table, 0, u32::MAX), 3 << 40);
/// assert_eq!(table[4..6], [8, 1]);
/// assert_eq!(ffi::dispatches(&mut table, 0, u32::MAX), 8 << 40);
/// ```
pub fn dispatches(table: &mut [u32], hint: u32, times: u32) -> u64 {
    let (pointer, words) = (table.as_mut_ptr(), table.len());
    unsafe { library::lane_dispatches(pointer, words, hint, times) }
}

/// Makes the ticks of a list of (task, hint) pairs and writes three words for each, the kind, then the tag's leading
/// digit and low part: the refusal that stopped the run, or 0, times 2^32 plus the ticks made.
///
/// ```
/// use lane::ffi;
///
/// let mut table = [0; 45];
/// let mut answers = [9; 15];
/// assert_eq!(ffi::start(&mut table, 4, 1, 0, 1), 0);
/// assert_eq!(ffi::begin(&mut table, 0, 0, 2, 0, 0, 0), 0);
/// assert_eq!(ffi::run(&mut table, &[0; 10], &mut answers), 10 << 32 | 4);
/// assert_eq!(answers, [0, 0, 0, 0, 0, 0, 0, 0, 0, 3, 0, 0, 9, 9, 9]);
/// ```
pub fn run(table: &mut [u32], list: &[u32], answers: &mut [u32]) -> u64 {
    let (pointer, words) = (table.as_mut_ptr(), table.len());
    let (out, out_words) = (answers.as_mut_ptr(), answers.len());
    unsafe { library::lane_run(pointer, words, list.as_ptr(), list.len(), out, out_words) }
}

/// The same from the maintenance panel, whose list has 64 words at most.
///
/// ```
/// use lane::ffi;
///
/// let mut table = [0; 45];
/// assert_eq!(ffi::start(&mut table, 4, 1, 0, 1), 0);
/// assert_eq!(ffi::panel(&mut table, &[0; 66], &mut []), 15 << 32);
/// assert_eq!(ffi::panel(&mut table, &[0; 64], &mut [0; 96]), 10 << 32);
/// ```
pub fn panel(table: &mut [u32], list: &[u32], answers: &mut [u32]) -> u64 {
    let (pointer, words) = (table.as_mut_ptr(), table.len());
    let (out, out_words) = (answers.as_mut_ptr(), answers.len());
    unsafe { library::lane_panel(pointer, words, list.as_ptr(), list.len(), out, out_words) }
}

/// Writes the tags of a lane, left end first, two words each, the leading digit first: their count, or the refusal
/// times 2^32.
///
/// ```
/// use lane::ffi;
///
/// let mut table = [0; 45];
/// assert_eq!(ffi::start(&mut table, 4, 1, 0, 2), 0);
/// assert_eq!(ffi::read(&table, 1, &mut []), 0);
/// assert_eq!(ffi::read(&table, 2, &mut []), 26 << 32);
/// assert_eq!(ffi::read(&table[1..], 2, &mut []), 3 << 32);
/// ```
pub fn read(table: &[u32], lane: u32, out: &mut [u32]) -> u64 {
    let (pointer, words) = (table.as_ptr(), table.len());
    unsafe { library::lane_read(pointer, words, lane, out.as_mut_ptr(), out.len()) }
}

/// Writes a page, 0 to 2, of the shift sheet of a lane, 4,860 bytes: 0, or the refusal.
///
/// ```
/// use lane::ffi;
///
/// let mut table = [0; 45];
/// let mut page = [0; 4860];
/// assert_eq!(ffi::start(&mut table, 4, 1, 0, 2), 0);
/// assert_eq!(ffi::sheet(&table, 1, 0, &mut page), 0);
/// assert!(page.starts_with(b"LANE 0000 "));
/// assert_eq!(ffi::sheet(&table, 1, 0, &mut page[1..]), 21);
/// assert_eq!(ffi::sheet(&table, 1, 3, &mut page[1..]), 20);
/// assert_eq!(ffi::sheet(&table, 2, 3, &mut page[1..]), 26);
/// ```
pub fn sheet(table: &[u32], lane: u32, page: u32, out: &mut [u8]) -> u32 {
    let (pointer, words) = (table.as_ptr(), table.len());
    unsafe { library::lane_sheet(pointer, words, lane, page, out.as_mut_ptr(), out.len()) }
}

/// Takes a snapshot of a table, its words by columns: 0, or the refusal.
///
/// ```
/// use lane::ffi;
///
/// let (mut table, mut snapshot) = ([0; 45], [7; 45]);
/// assert_eq!(ffi::start(&mut table, 4, 1, 0, 1), 0);
/// assert_eq!(ffi::take(&table, &mut snapshot[1..]), 22);
/// assert_eq!(ffi::take(&table, &mut snapshot), 0);
/// assert_eq!(snapshot[..16], table[..16]);
/// assert_eq!(snapshot[16..20], [65_535, 0, 65_535, 65_535]); // every L
/// assert_eq!(ffi::take(&table[1..], &mut snapshot[1..]), 3);
/// ```
pub fn take(table: &[u32], snapshot: &mut [u32]) -> u32 {
    let (out, out_words) = (snapshot.as_mut_ptr(), snapshot.len());
    unsafe { library::lane_take(table.as_ptr(), table.len(), out, out_words) }
}

/// Puts a snapshot back over a table's words, whatever they are: 0, or the refusal.
///
/// ```
/// use lane::ffi;
///
/// let (mut table, mut snapshot) = ([0; 45], [0; 45]);
/// assert_eq!(ffi::start(&mut table, 4, 1, 0, 1), 0);
/// assert_eq!(ffi::take(&table, &mut snapshot), 0);
/// let mut other = [7; 45];
/// assert_eq!(ffi::put(&snapshot, &mut other), 0);
/// assert_eq!(other, table);
/// assert_eq!(ffi::put(&snapshot, &mut other[1..]), 22);
/// snapshot[16] = 4; // no slot
/// assert_eq!(ffi::put(&snapshot, &mut other), 4);
/// assert_eq!(other, table);
/// ```
pub fn put(snapshot: &[u32], table: &mut [u32]) -> u32 {
    let (pointer, words) = (table.as_mut_ptr(), table.len());
    unsafe { library::lane_put(snapshot.as_ptr(), snapshot.len(), pointer, words) }
}

/// Reads a tag list in packed decimal, five bytes a tag, to two words a tag, the leading digit first: the count of its
/// tags, or the refusal times 2^32 plus, for 18, the place of the first that is no tag.
///
/// ```
/// use lane::ffi;
///
/// let list = [0x00, 0x00, 0x00, 0x00, 0x51, 0x90, 0x00, 0x00, 0x00, 0x0a];
/// let mut words = [7; 4];
/// assert_eq!(ffi::tags_read(&list, &mut words), 18 << 32 | 1);
/// assert_eq!(ffi::tags_read(&list[..5], &mut words), 1);
/// assert_eq!(words, [0, 51, 7, 7]);
/// ```
pub fn tags_read(bytes: &[u8], words: &mut [u32]) -> u64 {
    let (out, out_words) = (words.as_mut_ptr(), words.len());
    unsafe { library::lane_tags_read(bytes.as_ptr(), bytes.len(), out, out_words) }
}

/// Writes a tag list in packed decimal from two words a tag: what [`tags_read`] gives.
///
/// ```
/// use lane::ffi;
///
/// let mut list = [7; 6];
/// assert_eq!(ffi::tags_write(&[0, 51, 10, 51], &mut list), 18 << 32 | 1);
/// assert_eq!(ffi::tags_write(&[0, 51], &mut list), 1);
/// assert_eq!(list, [0x00, 0x00, 0x00, 0x00, 0x51, 7]);
/// ```
pub fn tags_write(words: &[u32], bytes: &mut [u8]) -> u64 {
    let (out, out_bytes) = (bytes.as_mut_ptr(), bytes.len());
    unsafe { library::lane_tags_write(words.as_ptr(), words.len(), out, out_bytes) }
}

/// The words of tags, two each, as the library takes them: the leading digit, then the low part.
pub(crate) fn tag_words(tags: &[Tag]) -> &[u32] {
    // A tag is its two words, and nothing else (`repr(transparent)`).
    unsafe { slice::from_raw_parts(tags.as_ptr().cast(), 2 * tags.len()) }
}

/// Tests an airline list: 0, or the refusal times 2^32 plus the first faulty line, from 1.
///
/// ```
/// use lane::ffi;
///
/// assert_eq!(ffi::list_check(b"(airline (code 125) left)\n(others right)\n"), 0);
/// assert_eq!(ffi::list_check(b"(airline (code 125) left)\n"), 29 << 32 | 1);
/// assert_eq!(ffi::list_check(b""), 27 << 32 | 1);
/// ```
#[must_use]
pub fn list_check(list: &[u8]) -> u64 {
    unsafe { library::lane_list_check(list.as_ptr(), list.len()) }
}

/// Gives an idle task a push on a lane, of a tag's leading digit and low part, at the end that an airline list names
/// for it: 0, or the refusal times 2^32, for a faulty list plus the first faulty line.
///
/// ```
/// use lane::ffi;
///
/// let mut table = [0; 45];
/// assert_eq!(ffi::start(&mut table, 4, 1, 0, 2), 0);
/// let list = b"(airline (code 125) left)\n(others right)\n";
/// assert_eq!(ffi::push_by_list(&list[..25], &mut table, 1, 2, 10, 0), 29 << 32 | 1);
/// assert_eq!(ffi::push_by_list(list, &mut table, 1, 2, 10, 0), 26 << 32);
/// assert_eq!(ffi::push_by_list(list, &mut table, 0, 1, 9, 125_000_051), 0);
/// assert_eq!(table[32..37], [1, 2, 0, 125_000_051, 9]); // a push, its first step, left, its tag
/// ```
pub fn push_by_list(
    list: &[u8],
    table: &mut [u32],
    task: u32,
    lane: u32,
    digit: u32,
    argument: u32,
) -> u64 {
    let (text, bytes) = (list.as_ptr(), list.len());
    let (pointer, words) = (table.as_mut_ptr(), table.len());
    unsafe { library::lane_push_by_list(text, bytes, pointer, words, task, lane, digit, argument) }
}

/// Writes a fresh window that looks back on so many ticks, 1 to 4,096: 0, or the refusal.
///
/// ```
/// use lane::ffi;
///
/// let mut window = [7; 6];
/// assert_eq!(ffi::window(&mut window, 3), 23);
/// assert_eq!(ffi::window(&mut window, 2), 0);
/// assert_eq!(window, [2, 0, 0, 0, 0, 0]);
/// ```
pub fn window(window: &mut [u32], width: u32) -> u32 {
    unsafe { library::lane_window(window.as_mut_ptr(), window.len(), width) }
}

/// Feeds a window a tick by its count and its task's step before and after: the lost swaps among the last ticks fed, or
/// the refusal times 2^32.
///
/// ```
/// use lane::ffi;
///
/// let mut window = [2, 0, 0, 0, 0, 0];
/// assert_eq!(ffi::feed(&mut window, 7, 5, 8), 1);
/// assert_eq!(ffi::feed(&mut window, 7, 5, 8), 24 << 32);
/// assert_eq!(window, [2, 1, 1, 7, 1, 0]);
/// assert_eq!(ffi::feed(&mut window[1..], 8, 5, 8), 23 << 32);
/// ```
pub fn feed(window: &mut [u32], count: u32, before: u32, after: u32) -> u64 {
    let (pointer, words) = (window.as_mut_ptr(), window.len());
    unsafe { library::lane_feed(pointer, words, count, before, after) }
}
