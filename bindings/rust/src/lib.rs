//! The proved lane machine for Rust programs: one to four lanes, each a double-ended queue of bags, that up to sixteen
//! tasks work on, one tick at a time, over one table of words.
//!
//! The machine is the static library of this repository; every line of it is proved. This crate gives names to its
//! numbers, ticks a call to its answer ([`Lane::call`]) and looks at a table where it stands ([`Lane::bags`],
//! [`Lanes::is_busy`], `Debug`). It needs no standard library and allocates nothing: the caller lends the words.
//!
//! ```
//! use lane::{Answer, Lane, Operation, Refusal, Side, Tag};
//!
//! fn main() -> Result<(), Refusal> {
//!     let mut lane = Lane::start([0; lane::words(4, 1)], 4, 1, 0)?;
//!     let tag = Tag::new(51).expect("not 0, and ten digits");
//!     assert_eq!(lane.call(0, Operation::Push(tag), Side::Right)?, Answer::Pushed);
//!     assert!(lane.read(&mut [[0; 2]; 4])?.eq([tag]));
//!
//!     lane.begin(0, Operation::Pop, Side::Left)?;
//!     let mut answers = [[0; 3]; 4];
//!     let ran = lane.run(&[[0, 0]; 4], &mut answers);
//!     assert_eq!(ran.answers().last(), Some(Answer::Bag(tag)));
//!     assert_eq!(lane.tick(0, 0), Err(Refusal::Idle));
//!     Ok(())
//! }
//! ```
//!
//! # What to know
//!
//! [`Lane`] is a table with one lane. A table with several is [`Lanes`]: its begin, read and bags say which lane, from
//! 0. Each lane is its own row of bags, and all share the slots; else a call changes nothing of a lane but its own.
//!
//! A slot, also called a node, is the place of one bag. Slots at an end of a lane with no bag are spare; each end
//! always has one at least, so a table of S slots and L lanes carries at most S - 2L bags in all ([`Lanes::max_bags`]),
//! with one lane S - 2 ([`Lane::max_bags`]).
//!
//! The row of bags of a lane changes in just the tick that answers: in that of [`Answer::Pushed`] the bag comes to its
//! end, in that of [`Answer::Bag`] the bag at its end is gone. All other ticks and all other calls, but for a start and a
//! put, leave every row as it is. A read at any time, whatever calls stand in the middle, is the row.
//!
//! [`Answer::Full`] is not about the bags alone: spare slots at other ends count, those of other lanes too, and so does
//! what a call left in the middle may still use, up to S - 2L slots, so that a push may be full with no bag in any
//! lane. Do not leave a call standing while bags pass. The way out: drain the table, as below; then at one other end
//! after another, of every lane, push, pop the bag again, remove 0, and try again each time: [`Lanes::make_room`] does
//! this. Full to the last, with no other task in a call: no other end has place for more than one bag, so that with one
//! lane S - 2 bags are in it, or S - 3 and the last place is at the other end.
//!
//! A bag goes by its [`Tag`] of ten digits, which is in one place at most: a push of a tag that stands in any lane, or
//! that a busy push has, is refused when it is begun ([`Refusal::Twice`]).
//!
//! The caller says whose tick is next, or lets [`Lanes::dispatch`] tick the busy tasks in turn. [`Lanes::ticks`] and
//! [`Lanes::dispatches`] make many of them, with one test of the table.
//!
//! The baggage office sends and wants lists of tags in packed decimal. [`tags_read`] and [`tags_write`] take them to
//! two words a tag, as [`Lane::read`] writes them, and back; they need no table.
//!
//! An [`AirlineList`] says which airline is loaded at which end. It is a text that is edited on site; a faulty one is
//! refused, and its first faulty line named. [`Lanes::push_by_list`] begins a push at the end that the list names for
//! its tag.
//!
//! The shift office prints a lane on pages of 80 columns by 60 lines, the tags in lines of seven under a heading with
//! their number. [`Lanes::sheet`] gives a [`Page`].
//!
//! A [`Snapshot`] holds the words of a table by columns, to keep and to compare. [`Lanes::take`] takes one, and
//! [`Lanes::put`] puts it back: the table is then what it was, and the calls after it are answered as those after the
//! moment at which it was taken. Put back only what you took, whole.
//!
//! A belt panel may keep the [`Record`] of its task in its own memory: [`Lanes::begin_record`] begins a call there and
//! reads the table alone, and [`Begun::copy`] copies the record to the table.
//!
//! A [`Window`] counts how many of the last ticks lost the swap of their line, which warns of tasks that fight over an
//! end. It is fed each tick, or ticks and feeds at once.
//!
//! [`Answer::Yes`] of a remove says that nothing more is to be done by it, and not that a slot was given back.
//! [`Answer::No`] of a remove, with no other task in a call, means exactly one spare slot more than asked for; trying
//! again changes nothing.
//!
//! Different tables may be used by different threads, and a shared `&Lane` may be read by several ([`ffi::begin_record`]
//! reads a table too). Calls that tick take
//! under 3.7 kB of stack, the others under 0.8 kB; a [`Page`] is 4,860 bytes.
//! The library is for x86-64.
//!
//! # What a caller can count on
//!
//! This is proved of tables that a start began and these calls alone have written since, a put only of a snapshot that
//! was taken of such a table and not altered; docs/USE.md says it in full.
//!
//! With no task in a call, what a call that then gets all the ticks ([`Lanes::call`]) answers and leaves is told by the
//! bags, the spare slots at its end, r, the free slots, f, and whether that end has a slot on a spur, y, 1 or 0:
//!
//! | call | when | answer | then |
//! |---|---|---|---|
//! | push | r above 1 | pushed | r - 1 |
//! | push | r 1, f + y above 0 | pushed | r is f + y, and at most growth + 1 |
//! | push | r 1, f + y 0 | full | as before |
//! | pop | a bag | the bag | r + 1 |
//! | pop | no bag | empty | as before |
//! | add n | f above 0 | yes | r more by f, and at most by n + 1 |
//! | add n | f 0 | no | as before |
//! | remove n | y 1, or r up to n + 1 | yes | as before |
//! | remove n | y 0, r is n + 2 | no | as before |
//! | remove n | y 0, r above n + 2 | yes | r is n + 1; the others are free |
//!
//! After "pushed", a bag and an add's "yes" y is 0. A start leaves r 1 and y 0 at every end, and S - 2L free. So who
//! makes whole calls alone can foretell every answer; an end takes r + y + f - 1 new bags, and is full then.
//!
//! With no new begin, [`Lanes::dispatches`] drains a table: every call under way gets its answer.
//!
//! # What is assumed
//!
//! What is proved is the code of the library as its compiler takes it, before the back end that makes machine code of it,
//! and for calls on a table that come one after another, with slices as [`ffi`] hands them in. This crate is tested and
//! not proved: what it says of a table beyond the library's answers is held to them by its tests.
//!
//! It was proved with the Rattle kit that the README names, by what `rt version` prints of it. The files of the repository
//! grant no licence by themselves.
//!
//! # Where the library is
//!
//! The build looks for `libdeque.a` in `crates/deque/out` of the repository, where `make library` puts it, or for
//! `libdeque.a` or `liblane.a` in the folder that the environment's `LANE_LIBRARY` names, an absolute path.

#![no_std]

mod airlines;
mod answer;
mod call;
mod dispatched;
pub mod ffi;
mod lane;
mod lanes;
mod limits;
mod linked;
mod list;
mod page;
pub mod place;
mod record;
mod shown;
mod snapshot;
mod tag;
mod view;
mod window;

pub use airlines::{AirlineList, ListFault};
pub use answer::{Answer, NotStarted, Ran, Refusal};
pub use call::{Operation, Side};
pub use dispatched::Dispatched;
pub use lane::Lane;
pub use lanes::Lanes;
pub use limits::{
    max_ticks_alone, window_words, words, LIST_BYTES, LIST_LINES, LIST_TAGS, MAX_ADD, MAX_DIGIT,
    MAX_GROWTH, MAX_LANES, MAX_LOW, MAX_PANEL_TICKS, MAX_REMOVE, MAX_SLOTS, MAX_TASKS, MAX_TICKS,
    MAX_WIDTH, MIN_LANES, MIN_SLOTS, MIN_TASKS, PAGES, PAGE_BYTES, PAGE_COLUMNS, PAGE_LINES,
    PAGE_TAGS, TAG_BYTES,
};
pub use linked::Library;
pub use list::{tags_read, tags_write, RefusedTags, TagWords};
pub use page::Page;
pub use record::{Begun, Record};
pub use snapshot::Snapshot;
pub use tag::{ParseTagError, Tag, TagRangeError, Tags};
pub use view::Bags;
pub use window::{Watched, Window};

/// The library's version.
pub const VERSION: &str = env!("CARGO_PKG_VERSION");

/// The number of the table's format: a table is worked on by libraries of its format alone. One of an older format is
/// refused with [`Refusal::Table`]. To move on to a new format, drain the table with the library of the old one, read its
/// lanes, start a table with the new library, and push the bags there in that order.
pub const TABLE_FORMAT: u32 = 4;

/// The refusal of a number; none for 0.
fn refused(number: u32) -> Option<Refusal> {
    (number != 0).then(|| known(Refusal::from_number(number)))
}

fn reply(number: u32) -> Result<(), Refusal> {
    refused(number).map_or(Ok(()), Err)
}

/// What the number of every call that returns two halves says: the refusal, if there is one, in the high half, and the
/// count in the low one.
fn pair(number: u64) -> (Option<Refusal>, usize) {
    (refused((number >> 32) as u32), number as u32 as usize)
}

/// What a tick's number says: the kind above 40 bits, the tag or the refusal in them.
fn outcome(number: u64) -> Result<Answer, Refusal> {
    let (kind, value) = ((number >> 40) as u32, number & ((1 << 40) - 1));
    if kind == 7 {
        let refusal = u32::try_from(value).ok().and_then(Refusal::from_number);
        return Err(known(refusal));
    }
    let [digit, low] = tag::split(value);
    Ok(known(Answer::from_words([kind, digit, low])))
}

/// The library's contract has no other number. One that says it is of this version, and is not, cannot be told before:
/// a number that it cannot give stops the program and is not guessed at.
#[track_caller]
fn known<T>(decoded: Option<T>) -> T {
    decoded.expect("a number outside the contract: is libdeque.a of another version linked?")
}
