//! Where each word of a table stands, in format [`TABLE_FORMAT`](crate::TABLE_FORMAT), for those who look at
//! [`Lanes::words`](crate::Lanes::words) themselves.
//!
//! A table is a header of [`HEADER`] words, [`NODE`] words for each slot, then [`RECORD`] words for each task.
//!
//! ```
//! use lane::{place, Lanes, Operation, Side, Tag};
//!
//! let mut lanes = Lanes::start([0; lane::words(8, 2)], 8, 2, 0, 2)?;
//! lanes.begin(1, 1, Operation::Push(Tag::MAX), Side::Right)?;
//! let words = lanes.words();
//! let record = &words[place::record(8, 1)..][..place::RECORD];
//! assert_eq!(record[place::OPERATION], Operation::Push(Tag::MAX).number());
//! assert_eq!((record[place::ARGUMENT_DIGIT], record[place::ARGUMENT]), (9, 999_999_999));
//! assert_eq!(record[place::LANE], 1);
//! let left_hat = words[place::hats(1)];
//! assert_eq!(words[place::node(left_hat) + place::LEFT_LINK], place::NONE);
//! # Ok::<(), lane::Refusal>(())
//! ```

/// In the header: the number of slots.
pub const SLOTS: usize = 0;
/// In the header: the number of tasks.
pub const TASKS: usize = 1;
/// In the header: the growth.
pub const GROWTH: usize = 2;
/// In the header: the number of lanes.
pub const LANES: usize = 3;
/// In the header: the ticks made since the start.
pub const TICK_COUNT: usize = 4;
/// In the header: the task last dispatched.
pub const DISPATCHED: usize = 5;
/// In the header: the left hat of lane 0. Its right hat is next, then those of the other lanes; [`NONE`] where there is
/// no such lane.
pub const HATS: usize = 6;
/// The words of the header.
pub const HEADER: usize = 16;

/// The words of a slot.
pub const NODE: usize = 4;
/// In a slot: the number of the slot to the left.
pub const LEFT_LINK: usize = 0;
/// In a slot: the number of the slot to the right.
pub const RIGHT_LINK: usize = 1;
/// In a slot: the low part of the bag's tag, or a mark.
pub const VALUE: usize = 2;
/// In a slot: the leading digit of the bag's tag.
pub const DIGIT: usize = 3;

/// The words of a task's record.
pub const RECORD: usize = 13;
/// In a record: the operation's number, [`Operation::number`](crate::Operation::number); 0 for an idle task.
pub const OPERATION: usize = 0;
/// In a record: the step.
pub const STEP: usize = 1;
/// In a record: the side, [`Side::number`](crate::Side::number).
pub const SIDE: usize = 2;
/// In a record: the argument, of a push the low part of its tag.
pub const ARGUMENT: usize = 3;
/// In a record: the leading digit of a push's tag.
pub const ARGUMENT_DIGIT: usize = 4;
/// In a record: how many slots are counted so far.
pub const COUNTED: usize = 5;
/// In a record: the low part of the value read, or a mark.
pub const VALUE_READ: usize = 6;
/// In a record: the leading digit of the value read.
pub const VALUE_READ_DIGIT: usize = 7;
/// In a record: the registers A, B, C and D, each a slot's number or [`NONE`].
pub const REGISTERS: usize = 8;
/// In a record: the lane.
pub const LANE: usize = 12;

/// The number that stands for no slot.
pub const NONE: u32 = 65_535;

/// Where the left hat of a lane stands; its right hat is next.
#[must_use]
pub const fn hats(lane: u32) -> usize {
    HATS + 2 * lane as usize
}

/// Where the words of a slot begin.
#[must_use]
pub const fn node(slot: u32) -> usize {
    HEADER + NODE * slot as usize
}

/// Where the record of a task begins, in a table of so many slots.
#[must_use]
pub const fn record(slots: u32, task: u32) -> usize {
    crate::words(slots, task)
}
