//! What a task can be told to do, and the numbers that say so.

use crate::Tag;

/// An end of the lane.
#[derive(Clone, Copy, Debug, PartialEq, Eq, Hash)]
pub enum Side {
    /// The left end, which a read gives first.
    Left,
    /// The right end.
    Right,
}

impl Side {
    /// The number in a task's record.
    ///
    /// ```
    /// assert_eq!(lane::Side::Right.number(), 1);
    /// ```
    #[must_use]
    pub const fn number(self) -> u32 {
        match self {
            Side::Left => 0,
            Side::Right => 1,
        }
    }
}

/// A call with its argument; begin refuses that of an add or a remove if it is out of range.
#[derive(Clone, Copy, Debug, PartialEq, Eq, Hash)]
pub enum Operation {
    /// Put a bag with this tag at the end.
    Push(Tag),
    /// Take the bag at the end.
    Pop,
    /// Make a free slot a spare one at the end, and 0 to 64 more as far as there are free ones.
    Add(u32),
    /// Give back the spare slots at the end but the one that stays and so many, 0 to 1,023.
    Remove(u32),
}

impl Operation {
    /// The number in a task's record.
    ///
    /// ```
    /// assert_eq!(lane::Operation::Push(lane::Tag::MIN).number(), 1);
    /// ```
    #[must_use]
    pub const fn number(self) -> u32 {
        match self {
            Operation::Push(_) => 1,
            Operation::Pop => 2,
            Operation::Add(_) => 3,
            Operation::Remove(_) => 4,
        }
    }

    /// The argument in a task's record, its leading digit first: of a push its tag's, of the others 0.
    ///
    /// ```
    /// use lane::{Operation, Tag};
    ///
    /// assert_eq!(Operation::Push(Tag::MAX).argument(), [9, 999_999_999]);
    /// assert_eq!(Operation::Add(2).argument(), [0, 2]);
    /// ```
    #[must_use]
    pub const fn argument(self) -> [u32; 2] {
        match self {
            Operation::Push(tag) => tag.words(),
            Operation::Pop => [0, 0],
            Operation::Add(count) | Operation::Remove(count) => [0, count],
        }
    }
}
