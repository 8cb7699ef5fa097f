//! What a tick answers, and the three words a run writes for it.

use crate::table::{digit, low_part};

/// The answer of a tick that was made.
#[derive(Clone, Copy, Debug, PartialEq, Eq)]
pub enum Answer {
    /// The operation is not finished.
    Going,
    /// A push put its tag in the deque.
    Pushed,
    /// A pop took this tag.
    Bag(u64),
    /// A pop found the deque empty.
    Empty,
    /// A push found no free node.
    Full,
    /// An add or remove succeeded.
    Yes,
    /// An add or remove did not.
    No,
}

impl Answer {
    /// The kind of answer, then the digit and the low part of the tag popped, or zeros.
    pub fn words(self) -> [u32; 3] {
        match self {
            Answer::Going => [0, 0, 0],
            Answer::Pushed => [1, 0, 0],
            Answer::Bag(tag) => [2, digit(tag), low_part(tag)],
            Answer::Empty => [3, 0, 0],
            Answer::Full => [4, 0, 0],
            Answer::Yes => [5, 0, 0],
            Answer::No => [6, 0, 0],
        }
    }
}
