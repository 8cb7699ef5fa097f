//! What a dispatch comes to.

use crate::{outcome, Answer, Refusal};

/// What a dispatch did, or the last of several. [`Lanes::dispatched`](crate::Lanes::dispatched) says which task it
/// ticked, and costs no test of the table.
///
/// ```
/// use lane::{Dispatched, Lane, Refusal};
///
/// let mut lane = Lane::start([0; lane::words(4, 1)], 4, 1, 0)?;
/// assert_eq!(lane.dispatch(0)?, Dispatched::Idle);
/// assert_eq!(lane.dispatch(4), Err(Refusal::Hint));
/// # Ok::<(), Refusal>(())
/// ```
#[derive(Clone, Copy, Debug, PartialEq, Eq, Hash)]
#[must_use = "a call may have ended, or no task be busy"]
pub enum Dispatched {
    /// Every task is idle, and no word was changed.
    Idle,
    /// A task was ticked, and this is its answer.
    Ticked(Answer),
}

impl Dispatched {
    /// What a dispatch's number says: kind 8 with nothing below it, or a tick's.
    pub(crate) fn of(number: u64) -> Result<Dispatched, Refusal> {
        const IDLE: u64 = 8 << 40;
        match number {
            IDLE => Ok(Dispatched::Idle),
            number => outcome(number).map(Dispatched::Ticked),
        }
    }
}
