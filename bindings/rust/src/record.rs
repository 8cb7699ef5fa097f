//! Records of tasks that a panel keeps in its own memory, lent to be begun there and copied to the table.

use core::fmt;

use crate::place::{self, RECORD};

/// The record of a task, as its panel keeps it: thirteen words, at the [places](crate::place) of a record.
/// [`Lanes::begin_record`](crate::Lanes::begin_record) begins a call in it.
///
/// ```
/// use lane::{Answer, Lane, Operation, Record, Side, Tag};
///
/// let mut lane = Lane::start([0; lane::words(4, 2)], 4, 2, 0)?;
/// let mut record = Record::FRESH; // the panel's own
/// lane.begin_record(&mut record, 1, Operation::Push(Tag::MAX), Side::Right)?.copy();
/// assert!(record.is_busy());
/// assert_eq!(lane.record(1)?, record);
/// assert_eq!(lane.ticks(1, 0, u32::MAX)?, Answer::Pushed);
/// record = lane.record(1)?; // the task is idle, and the record fresh again
/// assert_eq!(record, Record::FRESH);
/// # Ok::<(), lane::Refusal>(())
/// ```
#[derive(Clone, Copy, PartialEq, Eq, Hash)]
#[repr(transparent)]
pub struct Record([u32; RECORD]);

impl Record {
    /// That of an idle task.
    pub const FRESH: Record = {
        let mut words = [0; RECORD];
        let mut register = place::REGISTERS;
        while register < place::LANE {
            words[register] = place::NONE;
            register += 1;
        }
        Record(words)
    };

    /// A record of any words; a begin tests them.
    ///
    /// ```
    /// use lane::Record;
    ///
    /// assert_eq!(Record::from_words(Record::FRESH.words()), Record::FRESH);
    /// ```
    #[must_use]
    pub const fn from_words(words: [u32; RECORD]) -> Record {
        Record(words)
    }

    /// Its words, in the order of the table.
    ///
    /// ```
    /// assert_eq!(lane::Record::FRESH.words()[..9], [0, 0, 0, 0, 0, 0, 0, 0, 65_535]);
    /// ```
    #[must_use]
    pub const fn words(self) -> [u32; RECORD] {
        self.0
    }

    /// Whether it is of a task in the middle of a call.
    ///
    /// ```
    /// assert!(!lane::Record::FRESH.is_busy());
    /// ```
    #[must_use]
    pub const fn is_busy(self) -> bool {
        self.0[place::OPERATION] != 0
    }

    pub(crate) fn words_mut(&mut self) -> &mut [u32; RECORD] {
        &mut self.0
    }
}

impl fmt::Debug for Record {
    fn fmt(&self, formatter: &mut fmt::Formatter<'_>) -> fmt::Result {
        formatter.debug_tuple("Record").field(&self.0).finish()
    }
}

/// A call that was begun in a lent record, and is not in the table yet: [`Begun::copy`] copies it there. As long as it is
/// there, no other call can come in between. Dropped, it is nothing: the table is as it was.
#[must_use = "the call is in the record alone until it is copied"]
pub struct Begun<'a> {
    place: &'a mut [u32],
    record: &'a Record,
}

impl<'a> Begun<'a> {
    /// Of a place of thirteen words.
    pub(crate) fn new(place: &'a mut [u32], record: &'a Record) -> Begun<'a> {
        Begun { place, record }
    }

    /// Copies the record to the place of its task. So done it is a begin, and all that is said of a begin holds.
    ///
    /// Where the table has the task in the middle of a call, which a fresh record that was lent does not show, that call
    /// is taken away without an answer. If it is a remove, slots can be lost for good: a start, or a snapshot from before
    /// it, is the way back.
    pub fn copy(self) {
        self.place.copy_from_slice(&self.record.0);
    }
}

impl fmt::Debug for Begun<'_> {
    fn fmt(&self, formatter: &mut fmt::Formatter<'_>) -> fmt::Result {
        formatter.debug_tuple("Begun").field(self.record).finish()
    }
}
