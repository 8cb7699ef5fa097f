//! A table looked at where it stands: sizes, hats, tasks and bags, without a call for each and without a buffer.
//!
//! Nothing here is proved: it reads words at the places that the table's format gives them, after the library has
//! tested the table. The tests hold it to the library's read.

use core::fmt;

use crate::{ffi, known, pair, place, Operation, Record, Refusal, Side, Tag};

/// Words that the library has accepted as a table.
#[derive(Clone, Copy)]
pub(crate) struct View<'a> {
    words: &'a [u32],
}

impl<'a> View<'a> {
    /// The words as a table, or [`Refusal::Table`] or [`Refusal::Shape`].
    pub fn of(words: &'a [u32]) -> Result<View<'a>, Refusal> {
        // A read of a lane that no table has: the tests of the table, and no walk.
        match pair(ffi::read(words, u32::MAX, &mut [])) {
            (Some(refusal @ (Refusal::Table | Refusal::Shape)), _) => Err(refusal),
            _ => Ok(View::accepted(words)),
        }
    }

    /// The same of words that a call has accepted.
    pub fn accepted(words: &'a [u32]) -> View<'a> {
        View { words }
    }

    pub fn slots(self) -> u32 {
        self.words[place::SLOTS]
    }

    pub fn tasks(self) -> u32 {
        self.words[place::TASKS]
    }

    pub fn lanes(self) -> u32 {
        self.words[place::LANES]
    }

    /// The task last dispatched.
    pub fn dispatched(self) -> u32 {
        self.words[place::DISPATCHED]
    }

    pub fn tick_count(self) -> u32 {
        self.words[place::TICK_COUNT]
    }

    /// The left hat and the right hat of a lane below [`View::lanes`].
    fn hats(self, lane: u32) -> [u32; 2] {
        let at = place::hats(lane);
        [self.words[at], self.words[at + 1]]
    }

    /// The thirteen words of a task below [`View::tasks`].
    fn record(self, task: u32) -> &'a [u32] {
        &self.words[place::record(self.slots(), task)..][..place::RECORD]
    }

    /// The same, copied.
    pub fn copied(self, task: u32) -> Record {
        let mut words = [0; place::RECORD];
        words.copy_from_slice(self.record(task));
        Record::from_words(words)
    }

    pub fn is_busy(self, task: u32) -> bool {
        self.record(task)[place::OPERATION] != 0
    }

    /// The line of the figure at which a task below [`View::tasks`] stands; 0 for one that is idle.
    pub fn step(self, task: u32) -> u32 {
        self.record(task)[place::STEP]
    }

    fn node(self, number: u32) -> &'a [u32] {
        &self.words[place::node(number)..][..place::NODE]
    }
}

/// The step of a task in words that may be anything; 0 for one that is idle or is not there.
pub(crate) fn step(words: &[u32], task: u32) -> u32 {
    let slots = words.get(place::SLOTS).copied().unwrap_or(0);
    let at = place::record(slots, task) + place::STEP;
    words.get(at).copied().unwrap_or(0)
}

/// The tags of a lane, or the refusal that a read of it gets.
pub(crate) fn bags(words: &[u32], lane: u32) -> Result<Bags<'_>, Refusal> {
    // A read with no place for tags: the tests of the table, of the lane, and then of the places.
    match pair(ffi::read(words, lane, &mut [])) {
        (None | Some(Refusal::Out), _) => {
            let view = View::accepted(words);
            let [left_hat, _] = view.hats(lane);
            let node = view.node(left_hat)[place::RIGHT_LINK];
            Ok(Bags { view, node })
        }
        (Some(refusal), _) => Err(refusal),
    }
}

/// The tags of a lane, left end first, read where they stand. [`Lane::bags`](crate::Lane::bags) and
/// [`Lanes::bags`](crate::Lanes::bags) give it.
#[derive(Clone)]
pub struct Bags<'a> {
    view: View<'a>,
    node: u32,
}

impl Iterator for Bags<'_> {
    type Item = Tag;

    fn next(&mut self) -> Option<Tag> {
        let node = self.view.node(self.node);
        // The words of a node without a bag are no tag's.
        let tag = Tag::from_words([node[place::DIGIT], node[place::VALUE]])?;
        self.node = node[place::RIGHT_LINK];
        Some(tag)
    }
}

impl core::iter::FusedIterator for Bags<'_> {}

impl fmt::Debug for Bags<'_> {
    fn fmt(&self, formatter: &mut fmt::Formatter<'_>) -> fmt::Result {
        formatter.debug_list().entries(self.clone()).finish()
    }
}

/// What the words show of a table: its sizes, each lane's bags and hats, and its tasks, or why they are no table. One
/// lane stands for itself, several are a list.
pub(crate) fn show(name: &str, words: &[u32], formatter: &mut fmt::Formatter<'_>) -> fmt::Result {
    let mut shown = formatter.debug_struct(name);
    match View::of(words) {
        Err(refusal) => shown
            .field("refused", &refusal)
            .field("words", &words.len()),
        Ok(view) => {
            shown
                .field("slots", &view.slots())
                .field("growth", &words[place::GROWTH]);
            match view.lanes() {
                1 => Row { view, lane: 0 }.fields(&mut shown),
                _ => shown.field("lanes", &Rows(view)),
            }
            .field("ticks", &view.tick_count())
            .field("dispatched", &view.dispatched())
            .field("tasks", &Tasks(view))
        }
    }
    .finish()
}

struct Rows<'a>(View<'a>);

impl fmt::Debug for Rows<'_> {
    fn fmt(&self, formatter: &mut fmt::Formatter<'_>) -> fmt::Result {
        let rows = (0..self.0.lanes()).map(|lane| Row { view: self.0, lane });
        formatter.debug_list().entries(rows).finish()
    }
}

/// A lane of a table.
struct Row<'a> {
    view: View<'a>,
    lane: u32,
}

impl Row<'_> {
    fn fields<'s, 'a, 'b>(
        &self,
        shown: &'s mut fmt::DebugStruct<'a, 'b>,
    ) -> &'s mut fmt::DebugStruct<'a, 'b> {
        let [left_hat, right_hat] = self.view.hats(self.lane);
        match bags(self.view.words, self.lane) {
            Ok(bags) => shown.field("bags", &bags),
            Err(refusal) => shown.field("bags", &refusal),
        }
        .field("left_hat", &left_hat)
        .field("right_hat", &right_hat)
    }
}

impl fmt::Debug for Row<'_> {
    fn fmt(&self, formatter: &mut fmt::Formatter<'_>) -> fmt::Result {
        self.fields(&mut formatter.debug_struct("Lane")).finish()
    }
}

struct Tasks<'a>(View<'a>);

impl fmt::Debug for Tasks<'_> {
    fn fmt(&self, formatter: &mut fmt::Formatter<'_>) -> fmt::Result {
        let tasks = (0..self.0.tasks()).map(|task| Task { view: self.0, task });
        formatter.debug_list().entries(tasks).finish()
    }
}

struct Task<'a> {
    view: View<'a>,
    task: u32,
}

impl fmt::Debug for Task<'_> {
    fn fmt(&self, formatter: &mut fmt::Formatter<'_>) -> fmt::Result {
        let record = self.view.record(self.task);
        let (argument, digit) = (record[place::ARGUMENT], record[place::ARGUMENT_DIGIT]);
        let operation = match record[place::OPERATION] {
            0 => return formatter.write_str("Idle"),
            1 => Operation::Push(known(Tag::from_words([digit, argument]))),
            2 => Operation::Pop,
            3 => Operation::Add(argument),
            _ => Operation::Remove(argument),
        };
        let side = match record[place::SIDE] {
            0 => Side::Left,
            _ => Side::Right,
        };
        let mut shown = formatter.debug_struct("Busy");
        if self.view.lanes() > 1 {
            shown.field("lane", &record[place::LANE]);
        }
        shown
            .field("operation", &operation)
            .field("side", &side)
            .field("step", &record[place::STEP])
            .finish()
    }
}
