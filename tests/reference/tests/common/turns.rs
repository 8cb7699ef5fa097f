//! Whose tick a dispatch is, by the notes alone, and how many dispatches a task waits for its own.

use super::row::Note;
use super::tables::sizes;
use reference::table::{header, record, IDLE};

/// The next busy task after the last, going round; the last itself comes last.
pub fn next(last: u32, tasks: u32, busy: impl Fn(u32) -> bool) -> Option<u32> {
    (1..=tasks)
        .map(|places| (last + places) % tasks)
        .find(|&task| busy(task))
}

/// The same by a table's words.
pub fn next_in(table: &[u32]) -> Option<u32> {
    let sizes = sizes(table);
    next(table[header::DISPATCHED], sizes.tasks, |task| {
        table[sizes.record(task) + record::OPERATION] != IDLE
    })
}

/// The turns of the tasks since a start.
#[derive(Clone)]
pub struct Turns {
    /// The task last dispatched.
    last: u32,
    /// Of each task, the consecutive dispatches at which it had a note and another was ticked.
    waits: Vec<u32>,
    /// The most of these.
    pub longest: u32,
}

impl Turns {
    pub fn new(tasks: u32) -> Turns {
        Turns {
            last: tasks - 1,
            waits: vec![0; tasks as usize],
            longest: 0,
        }
    }

    /// The task last dispatched.
    pub fn last(&self) -> u32 {
        self.last
    }

    /// A snapshot of this moment was put back: dispatches are counted anew.
    pub fn put_back(&mut self) {
        self.waits.fill(0);
    }

    /// The next task with a note, going round, after the task last dispatched.
    pub fn next(&self, notes: &[Option<Note>]) -> Option<u32> {
        next(self.last, self.waits.len() as u32, |task| {
            notes[task as usize].is_some()
        })
    }

    /// A dispatch ticked this task. One with a note is ticked within T dispatches; those refused are not counted, since
    /// they change nothing.
    pub fn took(&mut self, task: u32, notes: &[Option<Note>]) {
        let tasks = self.waits.len() as u32;
        self.last = task;
        for (other, (wait, note)) in (0..).zip(self.waits.iter_mut().zip(notes)) {
            *wait = if other == task || note.is_none() {
                0
            } else {
                *wait + 1
            };
            assert!(*wait < tasks, "task {other} waits for {tasks} dispatches");
            self.longest = self.longest.max(*wait);
        }
    }
}
