//! The plain row: what each lane holds by the calls and their answers alone. It never sees the table.

use std::collections::VecDeque;

use lane::{Answer, Tag};

/// The rows of the lanes, and what each task was told to do.
#[derive(Default)]
pub struct Row {
    lanes: Vec<VecDeque<Tag>>,
    notes: Vec<Option<Note>>,
}

/// What a task was told to do.
#[derive(Clone, Copy)]
pub struct Note {
    /// The lane.
    pub lane: u32,
    /// 0 left, 1 right.
    pub side: u32,
    /// The tag of a push.
    pub tag: Option<Tag>,
}

/// How an answer changes the row of its lane.
#[derive(Clone, Copy, Debug, PartialEq, Eq)]
#[allow(missing_docs)]
pub enum Change {
    /// A bag comes at the end of a side.
    Put { lane: u32, side: u32, tag: Tag },
    /// The bag at the end of a side goes.
    Taken { lane: u32, side: u32 },
}

impl Row {
    /// Empty rows, and idle tasks.
    pub fn start(lanes: u32, tasks: u32) -> Row {
        Row {
            lanes: vec![VecDeque::new(); lanes as usize],
            notes: vec![None; tasks as usize],
        }
    }

    /// A begin that was accepted.
    pub fn begin(&mut self, task: u32, note: Note) {
        self.notes[task as usize] = Some(note);
    }

    /// The answer of a task's tick.
    pub fn answer(&mut self, task: u32, answer: Answer) -> Option<Change> {
        if answer == Answer::Going {
            return None;
        }
        let Note { lane, side, tag } = self.notes[task as usize].take().expect("a task in a call");
        let row = &mut self.lanes[lane as usize];
        match (answer, tag) {
            (Answer::Pushed, Some(tag)) => {
                match side {
                    0 => row.push_front(tag),
                    _ => row.push_back(tag),
                }
                Some(Change::Put { lane, side, tag })
            }
            (Answer::Bag(bag), _) => {
                let taken = match side {
                    0 => row.pop_front(),
                    _ => row.pop_back(),
                };
                assert_eq!(taken, Some(bag), "the row gives another bag");
                Some(Change::Taken { lane, side })
            }
            _ => None,
        }
    }

    /// The bags of a lane, left end first.
    pub fn bags(&self, lane: u32) -> impl Iterator<Item = Tag> + '_ {
        self.lanes[lane as usize].iter().copied()
    }
}
