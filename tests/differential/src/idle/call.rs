//! What a call alone does to an idle table, by the five numbers of its lane and the free slots.

use reference::table::{Sizes, ADD, POP, PUSH};
use reference::Answer;

use super::list::{End, Lanes, List};
use crate::common::row::Note;

/// What decides, as the right side sees it: r spare slots, n the argument.
#[derive(Clone, Copy)]
pub enum Case {
    PushSpare,
    PushTake,
    PushNone,
    PopBag,
    PopNone,
    AddTake,
    AddNone,
    RemoveSpur,
    RemoveFew,
    RemoveOne,
    RemoveMore,
}
use Case::*;

/// By case, in the same order: its name, and whether it can come with the hat in the list and with the hat on a spur.
pub const CASES: [(&str, [bool; 2]); 11] = [
    ("push, r above 1", [true, true]),
    ("push, r is 1, spur or free slot", [true, true]),
    ("push, r is 1, neither", [true, false]),
    ("pop, a bag", [true, true]),
    ("pop, no bag", [true, true]),
    ("add n, a free slot", [true, true]),
    ("add n, no free slot", [true, true]),
    ("remove n, spur", [false, true]),
    ("remove n, r up to n + 1", [true, false]),
    ("remove n, r is n + 2", [true, false]),
    ("remove n, r above n + 2", [true, false]),
];

impl Lanes {
    /// The case of a call alone.
    pub fn case(&self, call: Note, sizes: Sizes) -> Case {
        let List { ends, tags } = &self.0[call.lane as usize];
        let (End { spare, spur }, free) = (ends[call.side as usize], self.free(sizes));
        match call.operation {
            PUSH if spare > 1 => PushSpare,
            PUSH if free + spur > 0 => PushTake,
            PUSH => PushNone,
            POP if tags.is_empty() => PopNone,
            POP => PopBag,
            ADD if free > 0 => AddTake,
            ADD => AddNone,
            _ if spur == 1 => RemoveSpur,
            _ if spare <= call.argument + 1 => RemoveFew,
            _ if spare == call.argument + 2 => RemoveOne,
            _ => RemoveMore,
        }
    }

    /// Its answer; the lists are then as the call leaves them, all but that of its lane as they were.
    pub fn make(&mut self, call: Note, sizes: Sizes) -> Answer {
        let (case, free) = (self.case(call, sizes), self.free(sizes));
        let list = &mut self.0[call.lane as usize];
        let End { spare, spur } = &mut list.ends[call.side as usize];
        match case {
            PushSpare => *spare -= 1,
            PushTake => *spare = (free + *spur).min(sizes.growth + 1),
            PopBag => *spare += 1,
            AddTake => *spare += free.min(call.argument + 1),
            RemoveMore => *spare = call.argument + 1,
            PushNone | PopNone | AddNone | RemoveSpur | RemoveFew | RemoveOne => {}
        }
        if matches!(case, PushSpare | PushTake | PopBag | AddTake) {
            *spur = 0;
        }
        match case {
            PushSpare | PushTake => {
                list.put(call);
                Answer::Pushed
            }
            PushNone => Answer::Full,
            PopBag | PopNone => list.take(call.side).map_or(Answer::Empty, Answer::Bag),
            AddNone | RemoveOne => Answer::No,
            AddTake | RemoveSpur | RemoveFew | RemoveMore => Answer::Yes,
        }
    }
}

impl List {
    fn put(&mut self, push: Note) {
        match push.side {
            0 => self.tags.push_front(push.tag()),
            _ => self.tags.push_back(push.tag()),
        }
    }

    fn take(&mut self, side: u32) -> Option<u64> {
        match side {
            0 => self.tags.pop_front(),
            _ => self.tags.pop_back(),
        }
    }
}
