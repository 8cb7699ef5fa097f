//! The machine for one user: who makes whole calls alone, each a begin whose task then gets all the ticks, needs this
//! small state and these two functions, and nothing of words, nodes or ticks.

pub mod played;

use reference::table::{argument_fits, Sizes, PUSH, REMOVE};
use reference::Answer;

use crate::common::row::Note;
use crate::idle::list::{End, Lanes};

/// Of each lane the bags, and at its ends what is spare and whether there is a spur. All other slots are free.
struct OneUser {
    lanes: Lanes,
    sizes: Sizes,
}

impl OneUser {
    /// What a whole call gives, one of these refusals or its answer, and changes.
    fn call(&mut self, task: u32, call: Note) -> Result<Answer, u32> {
        let Sizes { tasks, lanes, .. } = self.sizes;
        if call.lane >= lanes {
            return Err(26);
        }
        if task >= tasks {
            return Err(5);
        }
        if !(PUSH..=REMOVE).contains(&call.operation) || call.side > 1 {
            return Err(6);
        }
        if !argument_fits(call.operation, [call.argument, call.digit]) {
            return Err(7);
        }
        if call.operation == PUSH && self.lanes.has(call.tag()) {
            return Err(16);
        }
        Ok(self.lanes.make(call, self.sizes))
    }

    /// How many new tags an end takes before it is full.
    fn room(&self, lane: u32, side: u32) -> u32 {
        let End { spare, spur } = self.lanes.0[lane as usize].ends[side as usize];
        spare + spur + self.lanes.free(self.sizes) - 1
    }
}
