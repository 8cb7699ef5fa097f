//! Any call on an idle table, by what is in its lanes.

use reference::table::{low_part, tag, ADD, MAX_TAG, POP, PUSH, REMOVE};

use super::list::Lanes;
use crate::common::random::Random;
use crate::common::row::Note;

impl Lanes {
    /// A call of this operation, removes often near what is there.
    pub fn any(&self, random: &mut Random, operation: u32) -> Note {
        let (lane, side) = (random.below(self.0.len() as u32), random.below(2));
        let spare = self.0[lane as usize].ends[side as usize].spare;
        let argument = match operation {
            PUSH => return Note::new(lane, PUSH, side, self.new_tag(random)),
            POP => 0,
            ADD if random.once_in(2) => random.below(65),
            REMOVE if random.once_in(8) => random.below(1024),
            REMOVE => random.below(spare),
            _ => random.below(3),
        };
        Note::new(lane, operation, side, argument.into())
    }

    /// A tag that is in no lane; one that is in a lane may have its low part.
    fn new_tag(&self, random: &mut Random) -> u64 {
        loop {
            let any = 1 + random.next() % MAX_TAG;
            let low = match random.below(4) {
                0 => 0,
                1 => self.standing(random).map_or(0, low_part),
                _ => low_part(any),
            };
            let tag = tag(random.below(10), low);
            if tag > 0 && !self.has(tag) {
                return tag;
            }
        }
    }

    /// A tag that is in a lane, if there is any.
    pub fn standing(&self, random: &mut Random) -> Option<u64> {
        let tags: Vec<u64> = self.tags().collect();
        (!tags.is_empty()).then(|| random.pick(&tags))
    }
}
