//! Consecutive ticks and dispatches among the other calls: those before the last said "going", and the table's count tells
//! how many there were.

use reference::table::header;
use reference::Answer;

use super::{Play, Replayed};
use crate::counts::Origin;
use crate::consecutive::{last_of, Last, Of};

impl Play<'_> {
    /// Ticks of one task, often to its answer.
    pub(super) fn ticks(&mut self) {
        let (task, hint) = self.pair();
        if self.random.once_in(2) && matches!(self.row.notes.get(task as usize), Some(None)) {
            self.begin_some(task);
        }
        let times = self.times();
        let given = self.both.ticks(task, hint, times);
        if let Err(number) = given {
            self.refused(task, hint, number);
        }
        let made = self.saw(Of::Ticks, times, given.map(Some));
        let mut ticks = Replayed::from(self.both.before());
        for answer in answers(made, given.ok()) {
            let single = ticks.next(|table| reference::tick(table, task, hint));
            assert_eq!(single, Ok(answer), "a consecutive tick");
            self.made(task, answer);
            self.replayed(&ticks, task, answer);
        }
        self.replayed_all(&ticks);
        self.check();
    }

    /// Dispatches, often until a call ends.
    pub(super) fn dispatches(&mut self) {
        let (_, hint) = self.pair();
        let times = self.times();
        let given = self.both.dispatches(hint, times);
        if let Err(number) = given {
            assert!(number == 9 && hint >= self.sizes.nodes, "refused {number}");
        }
        let made = self.saw(Of::Dispatches, times, given);
        let mut ticks = Replayed::from(self.both.before());
        for answer in answers(made, given.ok().flatten()) {
            let single = ticks.next(|table| reference::dispatch(table, hint));
            assert_eq!(single, Ok(Some(answer)), "a consecutive dispatch");
            let task = self.turn(Some(answer)).expect("a tick was made");
            assert_eq!(ticks.after[header::DISPATCHED], task);
            self.replayed(&ticks, task, answer);
        }
        if given == Ok(None) {
            assert_eq!(self.turn(None), None);
        }
        self.replayed_all(&ticks);
        self.check();
    }

    /// How many are asked for.
    fn times(&mut self) -> u32 {
        let [few, some] = [4, 60].map(|bound| self.random.below(bound));
        self.random.pick(&[0, 1, few, some, some, u32::MAX])
    }

    /// Counts what they came to; gives how many ticks were made.
    fn saw(&mut self, of: Of, times: u32, given: Result<Option<Answer>, u32>) -> u32 {
        let (made, last) = (self.both.ticks_made(), last_of(given));
        let no_tick = u32::from(matches!(last, Last::Idle | Last::Refused));
        let consecutive = &mut self.counts.consecutive;
        consecutive.saw(of, Origin::Calls, times, made + no_tick, last);
        made
    }
}

/// The answers of so many consecutive ticks, by what the last call gave.
fn answers(made: u32, last: Option<Answer>) -> impl Iterator<Item = Answer> {
    (1..=made).map(move |tick| match last {
        Some(answer) if tick == made => answer,
        _ => Answer::Going,
    })
}
