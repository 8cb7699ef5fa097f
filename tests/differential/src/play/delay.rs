//! A schedule that puts answers off, for long stretches of ticks without one.

use reference::table::{record, Sizes, PUSH, REMOVE};
use reference::Answer;

use super::Play;

/// Ticks after which a stretch is left as it is; small tables come to its end.
const TICKS: u32 = 20_000;

/// What the next tick of a task comes to.
enum Next {
    /// No other task has to walk again for it.
    Calm,
    /// A swap after which others may have to.
    Disturbs,
    Answers,
}

impl Play<'_> {
    /// On a fresh table the tasks push, and some may remove, at one end or at the ends of several lanes. A tick that
    /// answers is not made, and one that disturbs only when no calm one is left. Where the chains share out the slots,
    /// each splice makes all others at its end walk again.
    pub(super) fn delay(&mut self) {
        let Sizes {
            nodes,
            tasks,
            lanes,
            ..
        } = self.sizes;
        let growth = self.random.below(1 + nodes / tasks).min(64);
        self.start([nodes, tasks, growth, lanes]);
        let mix = self
            .random
            .pick(&[&[PUSH][..], &[PUSH, PUSH, PUSH, REMOVE]]);
        let together = self.random.once_in(2);
        let mut end = self.any_end();
        for task in 0..tasks {
            let operation = self.random.pick(mix);
            self.begin_with(task, operation, end);
            if !together {
                end.lane = self.random.below(lanes);
            }
        }
        for _ in 0..TICKS {
            let hint = self.random.below(nodes);
            let Some(task) = self.patient(hint) else {
                return;
            };
            self.favourite = task;
            self.tick(task, hint);
        }
    }

    /// The task to tick, from the favourite on, going round; none if every tick would answer.
    fn patient(&self, hint: u32) -> Option<u32> {
        let mut disturbing = None;
        for number in 0..self.sizes.tasks {
            let task = (self.favourite + number) % self.sizes.tasks;
            match self.look(task, hint) {
                Next::Calm => return Some(task),
                Next::Disturbs => disturbing = disturbing.or(Some(task)),
                Next::Answers => {}
            }
        }
        disturbing
    }

    /// Makes the tick on a copy of the table.
    fn look(&self, task: u32, hint: u32) -> Next {
        let mut table = self.both.table().to_vec();
        let at = self.sizes.record(task) + record::STEP;
        let step = table[at];
        let answer = reference::tick(&mut table, task, hint).expect("the task is busy");
        match (answer, step, table[at]) {
            (Answer::Going, 62 | 64 | 72, _) | (Answer::Going, 25, 2) => Next::Disturbs,
            (Answer::Going, ..) => Next::Calm,
            _ => Next::Answers,
        }
    }
}
