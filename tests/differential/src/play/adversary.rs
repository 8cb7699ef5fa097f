//! Schedules that chance seldom makes: hats on spurs, removes inside spurs, the lane moved on under stalled tasks, and
//! long walks.

use reference::table::{record, ADD, NONE, POP, PUSH, REMOVE};

use super::{End, Play};
use crate::common::row::Note;

impl Play<'_> {
    /// A push stalls before its swap while the spare slots behind its back are removed and others added: the hat then
    /// goes to a spur. The remove and a task with a chain of its own may stall too, and work on the spur later.
    pub(super) fn spur(&mut self) {
        let Some((end, [pusher, remover, adder, builder])) = self.cast() else {
            return;
        };
        if builder != pusher {
            self.build(builder, adder, end);
        }
        let spare = 1 + self.first_of(4);
        self.operate(adder, ADD, end, spare);
        self.finish(pusher);
        self.begin_with(pusher, PUSH, end);
        self.tick_some(pusher, 2);
        self.finish(remover);
        let keep = self.first_of(2);
        self.begin(remover, REMOVE, end, keep);
        let ticks = self.random.pick(&[3, 4, 5, 6, 7, 8, 10, 12, 15, 20, 100]);
        self.tick_some(remover, ticks);
        self.operate(adder, ADD, end, keep);
        self.tick_some(pusher, 1);
        if self.random.once_in(3) {
            // The way back to the lane is cut off as the builder takes it.
            self.until(builder, 70);
            self.operate(adder, POP, end, 0);
            self.operate(adder, ADD, end, 1);
            self.operate(adder, REMOVE, end, 0);
        }
        self.on_the_spur([pusher, remover, adder, builder], end);
    }

    /// The same with every other task idle, at one end of a lane, at its other end, and at an end of another lane.
    pub(super) fn spurs(&mut self) {
        if self.sizes.tasks < 2 {
            return;
        }
        for task in 0..self.sizes.tasks {
            self.finish(task);
        }
        let (first, last) = (self.any_end(), self.any_end());
        let mut ends = vec![first, first.other()];
        if last.lane != first.lane {
            ends.push(last);
        }
        for end in ends {
            self.operate(1, ADD, end, 1);
            self.begin_with(0, PUSH, end);
            self.tick_some(0, 2);
            self.operate(1, REMOVE, end, 0);
            let spare = self.first_of(3);
            self.operate(1, ADD, end, spare);
            self.finish(0);
            if self.random.once_in(3) {
                // A short lane becomes empty, and the hat stays on its spur.
                for _ in 0..3 {
                    self.operate(1, POP, end.other(), 0);
                }
            }
            self.idle();
        }
    }

    /// A push or add comes to hold a chain, and stalls.
    fn build(&mut self, builder: u32, other: u32, end: End) {
        if self.random.once_in(2) {
            self.operate(other, REMOVE, end, 0);
        }
        self.finish(builder);
        let operation = self.random.pick(&[PUSH, PUSH, ADD]);
        for _ in 0..4 {
            self.begin_with(builder, operation, end);
            let at = self.sizes.record(builder) + record::D;
            for _ in 0..12 {
                if self.both.table()[at] == NONE {
                    self.tick_some(builder, 1);
                }
            }
            if self.both.table()[at] != NONE {
                return;
            }
            self.finish(builder);
        }
    }

    /// A splice stalls at its swap while the slots that it goes by are cut off and broken up, or cut at its own slot.
    pub(super) fn splice(&mut self) {
        let Some((end, [builder, remover, other, last])) = self.cast() else {
            return;
        };
        self.build(builder, other, end);
        let spare = 1 + self.first_of(3);
        self.operate(other, ADD, end, spare);
        self.finish(remover);
        let keep = self.first_of(2);
        self.begin(remover, REMOVE, end, keep);
        if self.random.once_in(2) {
            self.until(remover, 64);
        }
        self.until(builder, 25);
        let stop = self.random.pick(&[74, 77, 78, 79, 82]);
        self.until(remover, stop);
        self.tick_some(builder, 1);
        self.tick_some(remover, 3);
        self.on_the_spur([builder, remover, other, last], end);
    }

    /// A remove cuts inside the slots that another remove has cut off.
    pub(super) fn cut(&mut self) {
        let Some((end, [inner, outer, other, last])) = self.cast() else {
            return;
        };
        self.operate(other, ADD, end, 4);
        for task in [inner, outer] {
            self.finish(task);
        }
        let keep = 1 + self.first_of(3);
        self.begin(inner, REMOVE, end, keep);
        self.until(inner, 62);
        self.begin(outer, REMOVE, end, 0);
        let stop = self.random.pick(&[64, 74, 77, 78]);
        self.until(outer, stop);
        self.tick_some(inner, 1);
        self.until(outer, 81);
        self.on_the_spur([inner, outer, other, last], end);
    }

    /// An end and four tasks, the first three different; none if there are not so many.
    fn cast(&mut self) -> Option<(End, [u32; 4])> {
        let tasks = self.sizes.tasks;
        let (end, first) = (self.any_end(), self.random.below(tasks));
        (tasks > 2).then(|| (end, [0, 1, 2, 3].map(|number| (first + number) % tasks)))
    }

    /// A busy task comes to a step, or to its answer.
    fn until(&mut self, task: u32, step: u32) {
        let at = self.sizes.record(task) + record::STEP;
        for _ in 0..60 {
            if self.both.table()[at] != step {
                self.tick_some(task, 1);
            }
        }
    }

    /// The tasks go on, stop anywhere, and go on again while the end of the lane is moved, cut and made longer.
    fn on_the_spur(&mut self, tasks: [u32; 4], end: End) {
        self.alone();
        self.idle();
        for _ in 0..self.first_of(12) {
            let task = self.random.pick(&tasks);
            if self.row.notes[task as usize].is_none() {
                let operation = self.random.pick(&[PUSH, POP, POP, ADD, REMOVE, REMOVE]);
                self.begin_with(task, operation, end);
            }
            let ticks = self.random.pick(&[1, 2, 3, 4, 5, 7, 60]);
            self.tick_some(task, ticks);
        }
        self.end = end;
        self.favourite = self.random.pick(&tasks);
    }

    /// Bags go in at one end and out at the other, with slots removed behind them and added in front: the slots that a
    /// stalled task means come to stand in the lane, past its other end and outside.
    pub(super) fn roll(&mut self) {
        let Some((end, [worker, builder, ..])) = self.cast() else {
            return;
        };
        self.build(builder, worker, end);
        self.operate(worker, ADD, end, 1);
        self.until(builder, 17);
        for _ in 0..1 + self.first_of(8) {
            match self.random.below(8) {
                0 => self.operate(worker, REMOVE, end, 0),
                1 => self.operate(worker, ADD, end, 1),
                2..=3 => {
                    let keep = self.first_of(2);
                    self.operate(worker, REMOVE, end.other(), keep);
                }
                _ => {
                    let tag = self.tag();
                    self.operate(worker, PUSH, end, tag);
                    let keep = self.first_of(2) as usize;
                    while self.row.tags[end.lane as usize].len() > keep {
                        self.operate(worker, POP, end.other(), 0);
                    }
                }
            }
            // Another task may go on a little and stall again.
            let task = self.random.below(self.sizes.tasks);
            if task != worker {
                let ticks = self.first_of(3);
                self.tick_some(task, ticks);
            }
        }
    }

    /// Most slots of a large table come to stand at one end, where a splice and a remove then walk long.
    pub(super) fn extend(&mut self) {
        let Some((end, [worker, builder, ..])) = self.cast() else {
            return;
        };
        self.build(builder, worker, end);
        for _ in 0..self.sizes.nodes / 65 {
            self.operate(worker, ADD, end, 64);
        }
        for task in 0..self.sizes.tasks {
            if self.row.notes[task as usize].is_none() {
                let operation = self.random.pick(&[PUSH, POP, ADD, REMOVE]);
                self.begin_with(task, operation, end);
            }
        }
        self.alone();
        self.operate(worker, REMOVE, end, 0);
    }

    /// A number below a bound, small ones more often.
    fn first_of(&mut self, bound: u32) -> u64 {
        let limit = 1 + self.random.below(bound);
        self.random.below(limit).into()
    }

    /// A call of a task that has finished what it was at, to its answer.
    fn operate(&mut self, task: u32, operation: u32, end: End, argument: u64) {
        self.finish(task);
        self.elsewhere(end.lane);
        self.begin(task, operation, end, argument);
        self.finish(task);
    }

    /// A task in the middle of a call on another lane may go on a little.
    fn elsewhere(&mut self, lane: u32) {
        let task = self.random.below(self.sizes.tasks);
        let other = |note: Note| note.lane != lane;
        if self.row.notes[task as usize].is_some_and(other) {
            let ticks = self.first_of(4);
            self.tick_some(task, ticks);
        }
    }
}
