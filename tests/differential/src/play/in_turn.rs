//! Dispatches among the other calls, and stretches of them alone.

use reference::table::header;
use reference::Answer;

use super::Play;
use crate::both::Both;
use crate::common::turns::next;
use crate::counts::Origin;
use crate::dispatches;

/// Most dispatches of a stretch.
const TICKS: u32 = 400;

impl Play<'_> {
    /// A dispatch, which the row explains: the task that was ticked, and its answer.
    pub(super) fn dispatch(&mut self, hint: u32) -> Option<(u32, Answer)> {
        let given = dispatches::dispatch(self.counts, Origin::Calls, &mut self.both, hint);
        let answer = given.ok().flatten();
        let task = given.ok().and_then(|answer| self.turn(answer));
        if let Some(task) = task {
            let word = self.both.table()[header::DISPATCHED];
            assert_eq!(word, task, "the word for the task last dispatched");
        }
        self.check();
        task.zip(answer)
    }

    /// The row explains a dispatch that was not refused, none for "idle": the task that was ticked.
    pub(super) fn turn(&mut self, answer: Option<Answer>) -> Option<u32> {
        let moved = next(self.last_ticked, self.sizes.tasks, |task| {
            self.row.notes[task as usize].is_some()
        });
        let task = self.row.dispatch(answer.map(Answer::words));
        self.counts.dispatches.unmoved += u64::from(moved != task);
        self.counts.dispatches.waited(&self.row);
        if let Some((task, answer)) = task.zip(answer) {
            self.count_made(task, answer);
        }
        task
    }

    /// Dispatches alone, often until every task is idle, and the ticks that they stand for as a run on a copy: the same
    /// answers, and the same table but for the task last dispatched.
    pub(super) fn in_turn(&mut self) {
        // With all of them busy some task waits for all others.
        let all = self.random.once_in(2);
        for task in 0..self.sizes.tasks {
            if self.row.notes[task as usize].is_none() && (all || self.random.once_in(2)) {
                self.begin_some(task);
            }
        }
        let mut table = self.both.table().to_vec();
        let (mut list, mut answers) = (Vec::new(), Vec::new());
        for _ in 0..TICKS {
            let hint = self.random.below(self.sizes.nodes);
            let Some((task, answer)) = self.dispatch(hint) else {
                self.counts.dispatches.to_idle += 1;
                break;
            };
            list.extend([task, hint]);
            answers.extend(answer.words());
        }
        let mut both = Both::over(&table);
        let ran = both.run(&list, answers.len(), 0);
        assert_eq!(
            ran,
            (0, list.len() as u32 / 2, answers),
            "dispatches as a run"
        );
        table.copy_from_slice(self.both.table());
        table[header::DISPATCHED] = both.before()[header::DISPATCHED];
        assert!(
            both.table() == table,
            "the table of dispatches is not that of a run"
        );
        self.counts.dispatches.stretches += 1;
        self.counts.add(&both.given);
    }
}
