//! Snapshots among the other calls. One that was taken brings back the rows of its moment; after any other that is
//! accepted no row is known, and the words alone are compared, until a start or one that was taken.

use reference::table::{header, Sizes};

use super::Play;
use crate::broken;
use crate::common::row::Row;
use crate::common::tables::sizes;
use crate::counts::Origin;
use crate::snapshots::{self, AGAIN, NOT_KNOWN, REFUSED, STARTED};

impl Play<'_> {
    /// Takes a snapshot, which is kept with the rows of this moment.
    pub(super) fn take(&mut self) -> Vec<u32> {
        let snapshot = snapshots::take(self.random, &mut self.both);
        self.kept.keep(snapshot.clone(), &self.row, self.random);
        snapshot
    }

    /// Puts back one that was taken, of whatever moment and start.
    pub(super) fn put_back(&mut self) {
        if let Some(snapshot) = self.kept.pick(self.random) {
            let before = (self.sizes, self.row.clone());
            self.put_taken(&snapshot, Some(before));
        }
    }

    /// Puts back words that were taken, where these rows were known before.
    fn put_taken(&mut self, snapshot: &[u32], before: Option<(Sizes, Row)>) {
        assert_eq!(self.both.put(snapshot), Ok(()));
        let row = self.kept.row_of(snapshot).expect("words that were taken");
        self.brought(row, before);
    }

    /// The rows are those of the moment at which the snapshot was taken; a stretch of ticks begins anew.
    fn brought(&mut self, row: Row, before: Option<(Sizes, Row)>) {
        self.row = row;
        self.sizes = sizes(self.both.table());
        let before = before.as_ref().map(|(sizes, row)| (*sizes, row));
        let counts = &mut self.counts.snapshots;
        counts.brought(before, (self.sizes, &self.row));
        self.end = self.any_end();
        self.favourite = self.random.below(self.sizes.tasks);
        self.stretch = 0;
        self.last_ticked = self.row.turns.last();
        assert_eq!(self.both.table()[header::DISPATCHED], self.last_ticked);
        self.check();
    }

    /// Puts back one that was altered.
    pub(super) fn put_other(&mut self) {
        let snapshot = match self.kept.pick(self.random) {
            Some(snapshot) if self.random.once_in(2) => snapshot,
            _ => self.take(),
        };
        let before = (self.sizes, self.row.clone());
        let (origin, both) = (Origin::Calls, &mut self.both);
        let (words, given) = snapshots::put(self.random, self.counts, origin, both, snapshot);
        if given.is_err() {
            self.counts.snapshots.rows[REFUSED] += 1;
            self.check();
            return;
        }
        match self.kept.row_of(&words) {
            Some(row) => self.brought(row, Some(before)),
            None => self.not_known(),
        }
    }

    /// No row is known: any answers may come, and a snapshot is not kept. Then a start, or one that was taken.
    fn not_known(&mut self) {
        self.counts.snapshots.rows[NOT_KNOWN] += 1;
        for _ in 0..1 + self.random.below(3) {
            broken::calls(self.random, self.counts, &mut self.both);
            snapshots::take(self.random, &mut self.both);
        }
        match self.kept.pick(self.random) {
            Some(snapshot) if self.random.once_in(2) => self.put_taken(&snapshot, None),
            _ => {
                let Sizes {
                    nodes,
                    tasks,
                    growth,
                    lanes,
                } = self.sizes;
                self.counts.snapshots.rows[STARTED] += 1;
                self.start([nodes, tasks, growth, lanes]);
            }
        }
    }

    /// The same ticks twice from one snapshot: the same answers, and the same table.
    pub(super) fn again(&mut self) {
        let snapshot = self.take();
        let ticks = 1 + self.random.below(32);
        let list = self.busy_list(2 * ticks as usize);
        let mut ran = Vec::new();
        for _ in 0..2 {
            let answers = self.both.run(&list, 3 * ticks as usize, 0);
            self.replay(&list, answers.clone());
            ran.push((answers, self.both.table().to_vec()));
            let before = (self.sizes, self.row.clone());
            self.put_taken(&snapshot, Some(before));
        }
        assert!(ran[0] == ran[1], "the same ticks from the same snapshot");
        self.counts.snapshots.rows[AGAIN] += 1;
    }

    /// On the same words 13 slots go for 4 tasks, and come back with a snapshot.
    pub(super) fn other_sizes(&mut self) {
        let Sizes {
            nodes,
            tasks,
            growth,
            lanes,
        } = self.sizes;
        let others = [
            (Some(nodes + 13), tasks.checked_sub(4)),
            (nodes.checked_sub(13), Some(tasks + 4)),
        ];
        let others = others.map(|(nodes, tasks)| Sizes::new(nodes?, tasks?, growth, lanes));
        let Some(other) = self.random.pick(&others) else {
            return;
        };
        let snapshot = self.take();
        self.start([other.nodes, other.tasks, growth, lanes]);
        for task in 0..self.sizes.tasks {
            self.begin_some(task);
            self.tick_some(task, 8);
        }
        self.take();
        let before = (self.sizes, self.row.clone());
        self.put_taken(&snapshot, Some(before));
    }
}
