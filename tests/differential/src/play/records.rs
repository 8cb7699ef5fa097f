//! Lent records among the other calls. One that is begun as it stands in the table, and copied at once, is a begin. What
//! else can be done with them is done on a copy of the table: the rows explain it as long as each is copied before any
//! other call, over whatever task; then one is copied late, or other words are, and the words alone are compared.

use reference::table::record::{self, FRESH};
use reference::table::{Sizes, ADD, IDLE, POP, PUSH, REMOVE};

use super::{walked, Play};
use crate::alone;
use crate::both::Both;
use crate::broken;
use crate::common::random::Random;
use crate::common::records::{any, words, Record};
use crate::common::row::{Note, Row};
use crate::counts::Counts;
use crate::records::{
    AS_BEGIN, BOTH, BOTH_ONE_TAG, BROKEN, LATE, NOT_COPIED, OTHER_WORDS, OVER_BUSY, OVER_IDLE,
};

impl Play<'_> {
    /// A record as it stands in the table is begun, and mostly copied: by the row it is a begin, or nothing.
    pub(super) fn lend(&mut self) {
        let task = self.random.below(self.sizes.tasks);
        let call = self.any_call();
        let mut row = self.row.clone();
        let wanted = row.begin(task, call);
        let own = words(self.both.table(), task);
        let (given, own) = self.both.begin_record(&own, task, call);
        assert_eq!(given, wanted, "a begin over a lent record");
        if given.is_ok() {
            if self.random.once_in(4) {
                self.counts.records.done[NOT_COPIED] += 1;
            } else {
                let mut begun = Both::over(self.both.table());
                assert_eq!(begun.begin(task, call), Ok(()));
                self.both.copy(task, &own);
                assert!(self.both.table() == begun.table(), "a copy is no begin");
                self.row = row;
                self.counts.add(&begun.given);
                self.counts.records.done[AS_BEGIN] += 1;
            }
        }
        self.check();
    }

    /// A call as the plays begin them, sometimes of any numbers.
    fn any_call(&mut self) -> Note {
        let operation = self.random.pick(self.mix);
        let end = self.any_end();
        let argument = match operation {
            PUSH => self.any_tag(),
            _ => 0,
        };
        let mut call = Note::new(end.lane, operation, end.side, argument);
        if self.random.once_in(12) {
            match self.random.below(4) {
                0 => call.lane = self.random.below(6),
                1 => call.operation = self.random.below(6),
                2 => call.digit = self.random.digit(),
                _ => call.argument = self.random.word(),
            }
        }
        call
    }

    /// At any step of a task's call, more often at those that are rare, a record is copied over it.
    pub(super) fn lend_over(&mut self, task: u32) {
        let Some(Some(_)) = self.row.notes.get(task as usize) else {
            return;
        };
        let often = match words(self.both.table(), task)[record::STEP] {
            64 | 67..=72 => 6,
            _ => 200,
        };
        if self.random.once_in(often) {
            let operation = self.random.pick(&[POP, ADD, REMOVE]);
            let end = self.any_end();
            let over = Note::new(end.lane, operation, end.side, 0);
            let calls = [(); 4].map(|()| self.any_call());
            let mut copies = self.copies();
            copies.copy_fresh(task, over);
            for call in calls {
                copies.event(call);
            }
            copies.done();
        }
    }

    /// Begins, copies and ticks on a copy of the table, with rows of its own.
    pub(super) fn lend_apart(&mut self) {
        let calls = [(); 24].map(|()| self.any_call());
        let mut copies = self.copies();
        for call in calls {
            copies.event(call);
        }
        if copies.random.once_in(2) {
            copies.late(calls[0]);
        } else {
            copies.other_words(calls[0], calls[1]);
        }
        copies.done();
    }

    fn copies(&mut self) -> Copies<'_> {
        Copies {
            both: Both::over(self.both.table()),
            row: self.row.clone(),
            sizes: self.sizes,
            once: true,
            random: self.random,
            counts: self.counts,
        }
    }
}

/// A copy of a play's table, and the rows beside it.
struct Copies<'a> {
    random: &'a mut Random,
    counts: &'a mut Counts,
    both: Both,
    row: Row,
    sizes: Sizes,
    /// Whether no tag is in two places, as long as no two records were begun side by side.
    once: bool,
}

impl Copies<'_> {
    fn done(self) {
        self.counts.add(&self.both.given);
    }

    fn event(&mut self, call: Note) {
        let task = self.random.below(self.sizes.tasks);
        match self.random.below(8) {
            0 | 1 => self.copy_fresh(task, call),
            2 => self.side_by_side(task, call),
            _ => self.ticks(task, call),
        }
        if self.once {
            self.row.check_once();
        }
        walked(&self.row, self.both.table(), self.sizes);
        let lane = self.random.below(self.sizes.lanes);
        let row = &self.row.tags[lane as usize];
        let read = self.both.read(lane, 2 * row.len(), 7);
        assert!(read.is_ok_and(|tags| row.iter().eq(&tags)), "lane {lane}");
    }

    /// A begin over a record that stands for the task's words, by the rows: what the task was noted for has no say where
    /// the record is fresh.
    fn begin(&mut self, own: &Record, task: u32, call: Note) -> Option<(Record, Row)> {
        let mut row = self.row.clone();
        if *own == FRESH {
            row.notes[task as usize] = None;
        }
        let wanted = row.begin(task, call);
        let (given, own) = self.both.begin_record(own, task, call);
        assert_eq!(given, wanted, "a begin over a lent record");
        given.ok().map(|()| (own, row))
    }

    /// A fresh record is begun, and copied over whatever the task does.
    fn copy_fresh(&mut self, task: u32, call: Note) {
        let before = words(self.both.table(), task);
        if let Some((own, row)) = self.begin(&FRESH, task, call) {
            self.both.copy(task, &own);
            self.row = row;
            self.over(&before);
        }
    }

    fn over(&mut self, before: &Record) {
        let (operation, step) = (before[record::OPERATION], before[record::STEP]);
        let records = &mut self.counts.records;
        if operation == IDLE {
            records.done[OVER_IDLE] += 1;
        } else {
            records.done[OVER_BUSY] += 1;
            records.over(operation, step);
        }
    }

    /// Two records are begun on one table, and copied one after the other: each sets its note. Both may be pushes of one
    /// tag.
    fn side_by_side(&mut self, task: u32, call: Note) {
        let other = self.random.below(self.sizes.tasks);
        if other == task {
            return;
        }
        let second = match self.random.below(3) {
            0 => Note {
                lane: self.random.below(self.sizes.lanes),
                side: self.random.below(2),
                ..call
            },
            _ => Note {
                operation: self.random.pick(&[POP, ADD, REMOVE]),
                digit: 0,
                argument: 0,
                ..call
            },
        };
        let owns = [task, other].map(|task| words(self.both.table(), task));
        let begun = [
            self.begin(&owns[0], task, call),
            self.begin(&owns[1], other, second),
        ];
        let [Some((one, _)), Some((two, _))] = begun else {
            return;
        };
        for (task, own, call) in [(task, one, call), (other, two, second)] {
            self.both.copy(task, &own);
            self.row.notes[task as usize] = Some(call);
        }
        let pushes = [call, second].map(|call| call.operation == PUSH);
        let one_tag = pushes == [true; 2] && call.tag() == second.tag();
        let place = if one_tag { BOTH_ONE_TAG } else { BOTH };
        self.counts.records.done[place] += 1;
        self.once &= !one_tag;
    }

    /// Some ticks of a task, which begins a call if it has none; the rows explain them.
    fn ticks(&mut self, task: u32, call: Note) {
        if self.row.notes[task as usize].is_none() {
            let wanted = self.row.begin(task, call);
            assert_eq!(self.both.begin(task, call), wanted, "begin");
        }
        for _ in 0..1 + self.random.below(16) {
            if self.row.notes[task as usize].is_none() {
                return;
            }
            let hint = self.random.below(self.sizes.nodes);
            let answer = self.both.tick(task, hint).expect("a busy task");
            self.row.tick(task, answer.words());
            self.counts.records.explained += 1;
        }
    }

    /// Every task alone goes on, as far as a call alone would come; then a record that was begun before is copied.
    fn late(&mut self, call: Note) {
        let task = self.random.below(self.sizes.tasks);
        let Some((own, _)) = self.begin(&FRESH, task, call) else {
            return;
        };
        let mut ticks = 0;
        for task in 0..self.sizes.tasks {
            for _ in 0..alone::bound(self.sizes.nodes) {
                if self.row.notes[task as usize].is_none() {
                    break;
                }
                let answer = self.both.tick(task, 0).expect("a busy task");
                self.row.tick(task, answer.words());
                ticks += 1;
            }
            walked(&self.row, self.both.table(), self.sizes);
        }
        self.counts.records.explained += ticks;
        if ticks > 0 {
            self.both.copy(task, &own);
            self.counts.records.done[LATE] += 1;
            broken::calls(self.random, self.counts, &mut self.both);
        }
    }

    /// A record of any words, or one that was begun for another task or altered, is copied.
    fn other_words(&mut self, call: Note, other: Note) {
        let [task, to] = [(); 2].map(|()| self.random.below(self.sizes.tasks));
        let mut own = any(self.random, self.both.table(), task);
        let begun = self.both.begin_record(&own, task, call);
        if begun.0.is_ok() {
            own = begun.1;
        }
        if self.random.once_in(2) {
            let at = self.random.below(record::WORDS as u32) as usize;
            own[at] = self.random.word();
        }
        self.both.copy(to, &own);
        let broken = reference::read(self.both.table(), u32::MAX, &mut []) == Err(4);
        if broken {
            self.counts.records.done[BROKEN] += 1;
            let _ = (self.both.begin(task, other), self.both.tick(to, 0));
            let _ = (self.both.dispatch(0), self.both.read(0, 8, 7));
            let _ = self.both.begin_record(&own, to, other);
        } else {
            self.counts.records.done[OTHER_WORDS] += 1;
            broken::calls(self.random, self.counts, &mut self.both);
        }
    }
}
