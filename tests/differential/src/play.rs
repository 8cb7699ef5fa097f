//! Lists of calls on tables that start begins and the calls alone write, explained by the plain rows of the lanes, with
//! snapshots taken and put back, and records lent and copied.

mod adversary;
mod airlines;
mod delay;
mod consecutive;
mod in_turn;
mod records;
mod snapshots;

use reference::table::{
    content, digit, header, is_tag, low_part, node, record, tag, Sizes, ADD, LEFT, MAX_TAG, NONE,
    POP, PUSH, REMOVE,
};
use reference::Answer;

use crate::alone;
use crate::both::{Both, Ran};
use crate::common::kept::Kept;
use crate::common::random::Random;
use crate::common::row::{Note, Row};
use crate::counts::{Counts, Origin};
use crate::idle;
use crate::one_user::played;
use crate::sheets;
use crate::words;

/// Which operations prevail for a while.
const MIXES: [&[u32]; 6] = [
    &[PUSH, POP, ADD, REMOVE],
    &[PUSH, ADD, REMOVE, REMOVE],
    &[PUSH, PUSH, POP],
    &[PUSH, POP, POP, REMOVE],
    &[ADD, REMOVE],
    &[PUSH, POP, REMOVE, REMOVE],
];

/// Low parts from here on are new; the smaller ones are among any numbers.
const FIRST_LOW: u32 = 10_000;

/// One end of one lane.
#[derive(Clone, Copy)]
struct End {
    lane: u32,
    side: u32,
}

impl End {
    /// The other end of the same lane.
    fn other(self) -> End {
        let side = 1 - self.side;
        End { side, ..self }
    }
}

/// A table, the rows beside it, and what prevails in the calls.
pub struct Play<'a> {
    random: &'a mut Random,
    counts: &'a mut Counts,
    both: Both,
    row: Row,
    sizes: Sizes,
    /// New tags so far.
    new_tags: u32,
    /// Tags that were popped.
    past: Vec<u64>,
    mix: &'static [u32],
    /// The end that prevails.
    end: End,
    /// The task that gets most ticks, so that others stall.
    favourite: u32,
    /// Ticks made since one ended a call, or since the start.
    stretch: u32,
    /// The task of the last tick made, by a dispatch or not.
    last_ticked: u32,
    /// Snapshots taken so far.
    kept: Kept,
}

/// Plays so many calls on a table of these sizes.
pub fn play(random: &mut Random, counts: &mut Counts, sizes: Sizes, calls: u32) {
    let mut play = Play {
        both: Both::over(&vec![random.word(); sizes.words()]),
        row: Row::new(sizes.tasks, sizes.lanes),
        mix: MIXES[0],
        end: End { lane: 0, side: 0 },
        favourite: 0,
        stretch: 0,
        last_ticked: 0,
        new_tags: 0,
        past: Vec::new(),
        kept: Kept::default(),
        random,
        counts,
        sizes,
    };
    play.start([sizes.nodes, sizes.tasks, sizes.growth, sizes.lanes]);
    for _ in 0..calls {
        play.call();
    }
    play.idle();
    play.empty_all();
    play.counts.add(&play.both.given);
}

impl Play<'_> {
    fn call(&mut self) {
        match self.random.below(118) {
            0..=54 => {
                let (task, hint) = self.pair();
                if matches!(self.row.notes.get(task as usize), Some(None)) {
                    self.begin_some(task);
                }
                self.tick(task, hint);
            }
            55..=64 => {
                let task = self.random.below(self.sizes.tasks);
                self.begin_some(task);
            }
            65..=74 => self.run(),
            75..=77 => self.read(),
            78..=80 => self.any_numbers(),
            81 | 82 => self.spur(),
            83 => self.splice(),
            84 => self.cut(),
            85 => self.roll(),
            86..=87 => {
                self.mix = self.random.pick(&MIXES);
                self.end = self.any_end();
            }
            88 if self.random.once_in(20) => self.start_again(),
            89 if self.random.once_in(10) => self.extend(),
            90 if self.random.once_in(6) => self.delay(),
            91 if self.random.once_in(2) => self.spurs(),
            92 | 93 => self.panel(),
            94..=102 => {
                let (_, hint) = self.pair();
                self.dispatch(hint);
            }
            103 if self.random.once_in(4) => self.in_turn(),
            104 | 105 => self.ticks(),
            106 | 107 => self.dispatches(),
            108 => {
                self.take();
            }
            109 if self.random.once_in(2) => self.put_back(),
            110 if self.random.once_in(3) => self.put_other(),
            111 if self.random.once_in(4) => self.again(),
            111 if self.random.once_in(8) => self.other_sizes(),
            112 | 113 => self.sheet(),
            114 => self.lend(),
            115 if self.random.once_in(6) => self.lend_apart(),
            _ => self.favourite = self.random.below(self.sizes.tasks),
        }
    }

    fn any_end(&mut self) -> End {
        let (lane, side) = (self.random.below(self.sizes.lanes), self.random.below(2));
        End { lane, side }
    }

    /// After a call: each lane is its row, reading any of them gives that and never 3, 4, 11 or 26, and no tag is in two
    /// places.
    fn check(&mut self) {
        self.row.check_once();
        walked(&self.row, self.both.table(), self.sizes);
        let lane = self.random.below(self.sizes.lanes);
        let row = &self.row.tags[lane as usize];
        let length = 2 * row.len() + self.random.below(2) as usize;
        let tags = self.both.read(lane, length, 0).expect("the lane is read");
        assert!(row.iter().eq(&tags), "lane {lane}: {tags:?}, row {row:?}");
        // Less often where walks are long.
        if self.random.once_in(12 + self.sizes.nodes / 8) {
            self.alone();
        }
        if self.random.once_in(60 + self.sizes.nodes / 4) {
            self.idle();
        }
        if self.random.once_in(60 + self.sizes.nodes / 4) {
            words::check(self.random, self.counts, self.both.table().to_vec());
        }
    }

    /// Every busy task alone comes to its answer.
    fn alone(&mut self) {
        for task in 0..self.sizes.tasks {
            if let Some(note) = self.row.notes[task as usize] {
                let mut both = Both::over(self.both.table());
                let (ticks, _) = alone::run(self.random, &mut both, self.sizes, task);
                self.counts
                    .alone
                    .saw(self.sizes.nodes, note.operation, ticks);
                self.counts.add(&both.given);
                // All of these ticks but the last go on with the stretch.
                let stretch = self.stretch + ticks - 1;
                self.counts.stretches.saw(self.sizes, stretch);
            }
        }
    }

    /// On a copy of the table every busy task comes to its answer; what is claimed of an idle table then holds, and one
    /// user can go on from there.
    fn idle(&mut self) {
        let mut both = Both::over(self.both.table());
        if self.random.once_in(2) {
            let drains = &mut self.counts.drains;
            drains.drain(self.random, &mut both, self.sizes);
        } else {
            self.finish_all(&mut both);
        }
        self.counts.add(&both.given);
        idle::check(self.random, self.counts, both.table(), self.sizes);
        // Less often where much is free.
        if self.random.once_in(12 + self.sizes.nodes / 16) {
            played::from_idle(self.random, self.counts, both.table(), self.sizes, 20);
        }
    }

    /// Every busy task of a copy runs alone to its answer, one after another in any order.
    fn finish_all(&mut self, both: &mut Both) {
        let notes = (0..).zip(&self.row.notes);
        let mut busy: Vec<(u32, Note)> = notes
            .filter_map(|(task, &note)| Some((task, note?)))
            .collect();
        while !busy.is_empty() {
            let place = self.random.below(busy.len() as u32);
            let (task, note) = busy.swap_remove(place as usize);
            let (ticks, _) = alone::run(self.random, both, self.sizes, task);
            self.counts
                .alone
                .saw(self.sizes.nodes, note.operation, ticks);
        }
    }

    /// Any lane, sometimes one that there is not.
    fn any_lane(&mut self) -> u32 {
        match self.random.below(8) {
            0 => self.random.word(),
            _ => self.random.below(self.sizes.lanes + 1),
        }
    }

    /// A page of a lane, to an out slice of any length.
    fn sheet(&mut self) {
        let lane = self.any_lane();
        let (number, length) = sheets::some_page(self.random);
        let content = self.random.word() as u8;
        let given = self.both.sheet(lane, number, length, content);
        let row = self.row.tags.get_mut(lane as usize);
        let tags = row.map_or(Err(26), |row| Ok(&*row.make_contiguous()));
        sheets::hold(self.counts, &given, tags, number, length);
    }

    /// A lane, to an out slice of any length.
    fn read(&mut self) {
        let lane = self.any_lane();
        let length = self.random.below(2 * self.sizes.nodes + 2) as usize;
        let content = self.random.word();
        let wanted = match self.row.tags.get(lane as usize) {
            None => Err(26),
            Some(row) if length < 2 * row.len() => Err(12),
            Some(row) => Ok(row.iter().copied().collect()),
        };
        assert_eq!(self.both.read(lane, length, content), wanted, "lane {lane}");
    }

    fn start(&mut self, given: [u32; 4]) {
        if self.both.start(given).is_ok() {
            let [slots, tasks, growth, lanes] = given;
            let sizes = Sizes::new(slots, tasks, growth, lanes);
            self.sizes = sizes.expect("accepted sizes are in range");
            self.row = Row::new(tasks, lanes);
            self.end = self.any_end();
            self.favourite = 0;
            self.stretch = 0;
            self.last_ticked = tasks - 1;
        }
        self.check();
    }

    /// On the same words: the same sizes, or 13 slots for 4 tasks; and any lanes.
    fn start_again(&mut self) {
        let Sizes { nodes, tasks, .. } = self.sizes;
        let (growth, lanes) = (self.random.below(65), self.random.below(6));
        let (slots, tasks) = match self.random.below(3) {
            0 if tasks > 4 => (nodes + 13, tasks - 4),
            1 if nodes > 14 => (nodes - 13, tasks + 4),
            _ => (nodes, tasks),
        };
        self.start([slots, tasks, growth, lanes]);
    }

    fn begin(&mut self, task: u32, operation: u32, end: End, argument: u64) {
        self.begin_call(task, Note::new(end.lane, operation, end.side, argument));
    }

    fn begin_call(&mut self, task: u32, call: Note) {
        let wanted = self.row.begin(task, call);
        let given = self.both.begin(task, call);
        assert_eq!(given, wanted, "begin");
        self.begun(task, call, given);
        self.check();
    }

    /// Counts what the begin of a push gave, by a list or not.
    fn begun(&mut self, task: u32, call: Note, given: Result<(), u32>) {
        if call.operation == PUSH && !matches!(given, Err(5..=7 | 26)) {
            let before = self.both.before();
            let begins = &mut self.counts.begins;
            begins.saw(Origin::Calls, before, task, call, given);
            begins.again += u64::from(given.is_ok() && self.past.contains(&call.tag()));
        }
    }

    /// The tag of a busy push comes again, on its own task or on any, for any end of any lane.
    fn begin_again(&mut self, task: u32) {
        if let Some(Some(push)) = self.row.notes.get(task as usize).copied() {
            if push.operation == PUSH {
                let any = self.random.below(self.sizes.tasks);
                let other = self.random.pick(&[task, any]);
                let End { lane, side } = self.any_end();
                self.begin_call(other, Note { lane, side, ..push });
            }
        }
    }

    fn begin_some(&mut self, task: u32) {
        let operation = self.random.pick(self.mix);
        let end = match self.random.below(4) {
            0 => self.end.other(),
            1 => self.any_end(),
            _ => self.end,
        };
        match operation {
            PUSH => {
                let tag = self.any_tag();
                if self.random.once_in(4) {
                    self.push_by_list(task, Note::new(end.lane, PUSH, end.side, tag));
                } else {
                    self.begin(task, PUSH, end, tag);
                }
            }
            _ => self.begin_with(task, operation, end),
        }
    }

    /// A push is of a tag that is nowhere.
    fn begin_with(&mut self, task: u32, operation: u32, end: End) {
        let argument = match operation {
            PUSH => self.tag(),
            POP => 0,
            ADD if self.random.once_in(20) => self.random.below(65).into(),
            REMOVE if self.random.once_in(20) => self.random.below(1024).into(),
            _ => self.random.pick(&[0, 0, 0, 1, 1, 2, 3]),
        };
        self.begin(task, operation, end, argument);
    }

    /// A tag that is nowhere: mostly a new one, of which ten have one low part, often one with V 0.
    fn tag(&mut self) -> u64 {
        loop {
            let tag = if self.random.once_in(4) {
                tag(1 + self.random.below(9), 0)
            } else {
                self.new_tags += 1;
                tag(self.new_tags % 10, FIRST_LOW + self.new_tags / 10)
            };
            if !self.row.has(tag) {
                return tag;
            }
        }
    }

    /// Mostly such a one; sometimes one that is there or in a busy push, the same with another digit, one that was
    /// popped, or a limit.
    fn any_tag(&mut self) -> u64 {
        let known = match self.random.below(24) {
            0 => self.row.pick(self.random),
            1 => self.row.pick(self.random).map(|standing| {
                let digit = self.random.below(10);
                tag(digit, low_part(standing)).max(1)
            }),
            2 if !self.past.is_empty() => Some(self.random.pick(&self.past)),
            3 => Some(self.random.pick(&[1, 999_999_999, 1_000_000_000, MAX_TAG])),
            _ => None,
        };
        known.unwrap_or_else(|| self.tag())
    }

    fn pair(&mut self) -> (u32, u32) {
        let any = self.random.once_in(60);
        let task = match self.random.below(4) {
            0 if any => self.random.word(),
            0 => self.random.below(self.sizes.tasks),
            _ => self.favourite,
        };
        let hint = if any {
            self.random.word()
        } else {
            self.random.below(self.sizes.nodes)
        };
        (task, hint)
    }

    fn tick(&mut self, task: u32, hint: u32) {
        let given = self.both.tick(task, hint);
        match given {
            Ok(answer) => {
                let (before, after) = (self.both.before(), self.both.table());
                self.counts.tick(Origin::Calls, before, after, task, given);
                self.made(task, answer);
            }
            Err(number) => self.refused(task, hint, number),
        }
        self.check();
        // At any step, with the push standing there.
        if self.random.once_in(24) {
            self.begin_again(task);
        }
        self.lend_over(task);
    }

    /// A plain tick was made: the row explains it.
    fn made(&mut self, task: u32, answer: Answer) {
        self.row.tick(task, answer.words());
        self.count_made(task, answer);
    }

    /// After any tick that was made: a stretch goes on or ends.
    fn count_made(&mut self, task: u32, answer: Answer) {
        self.last_ticked = task;
        if let Answer::Bag(tag) = answer {
            self.past.push(tag);
        }
        self.stretch = match answer {
            Answer::Going => self.stretch + 1,
            _ => 0,
        };
        self.counts.stretches.saw(self.sizes, self.stretch);
    }

    /// 5, 9 and 10 in this order, by the row's notes; never 11.
    fn refused(&self, task: u32, hint: u32, number: u32) {
        let wanted = match self.row.notes.get(task as usize) {
            None => 5,
            _ if hint >= self.sizes.nodes => 9,
            Some(None) => 10,
            Some(Some(_)) => 0,
        };
        assert_eq!(number, wanted, "a tick was refused");
    }

    fn tick_some(&mut self, task: u32, ticks: u64) {
        for _ in 0..ticks {
            if self.row.notes[task as usize].is_some() {
                let hint = self.random.below(self.sizes.nodes);
                self.tick(task, hint);
            }
        }
    }

    /// A task gets all the ticks up to its answer.
    fn finish(&mut self, task: u32) {
        let mut ticks = 0;
        while let Some(note) = self.row.notes[task as usize] {
            self.tick_some(task, 1);
            ticks += 1;
            self.counts
                .alone
                .saw(self.sizes.nodes, note.operation, ticks);
        }
    }

    /// A run, and its ticks one by one on a copy.
    fn run(&mut self) {
        let count = match self.random.below(200) {
            0 => 4095 + self.random.below(3),
            _ => self.random.below(40),
        };
        let mut list: Vec<u32> = (0..count)
            .flat_map(|_| <[u32; 2]>::from(self.pair()))
            .collect();
        if self.random.once_in(50) {
            list.push(0);
        }
        let length = (3 * (list.len() / 2) + self.random.below(3) as usize)
            .saturating_sub(self.random.below(2) as usize);
        let content = self.random.word();
        let ran = self.both.run(&list, length, content);
        assert_ne!(ran.0, 15, "a run was refused for the panel");
        self.replay(&list, ran);
        self.check();
    }

    /// A list from the panel. Up to 64 words a run of it on the same table does the same; over them 13 or 15 is given.
    fn panel(&mut self) {
        let words = match self.random.below(4) {
            0 => self.random.pick(&[0, 2, 62, 64, 65, 66, 8194]),
            1 => 60 + self.random.below(8),
            _ => 64,
        };
        let list = self.busy_list(words as usize);
        let exact = 3 * (words / 2);
        let length = match self.random.below(4) {
            0 => self.random.below(exact + 1),
            _ => exact + self.random.below(3),
        };
        let content = self.random.word();
        let ran = self.both.panel(&list, length as usize, content);
        if words <= 64 {
            let mut both = Both::over(self.both.before());
            assert_eq!(both.run(&list, length as usize, content), ran, "a run");
            assert_eq!(both.table(), self.both.table(), "a run's table");
            self.counts.add(&both.given);
        } else {
            let wanted = if words % 2 == 1 || words > 8192 {
                13
            } else {
                15
            };
            assert_eq!((ran.0, ran.1), (wanted, 0), "{words} words");
        }
        self.replay(&list, ran);
        self.check();
    }

    /// A list of pairs, of busy tasks as long as there are any: each of its ticks is made on a copy. Then of any.
    fn busy_list(&mut self, words: usize) -> Vec<u32> {
        let mut table = self.both.table().to_vec();
        let mut list = Vec::new();
        while list.len() < words {
            let (mut task, hint) = self.pair();
            let at = |task| self.sizes.record(task) + record::OPERATION;
            if !(task < self.sizes.tasks && table[at(task)] != 0) {
                let busy = (0..self.sizes.tasks).find(|&task| table[at(task)] != 0);
                task = busy.unwrap_or(task);
            }
            let _ = reference::tick(&mut table, task, hint);
            list.extend([task, hint]);
        }
        list.truncate(words);
        list
    }

    fn replay(&mut self, list: &[u32], (number, made, answers): Ran) {
        let made = made as usize;
        let mut ticks = Replayed::from(self.both.before());
        for (pair, words) in list.chunks(2).zip(answers.chunks(3)).take(made) {
            let given = ticks.next(|table| reference::tick(table, pair[0], pair[1]));
            let answer = given.expect("the run made this tick");
            assert_eq!(answer.words(), words, "the run's answer");
            self.made(pair[0], answer);
            self.replayed(&ticks, pair[0], answer);
        }
        self.replayed_all(&ticks);
        match (number, list.get(2 * made..)) {
            (0, rest) => assert_eq!(rest, Some(&[][..]), "the run stopped early"),
            (13, _) => assert!(list.len() % 2 == 1 || list.len() > 8192),
            (15, _) => assert!(list.len() > 64),
            (14, _) => assert!(answers.len() < 3 * (list.len() / 2)),
            (_, Some(&[task, hint, ..])) => self.refused(task, hint, number),
            (_, rest) => panic!("refused {number} at {rest:?}"),
        }
    }

    /// After a tick of a call of several: it is counted, and every lane is its row.
    fn replayed(&mut self, ticks: &Replayed, task: u32, answer: Answer) {
        let Replayed { before, after } = ticks;
        self.counts
            .tick(Origin::Calls, before, after, task, Ok(answer));
        self.row.check_once();
        walked(&self.row, after, self.sizes);
    }

    /// After the last of them.
    fn replayed_all(&self, ticks: &Replayed) {
        assert!(
            ticks.after == self.both.table(),
            "the call's table is not that of its ticks"
        );
    }

    fn any_numbers(&mut self) {
        let [one, two, three, four] = [(); 4].map(|()| self.random.word());
        let lane = self.random.pick(&[0, 1, 2, 3, 4, one]);
        let call = Note {
            lane,
            operation: two % 8,
            side: three % 4,
            digit: self.random.digit(),
            argument: four,
        };
        match self.random.below(5) {
            0 => self.start([one, two, three, lane]),
            1 => self.begin_call(one, call),
            2 => self.begin_call(one % 20, call),
            3 => self.push_by_list(one % 20, call),
            _ => self.tick(one, two),
        }
    }

    /// Every task comes to its answer, and every bag of every lane is taken.
    fn empty_all(&mut self) {
        for task in 0..self.sizes.tasks {
            self.finish(task);
        }
        for lane in 0..self.sizes.lanes {
            self.empty(lane);
        }
        let at = self.sizes.record(0);
        assert_eq!(self.both.table()[at..at + record::WORDS], record::FRESH);
        assert_eq!(header::ZEROS.map(|zero| self.both.table()[zero]), [0, 0]);
    }

    /// Pops at either end, each of which takes a bag, until there is none.
    fn empty(&mut self, lane: u32) {
        for left in (0..self.row.tags[lane as usize].len()).rev() {
            let side = self.random.below(2);
            self.begin(0, POP, End { lane, side }, 0);
            self.finish(0);
            let length = self.row.tags[lane as usize].len();
            assert_eq!(length, left, "a pop took no bag");
        }
    }
}

/// The ticks of a call of several, one by one on a copy of the table before it.
struct Replayed {
    before: Vec<u32>,
    after: Vec<u32>,
}

impl Replayed {
    fn from(table: &[u32]) -> Replayed {
        Replayed {
            before: table.to_vec(),
            after: table.to_vec(),
        }
    }

    /// The next tick.
    fn next<T>(&mut self, tick: impl FnOnce(&mut [u32]) -> T) -> T {
        self.before.copy_from_slice(&self.after);
        tick(&mut self.after)
    }
}

/// Every lane is its row: from the left hat's R along R while there is a tag.
fn walked(row: &Row, table: &[u32], sizes: Sizes) {
    let right = |slot| table[sizes.node(slot) + node::RIGHT];
    let held = |slot| {
        assert_ne!(slot, NONE, "a lane has no end");
        content(table, sizes.node(slot) + node::VALUE)
    };
    for (lane, row) in (0..).zip(&row.tags) {
        let mut slot = right(table[header::hat(lane, LEFT)]);
        for &tag in row {
            let wanted = [low_part(tag), digit(tag)];
            assert_eq!(held(slot), wanted, "lane {lane}, row {row:?}");
            slot = right(slot);
        }
        assert!(!is_tag(held(slot)), "lane {lane} is longer than {row:?}");
    }
}
