//! Random call lists against plain rows, one for each lane, that see only arguments and answers; a snapshot put back
//! brings back the rows of its moment. Calls are begun in the table, by a list of airlines, or over a lent record.

mod common;

use std::collections::BTreeMap;

use common::kept::Kept;
use common::list_texts;
use common::random::Random;
use common::records;
use common::row::{Note, Row};
use common::sheets::page;
use common::tables::started_lanes;
use reference::airlines::push_by_list;
use reference::sheet::{sheet, BYTES, MAX_PAGE};
use reference::table::{header, record, tag, Sizes, ADD, LEFT, POP, PUSH, REMOVE};
use reference::{begin, begin_record, dispatch, panel, put, run, start, take, tick, Answer};

/// What a list of calls came across, so that a test cannot pass on nothing.
#[derive(Default)]
struct Seen {
    /// By lane, side and step.
    steps: BTreeMap<(u32, u32, u32), u32>,
    answers: [u32; 7],
    longest: usize,
    /// The most lanes that had tags at one time.
    filled: usize,
    /// Begins on a lane that there is not.
    no_lane: u32,
    /// Pushes answered "full" on a lane that was empty, and pushes refused for a tag that only another lane had.
    full_empty: u32,
    other_lane: u32,
    stopped_runs: u32,
    no_node: u32,
    /// Dispatches with every task idle, and the most that a busy task waited for its own.
    idle: u32,
    longest_wait: u32,
    /// Pushes of a tag that was there or on its way, of one that had been there, and of one beside another digit's.
    twice: u32,
    again: u32,
    other_digit: u32,
    /// Snapshots put back, and those of them with other lanes, so of another start.
    put_back: u32,
    put_over_start: u32,
    /// Accepted begins by way, and those over a call that was left off.
    ways: [u32; 4],
    left_off: u32,
}

/// How a call is begun.
#[derive(Clone, Copy)]
enum Way {
    Plain,
    /// By a list of airlines.
    List,
    /// Over the task's record, lent, with its words copied to the table.
    Lent,
    /// The same over a fresh record, whatever the task is in the middle of.
    Over,
}

/// A list that names a push's side for its tag: in the line of its code, or in the closing one.
fn list_for(random: &mut Random, note: Note) -> Vec<u8> {
    let count = 1 + random.below(63) as usize;
    let code = format!("{:03}", note.argument / 1_000_000);
    let mut lines = list_texts::lines(random, count);
    lines.retain(|line| !line.contains(&code));
    let last = lines.len() - 1;
    if code.len() == 3 && random.once_in(2) {
        let place = random.below(lines.len() as u32) as usize;
        lines.insert(place, list_texts::airline(&code, note.side));
    } else {
        lines[last] = list_texts::others(note.side);
    }
    list_texts::text(&lines)
}

struct Player {
    random: Random,
    table: Vec<u32>,
    sizes: Sizes,
    /// The most lanes that a later start may ask for.
    most_lanes: u32,
    row: Row,
    next_tag: u32,
    /// Tags that were popped.
    past: Vec<u64>,
    /// The task that gets most of the ticks, so that others stall.
    favourite: u32,
    /// Whether adds and removes prevail; with stalled pushes they leave spurs.
    churn: bool,
    churn_side: u32,
    kept: Kept,
    seen: Seen,
}

impl Player {
    fn new(seed: u64, sizes: Sizes) -> Player {
        let Sizes {
            nodes,
            tasks,
            growth,
            lanes,
        } = sizes;
        Player {
            random: Random::new(seed),
            table: started_lanes(nodes, tasks, growth, lanes),
            sizes,
            most_lanes: lanes,
            row: Row::new(tasks, lanes),
            next_tag: 0,
            past: Vec::new(),
            favourite: 0,
            churn: false,
            churn_side: 0,
            kept: Kept::default(),
            seen: Seen::default(),
        }
    }

    fn call(&mut self) {
        match self.random.below(100) {
            0..=9 => self.begin(),
            10..=69 => {
                let (task, hint) = self.pair();
                let idle = |note: &Option<Note>| note.is_none();
                if self.row.notes.get(task as usize).is_some_and(idle) {
                    self.begin();
                }
                self.tick(task, hint);
            }
            70..=79 => self.dispatch(),
            80..=86 => self.run(),
            87..=90 => {
                let length = self.random.below(2 * self.sizes.nodes + 2) as usize;
                let lane = self.random.below(self.sizes.lanes + 1);
                self.row.check_short(&self.table, lane, length);
                if self.random.once_in(8) {
                    self.check_sheet(lane);
                }
            }
            91 => self.refused_start(),
            92 if self.random.once_in(2) => self.spur(),
            92 | 93 => {
                self.churn = self.random.once_in(2);
                self.churn_side = self.random.below(2);
            }
            94 => self.take(),
            95 if self.random.once_in(2) => self.put_back(),
            95 => self.refused_snapshots(),
            _ => self.favourite = self.random.below(self.sizes.tasks),
        }
        self.row.check(&self.table);
        let lengths = self.row.tags.iter().map(|tags| tags.len());
        // Each lane keeps two nodes that hold no tag.
        let most = self.sizes.nodes - 2 * self.sizes.lanes;
        assert!(lengths.clone().sum::<usize>() <= most as usize);
        let filled = lengths.clone().filter(|&length| length > 0).count();
        self.seen.longest = lengths.fold(self.seen.longest, usize::max);
        self.seen.filled = self.seen.filled.max(filled);
    }

    fn begin(&mut self) {
        let tasks = self.sizes.tasks;
        let wild = self.random.once_in(12);
        let task = if wild {
            self.random.word()
        } else if self.random.once_in(3) {
            self.random.below(tasks)
        } else {
            self.favourite
        };
        let operation = if wild && self.random.once_in(2) {
            self.random.word()
        } else if self.churn {
            self.random.pick(&[PUSH, ADD, REMOVE, REMOVE])
        } else {
            self.random
                .pick(&[PUSH, PUSH, PUSH, POP, POP, POP, POP, REMOVE])
        };
        let side = if wild || !self.churn || self.random.once_in(4) {
            self.random.below(if wild { 3 } else { 2 })
        } else {
            self.churn_side
        };
        if wild {
            let lane = self.random.below(self.sizes.lanes + 2);
            let (digit, argument) = (self.random.digit(), self.random.word());
            let note = Note {
                lane,
                operation,
                side,
                digit,
                argument,
            };
            self.begin_note(task, note);
            return;
        }
        let lane = self.lane();
        let argument = match operation {
            PUSH => self.any_tag(),
            POP => 0,
            _ => self.random.pick(&[0, 0, 1, 2, 3]),
        };
        self.begin_note(task, Note::new(lane, operation, side, argument));
    }

    fn lane(&mut self) -> u32 {
        self.random.below(self.sizes.lanes)
    }

    fn begin_note(&mut self, task: u32, note: Note) {
        let Note {
            lane,
            operation,
            side,
            digit,
            argument,
        } = note;
        let is_push = operation == PUSH;
        let other_digit = is_push && (0..10).any(|other| self.row.has(tag(other, argument)));
        let again = is_push && self.past.contains(&note.tag());
        let way = self.way(task, note);
        let left_off = match way {
            Way::Over => self.row.notes[task as usize].take(),
            _ => None,
        };
        let wanted = self.row.begin(task, note);
        self.seen.no_lane += u32::from(wanted == Err(26));
        self.seen.twice += u32::from(wanted == Err(16));
        self.seen.other_lane +=
            u32::from(wanted == Err(16) && !self.row.lane_has(lane, note.tag()));
        self.seen.again += u32::from(wanted == Ok(()) && again);
        self.seen.other_digit += u32::from(wanted == Ok(()) && other_digit);
        let before = self.table.clone();
        let table = &mut self.table;
        let found = match way {
            Way::Plain => begin(table, task, lane, operation, side, digit, argument),
            Way::List => {
                let list = list_for(&mut self.random, note);
                match push_by_list(&list, table, task, lane, digit, argument) {
                    (0, _) => Ok(()),
                    (number, line) => {
                        assert_eq!(line, 0, "no fault of the list");
                        Err(number)
                    }
                }
            }
            Way::Lent | Way::Over => {
                let lent = match way {
                    Way::Lent => records::words(table, task),
                    _ => record::FRESH,
                };
                let mut words = lent;
                let given = begin_record(
                    &mut words, table, task, lane, operation, side, digit, argument,
                );
                assert_eq!(*table, before, "the table is read alone");
                if given == 0 {
                    *table = records::copied(table, task, &words);
                    Ok(())
                } else {
                    assert_eq!(words, lent);
                    Err(given)
                }
            }
        };
        assert_eq!(found, wanted);
        match found {
            Ok(()) => {
                self.seen.ways[way as usize] += 1;
                self.seen.left_off += u32::from(left_off.is_some());
            }
            Err(_) => {
                assert_eq!(self.table, before);
                if left_off.is_some() {
                    self.row.notes[task as usize] = left_off;
                }
            }
        }
    }

    /// How a call is begun: a push by list only at an end, and over a record only of a task.
    fn way(&mut self, task: u32, note: Note) -> Way {
        match self.random.below(50) {
            0..=9 if note.operation == PUSH && note.side <= 1 => Way::List,
            10..=19 if task < self.sizes.tasks => Way::Lent,
            20 if task < self.sizes.tasks => Way::Over,
            _ => Way::Plain,
        }
    }

    /// Every page of a lane is its row in print; 26 exactly where there is no such lane.
    fn check_sheet(&self, lane: u32) {
        for number in 0..=MAX_PAGE {
            let mut out = [3; BYTES];
            let found = sheet(&self.table, lane, number, &mut out);
            match self.row.tags.get(lane as usize) {
                None => assert_eq!((found, out), (26, [3; BYTES])),
                Some(row) => {
                    let tags: Vec<u64> = row.iter().copied().collect();
                    assert_eq!(found, 0);
                    assert_eq!(out[..], *page(&tags, number).as_bytes());
                }
            }
        }
    }

    fn pair(&mut self) -> (u32, u32) {
        let wild = self.random.once_in(40);
        let task = if wild {
            self.random.word()
        } else if self.random.once_in(5) {
            self.random.below(self.sizes.tasks)
        } else {
            self.favourite
        };
        let hint = if wild && self.random.once_in(2) {
            self.random.word()
        } else {
            self.random.below(self.sizes.nodes)
        };
        (task, hint)
    }

    /// A push that stalls before its swap while another task removes the spare
    /// nodes and adds new ones, which leaves the hat on a spur.
    fn spur(&mut self) {
        if self.sizes.tasks < 2 {
            return;
        }
        let stalled = self.random.below(self.sizes.tasks - 1);
        let other = stalled + 1;
        let (lane, side) = (self.lane(), self.random.below(2));
        self.operate(other, Note::new(lane, ADD, side, 2));
        self.finish(stalled);
        let tag = self.tag();
        self.begin_note(stalled, Note::new(lane, PUSH, side, tag));
        self.tick(stalled, 0);
        self.tick(stalled, 0);
        self.operate(other, Note::new(lane, REMOVE, side, 0));
        let count = self.random.below(3);
        self.operate(other, Note::new(lane, ADD, side, count.into()));
        // Both may now be anywhere in what follows.
        self.tick(stalled, 0);
        self.favourite = self.random.pick(&[stalled, other]);
        let operation = self.random.pick(&[PUSH, ADD]);
        let argument = if operation == PUSH { self.tag() } else { 1 };
        self.begin_note(other, Note::new(lane, operation, side, argument));
    }

    /// A tag that was never pushed. Each low part, from 0 on, comes with every digit.
    fn tag(&mut self) -> u64 {
        self.next_tag += 1;
        tag(self.next_tag % 10, self.next_tag / 10)
    }

    /// Mostly such a one; sometimes one that is there or on its way, or one that was popped.
    fn any_tag(&mut self) -> u64 {
        let known = match self.random.below(6) {
            0 | 1 => self.row.pick(&mut self.random),
            2 if !self.past.is_empty() => Some(self.random.pick(&self.past)),
            _ => None,
        };
        known.unwrap_or_else(|| self.tag())
    }

    fn operate(&mut self, task: u32, note: Note) {
        self.finish(task);
        self.begin_note(task, note);
        self.finish(task);
    }

    /// What refuses the tick before it looks at registers.
    fn refusal(&self, task: u32, hint: u32) -> Option<u32> {
        if task >= self.sizes.tasks {
            Some(5)
        } else if hint >= self.sizes.nodes {
            Some(9)
        } else if self.row.notes[task as usize].is_none() {
            Some(10)
        } else {
            None
        }
    }

    fn look(&mut self, task: u32) {
        let at = self.sizes.record(task);
        let [lane, side, step] =
            [record::LANE, record::SIDE, record::STEP].map(|field| self.table[at + field]);
        *self.seen.steps.entry((lane, side, step)).or_default() += 1;
    }

    fn tick(&mut self, task: u32, hint: u32) {
        let wanted = self.refusal(task, hint);
        if wanted.is_none() {
            self.look(task);
        }
        let before = self.table.clone();
        match tick(&mut self.table, task, hint) {
            Ok(answer) => {
                assert_eq!(wanted, None);
                let ticks = before[header::TICKS].wrapping_add(1);
                assert_eq!(self.table[header::TICKS], ticks);
                self.seen.answers[answer.words()[0] as usize] += 1;
                self.other_hats_stay(task, &before);
                self.answered(task, answer);
            }
            Err(number) => {
                if wanted.is_none() {
                    assert_eq!(number, 11);
                    self.seen.no_node += 1;
                } else {
                    assert_eq!(Some(number), wanted);
                }
                assert_eq!(self.table, before);
            }
        }
        self.row.check(&self.table);
    }

    /// A tick may move the hat of its task's lane and side, and no other.
    fn other_hats_stay(&self, task: u32, before: &[u32]) {
        let note = self.row.note(task);
        let own = header::hat(note.lane, note.side);
        for hat in (header::HATS..header::ZEROS[0]).filter(|&hat| hat != own) {
            assert_eq!(self.table[hat], before[hat], "{note:?}, hat {hat}");
        }
    }

    /// By the row alone: whose tick it is, and whether it is any.
    fn dispatch(&mut self) {
        let (_, hint) = self.pair();
        let mut wanted = self.table.clone();
        match dispatch(&mut self.table, hint) {
            Ok(given) => {
                assert!(hint < self.sizes.nodes);
                let task = self.row.dispatch(given.map(Answer::words));
                match (task, given) {
                    (Some(task), Some(answer)) => {
                        assert_eq!(tick(&mut wanted, task, hint), Ok(answer));
                        wanted[header::DISPATCHED] = task;
                        self.popped(answer);
                    }
                    _ => self.seen.idle += 1,
                }
            }
            Err(number) => assert_eq!((number, hint >= self.sizes.nodes), (9, true)),
        }
        assert_eq!(self.table, wanted);
        let longest = self.row.turns.longest;
        self.seen.longest_wait = self.seen.longest_wait.max(longest);
    }

    fn answered(&mut self, task: u32, answer: Answer) {
        if answer == Answer::Full {
            let lane = self.row.note(task).lane as usize;
            self.seen.full_empty += u32::from(self.row.tags[lane].is_empty());
        }
        self.row.tick(task, answer.words());
        self.popped(answer);
    }

    fn popped(&mut self, answer: Answer) {
        if let Answer::Bag(tag) = answer {
            self.past.push(tag);
        }
    }

    /// A run, or a short one from the panel, and the same ticks one by one on a copy.
    fn run(&mut self) {
        let count = self.random.below(30) as usize;
        let call = if self.random.once_in(3) { panel } else { run };
        let list: Vec<u32> = (0..count)
            .flat_map(|_| {
                let (task, hint) = self.pair();
                [task, hint]
            })
            .collect();
        let mut answers = vec![77; 3 * count + self.random.below(3) as usize];
        let mut whole = self.table.clone();
        let (number, made) = call(&mut whole, &list, &mut answers);
        let made = made as usize;
        for (pair, words) in list.chunks(2).zip(answers.chunks(3)).take(made) {
            self.look(pair[0]);
            let answer = tick(&mut self.table, pair[0], pair[1]).expect("the run made this tick");
            assert_eq!(answer.words(), words);
            self.answered(pair[0], answer);
            self.row.check(&self.table);
        }
        assert!(answers[3 * made..].iter().all(|&word| word == 77));
        if made < count {
            let pair = &list[2 * made..];
            let refused = tick(&mut self.table.clone(), pair[0], pair[1]);
            assert_eq!(refused, Err(number));
            self.seen.stopped_runs += 1;
        } else {
            assert_eq!(number, 0);
        }
        assert_eq!(whole, self.table);
    }

    fn take(&mut self) {
        let mut snapshot = vec![77; self.table.len()];
        assert_eq!(take(&self.table, &mut snapshot), Ok(()));
        self.kept.keep(snapshot, &self.row, &mut self.random);
    }

    /// A snapshot that was taken: the rows are those of its moment, and the lanes may be others.
    fn put_back(&mut self) {
        if let Some(snapshot) = self.kept.pick(&mut self.random) {
            assert_eq!(put(&snapshot, &mut self.table), Ok(()));
            self.row = self.kept.row_of(&snapshot).expect("taken before");
            let lanes = self.row.tags.len() as u32;
            self.seen.put_back += 1;
            self.seen.put_over_start += u32::from(lanes != self.sizes.lanes);
            self.sizes.lanes = lanes;
            assert_eq!(self.table[header::DISPATCHED], self.row.turns.last());
        }
    }

    fn refused_snapshots(&mut self) {
        let before = self.table.clone();
        let mut words = vec![77; before.len() - 1];
        assert_eq!(take(&self.table, &mut words), Err(22));
        assert_eq!(words, vec![77; before.len() - 1]);
        assert_eq!(put(&words, &mut self.table), Err(22));
        assert_eq!(put(&[&words[..], &[7]].concat(), &mut self.table), Err(3));
        assert_eq!(self.table, before);
    }

    fn refused_start(&mut self) {
        let before = self.table.clone();
        let Sizes {
            nodes,
            tasks,
            lanes,
            ..
        } = self.sizes;
        let table = &mut self.table;
        assert_eq!(start(table, nodes, tasks, 0, 0), Err(25));
        assert_eq!(start(table, nodes, tasks, 65, 5), Err(25));
        assert_eq!(start(table, nodes, tasks, 65, lanes), Err(1));
        let least = 2 * lanes;
        assert_eq!(start(table, least - 1, tasks, 0, lanes), Err(1));
        let other = if nodes == least { least + 1 } else { least };
        assert_eq!(start(table, other, tasks, 0, lanes), Err(2));
        assert_eq!(self.table, before);
    }

    /// The lanes may be others on the same slice.
    fn accepted_start(&mut self) {
        self.sizes.lanes = 1 + self.random.below(self.most_lanes);
        let Sizes {
            nodes,
            tasks,
            growth,
            lanes,
        } = self.sizes;
        let found = start(&mut self.table, nodes, tasks, growth, lanes);
        assert_eq!(found, Ok(()));
        self.row = Row::new(tasks, lanes);
        self.row.check(&self.table);
    }

    /// Each task alone comes to its answer, and the rows can then be popped.
    fn drain(&mut self) {
        for task in 0..self.sizes.tasks {
            self.finish(task);
        }
        for lane in 0..self.sizes.lanes {
            let length = |player: &Player| player.row.tags[lane as usize].len();
            while length(self) > 0 {
                let before = length(self);
                self.operate(0, Note::new(lane, POP, LEFT, 0));
                assert_eq!(length(self) + 1, before);
            }
        }
    }

    fn finish(&mut self, task: u32) {
        for _ in 0..20_000 {
            if self.row.notes[task as usize].is_none() {
                return;
            }
            self.tick(task, 0);
        }
        panic!("task {task} alone does not come to an answer");
    }
}

fn play(seed: u64, sizes: (u32, u32, u32, u32), calls: u32) -> Seen {
    let (nodes, tasks, growth, lanes) = sizes;
    println!("nodes {nodes}, tasks {tasks}, growth {growth}, lanes {lanes}");
    let sizes = Sizes::new(nodes, tasks, growth, lanes).expect("sizes in range");
    let mut player = Player::new(seed, sizes);
    for number in 0..calls {
        if number % 1500 == 1499 {
            player.drain();
            player.accepted_start();
        }
        player.call();
    }
    player.drain();
    player.seen
}

#[test]
fn small_tables_follow_the_row() {
    for (seed, nodes) in (1..).zip(2..=9) {
        for tasks in [1, 2, 3, 5] {
            let seen = play(
                seed * 100 + u64::from(tasks),
                (nodes, tasks, nodes % 3, 1),
                1500,
            );
            assert!(seen.stopped_runs > 0);
            assert!(seen.answers[3] > 0 && seen.twice > 0);
            assert!(tasks > 2 || seen.idle > 0);
            assert!(tasks > 3 || seen.longest_wait + 1 == tasks);
            if nodes > 2 {
                assert!(seen.answers[1] > 0 && seen.answers[2] > 0 && seen.longest > 0);
                assert!(seen.again > 0 && seen.other_digit > 0);
            }
        }
    }
}

#[test]
fn small_tables_of_several_lanes_follow_their_rows() {
    for (seed, lanes) in (200..).zip(2..=4) {
        let mut filled = 0;
        let spares = [0, 1, 2, 3, 4, 9].into_iter();
        for (spare, tasks) in spares.flat_map(|spare| [1, 2, 3, 5].map(|tasks| (spare, tasks))) {
            let seen = play(
                seed * 100 + u64::from(10 * spare + tasks),
                (2 * lanes + spare, tasks, spare % 3, lanes),
                2000,
            );
            assert!(seen.answers[3] > 0 && seen.no_lane > 0);
            assert!(spare > 4 || seen.full_empty > 0);
            if spare > 0 {
                assert!(seen.answers[1] > 0 && seen.answers[2] > 0);
                assert!(seen.other_lane > 0 && seen.again > 0);
            }
            filled = filled.max(seen.filled);
        }
        assert_eq!(filled, lanes as usize);
    }
}

#[test]
fn larger_tables_follow_the_row() {
    for (seed, sizes) in (5000..).zip([
        (16, 16, 3, 1),
        (24, 4, 0, 1),
        (40, 8, 1, 1),
        (100, 3, 64, 1),
        (16, 16, 3, 4),
        (24, 4, 0, 3),
        (40, 8, 1, 2),
        (300, 3, 64, 4),
    ]) {
        let seen = play(seed, sizes, 4000);
        assert!(seen.answers[1] > 20 && seen.answers[2] > 20);
        assert!(seen.longest > 2);
        assert!(seen.twice > 5 && seen.again > 5);
        let (.., lanes) = sizes;
        assert!(lanes == 1 || seen.filled > 1 && seen.other_lane > 5);
    }
}

#[test]
fn every_step_is_met_on_both_sides_of_every_lane_and_every_answer() {
    let mut steps = BTreeMap::new();
    let mut answers = [0; 7];
    let (mut no_node, mut put_back, mut put_over_start) = (0, 0, 0);
    let (mut ways, mut left_off) = ([0; 4], 0);
    for (seed, sizes) in (9000..).zip([
        (8, 3, 1, 1),
        (10, 4, 2, 1),
        (12, 3, 0, 1),
        (12, 5, 1, 1),
        (16, 3, 2, 1),
        (20, 4, 1, 1),
        (16, 3, 1, 4),
        (20, 4, 0, 4),
        (28, 4, 2, 4),
    ]) {
        let seen = play(seed, sizes, 20_000);
        for (key, count) in seen.steps {
            *steps.entry(key).or_insert(0) += count;
        }
        for (sum, count) in answers.iter_mut().zip(seen.answers) {
            *sum += count;
        }
        no_node += seen.no_node;
        put_back += seen.put_back;
        put_over_start += seen.put_over_start;
        left_off += seen.left_off;
        for (sum, count) in ways.iter_mut().zip(seen.ways) {
            *sum += count;
        }
    }
    println!("steps {steps:?}\nanswers {answers:?}\nrefused 11: {no_node}");
    println!("put back {put_back}, over another start {put_over_start}");
    assert!(put_back > 500 && put_over_start > 50);
    println!("begun by way {ways:?}, over a call left off {left_off}");
    assert!(ways.iter().all(|&count| count > 100) && left_off > 50);
    for operation in [PUSH, POP, ADD, REMOVE] {
        for step in common::tables::steps_of(operation) {
            for key in (0..4).flat_map(|lane| [(lane, 0, step), (lane, 1, step)]) {
                let (lane, side, _) = key;
                assert!(
                    steps.contains_key(&key),
                    "lane {lane}, side {side}, step {step}"
                );
            }
        }
    }
    assert!(answers.iter().all(|&count| count > 0), "{answers:?}");
}
