//! Lists of whole calls on the library and on the machine for one user, from starts and from idle tables that others
//! left.

use reference::table::{Sizes, ADD, POP, PUSH, REMOVE};
use reference::Answer;

use super::OneUser;
use crate::alone;
use crate::both::Both;
use crate::common::random::Random;
use crate::common::row::Note;
use crate::counts::Counts;
use crate::idle::list::{Lanes, List};

/// Which operations prevail in a list.
const MIXES: [&[u32]; 4] = [
    &[PUSH, POP, ADD, REMOVE],
    &[PUSH, PUSH, POP, REMOVE],
    &[PUSH, POP, POP, REMOVE],
    &[PUSH, ADD, ADD, REMOVE],
];

/// Where a list begins.
#[derive(Clone, Copy)]
enum Since {
    Start,
    Idle,
}

/// So many calls at most from a start.
pub fn from_start(random: &mut Random, counts: &mut Counts, sizes: Sizes, calls: u32) {
    let mut both = Both::over(&vec![random.word(); sizes.words()]);
    let started = both.start([sizes.nodes, sizes.tasks, sizes.growth, sizes.lanes]);
    started.expect("the sizes fit");
    let lanes = Lanes::started(sizes);
    let played = Played {
        random,
        counts,
        since: Since::Start,
        both,
        user: OneUser { lanes, sizes },
    };
    played.list(calls);
}

/// The same from a table with every task idle, whoever used it before; it is read once.
pub fn from_idle(
    random: &mut Random,
    counts: &mut Counts,
    table: &[u32],
    sizes: Sizes,
    calls: u32,
) {
    let lanes = Lanes::of(table, sizes);
    counts.users.spurs += u64::from(lanes.0.iter().any(List::has_spur));
    let played = Played {
        random,
        counts,
        since: Since::Idle,
        both: Both::over(table),
        user: OneUser { lanes, sizes },
    };
    played.list(calls);
}

/// A table, and beside it what its one user knows.
struct Played<'a> {
    random: &'a mut Random,
    counts: &'a mut Counts,
    since: Since,
    both: Both,
    user: OneUser,
}

impl Played<'_> {
    /// Up to so many calls, then pushes at one end until it is full: the table stands as its user knows.
    fn list(mut self, calls: u32) {
        let Sizes { nodes, lanes, .. } = self.user.sizes;
        self.counts.users.lists[self.since as usize][lanes as usize - 1] += 1;
        let mix = self.random.pick(&MIXES);
        for _ in 0..self.random.below(calls + 1) {
            let (task, call) = self.any(mix);
            let _ = self.call(task, call);
        }
        self.fill();
        let left = Lanes::of(self.both.table(), self.user.sizes);
        assert_eq!(left, self.user.lanes, "what is left");
        for (lane, list) in (0..).zip(&self.user.lanes.0) {
            let read = self.both.read(lane, 2 * nodes as usize, 0);
            assert_eq!(read, Ok(list.tags.iter().copied().collect()), "lane {lane}");
        }
        self.counts.add(&self.both.given);
    }

    /// A begin, and where it is accepted consecutive ticks, as many as are proved to be enough: what they give was
    /// foretold.
    fn call(&mut self, task: u32, call: Note) -> Result<Answer, u32> {
        let nodes = self.user.sizes.nodes;
        let mut given = self.both.begin(task, call).map(|()| Answer::Going);
        if given.is_ok() {
            let hint = self.random.below(nodes);
            given = self.both.ticks(task, hint, alone::bound(nodes));
            let ticks = self.both.ticks_made();
            self.counts.alone.saw(nodes, call.operation, ticks);
        }
        let foretold = self.user.call(task, call);
        assert_eq!(given, foretold, "task {task}, {call:?}");
        self.counts.users.saw(self.since, given);
        given
    }

    /// New tags at one end until it is full: as many as there is room for.
    fn fill(&mut self) {
        let Note { lane, side, .. } = self.user.lanes.any(self.random, POP);
        let room = self.user.room(lane, side);
        let mut pushed = 0;
        loop {
            let task = self.random.below(self.user.sizes.tasks);
            let push = self.user.lanes.any(self.random, PUSH);
            match self.call(task, Note { lane, side, ..push }) {
                Ok(Answer::Pushed) => pushed += 1,
                Ok(Answer::Full) => break,
                given => panic!("a new tag: {given:?}"),
            }
        }
        assert_eq!(pushed, room, "lane {lane}, side {side}");
        assert_eq!(self.user.room(lane, side), 0, "lane {lane}, side {side}");
        self.counts.users.rooms[self.since as usize][room.min(2) as usize] += 1;
    }

    /// A call of any task, sometimes with wrong numbers, or of a tag that is in a lane.
    fn any(&mut self, mix: &[u32]) -> (u32, Note) {
        let Sizes { tasks, lanes, .. } = self.user.sizes;
        let random = &mut *self.random;
        let operation = random.pick(mix);
        let mut call = self.user.lanes.any(random, operation);
        let mut task = random.below(tasks);
        match random.below(8) {
            0 => {
                let mut any = |number: &mut u32, least: u32| {
                    if random.once_in(3) {
                        *number = random.word().max(least);
                    }
                };
                any(&mut call.lane, lanes);
                any(&mut task, tasks);
                any(&mut call.operation, REMOVE + 1);
                any(&mut call.side, 2);
                any(&mut call.argument, 1_000_000_000);
                any(&mut call.digit, 10);
            }
            1 if operation == PUSH => {
                if let Some(tag) = self.user.lanes.standing(random) {
                    call = Note::new(call.lane, PUSH, call.side, tag);
                }
            }
            _ => {}
        }
        (task, call)
    }
}

/// What whole calls give: the answers in the order of their kinds, and the refusals.
const ANSWERS: [&str; 6] = ["pushed", "a bag", "empty", "full", "yes", "no"];
const REFUSALS: [u32; 5] = [26, 5, 6, 7, 16];

/// What was seen of one user, by where the lists begin.
#[derive(Default)]
pub struct Users {
    /// Lists by lanes, from 1.
    lists: [[u64; 4]; 2],
    /// Those that begin with a hat on a spur.
    spurs: u64,
    /// As in `ANSWERS`.
    answers: [[u64; ANSWERS.len()]; 2],
    /// As in `REFUSALS`.
    refusals: [[u64; REFUSALS.len()]; 2],
    /// Ends that took no new tag, one, and more.
    rooms: [[u64; 3]; 2],
}

impl Users {
    fn saw(&mut self, since: Since, given: Result<Answer, u32>) {
        match given {
            Ok(answer) => self.answers[since as usize][answer.words()[0] as usize - 1] += 1,
            Err(number) => {
                let place = REFUSALS.iter().position(|&refusal| refusal == number);
                let place = place.unwrap_or_else(|| panic!("a whole call gave {number}"));
                self.refusals[since as usize][place] += 1;
            }
        }
    }

    /// Prints the counts; gives what was never seen.
    pub fn report(&self) -> Vec<String> {
        let mut rows = Vec::new();
        for lanes in 0..4 {
            let name = format!("lists of whole calls, lanes {}", lanes + 1);
            rows.push((name, self.lists.map(|lists| lists[lanes])));
        }
        for (place, name) in ANSWERS.iter().enumerate() {
            let name = format!("whole calls, {name}");
            rows.push((name, self.answers.map(|answers| answers[place])));
        }
        for (place, number) in REFUSALS.iter().enumerate() {
            let name = format!("whole calls, refused with {number}");
            rows.push((name, self.refusals.map(|refusals| refusals[place])));
        }
        for (place, name) in ["no new tag", "one", "more"].iter().enumerate() {
            let name = format!("ends that took {name} until full");
            rows.push((name, self.rooms.map(|rooms| rooms[place])));
        }
        println!(
            "\n{:45} {:>11} {:>11}",
            "one user", "from start", "from idle"
        );
        let mut faults = Vec::new();
        for (name, [start, idle]) in rows {
            println!("{name:45} {start:>11} {idle:>11}");
            if start == 0 || idle == 0 {
                faults.push(format!("one user, {name}: {start}, {idle}"));
            }
        }
        let name = "lists that begin with a hat on a spur";
        println!("{name:45} {:>11} {:>11}", "", self.spurs);
        if self.spurs == 0 {
            faults.push(format!("one user, none: {name}"));
        }
        faults
    }
}
