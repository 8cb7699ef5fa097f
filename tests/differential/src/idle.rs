//! Idle tables: five numbers a lane say what is in use, each call alone changes those of its own end as listed, and all
//! slots but two a lane take bags again.

mod any;
mod call;
pub mod list;

use reference::table::{Sizes, ADD, POP, PUSH, REMOVE};
use reference::Answer;

use crate::alone;
use crate::both::Both;
use crate::common::random::Random;
use crate::common::row::Note;
use crate::counts::Counts;
use call::CASES;
use list::Lanes;

/// Holds a table with every task idle to what is claimed of it: calls alone, of each operation, and pushes until all
/// ends are full, each on a copy. Tables without a spur are many, so few of them get it all.
pub fn check(random: &mut Random, counts: &mut Counts, table: &[u32], sizes: Sizes) {
    let lanes = Lanes::of(table, sizes);
    let spurs = counts.idle.saw(&lanes);
    assert!(spurs == 0 || sizes.tasks > 1, "a spur made by one task");
    for operation in [PUSH, POP, ADD, REMOVE] {
        if spurs > 0 || random.once_in(4) {
            let mut quiet = Quiet::over(random, counts, table, sizes);
            let call = quiet.lanes.any(quiet.random, operation);
            quiet.call(call);
            quiet.done();
        }
    }
    for _ in 0..2 {
        if random.once_in(if spurs > 0 { 1 } else { 20 } + sizes.nodes / 16) {
            let mut quiet = Quiet::over(random, counts, table, sizes);
            quiet.fill();
            quiet.done();
        }
    }
}

/// A copy of an idle table, on which calls are made one after another.
struct Quiet<'a> {
    random: &'a mut Random,
    counts: &'a mut Counts,
    both: Both,
    lanes: Lanes,
    sizes: Sizes,
}

impl<'a> Quiet<'a> {
    fn over(
        random: &'a mut Random,
        counts: &'a mut Counts,
        table: &[u32],
        sizes: Sizes,
    ) -> Quiet<'a> {
        Quiet {
            random,
            counts,
            both: Both::over(table),
            lanes: Lanes::of(table, sizes),
            sizes,
        }
    }

    /// A push of a tag that is in a lane, on any lane, at either end and by any task, is turned back.
    fn push_again(&mut self) {
        if let Some(tag) = self.lanes.standing(self.random) {
            let (task, side) = (self.random.below(self.sizes.tasks), self.random.below(2));
            let lane = self.random.below(self.sizes.lanes);
            let given = self.both.begin(task, Note::new(lane, PUSH, side, tag));
            assert_eq!(given, Err(16));
        }
    }

    /// A call alone by any task: its answer and the table after it are as listed.
    fn call(&mut self, call: Note) -> Answer {
        let Note {
            lane,
            operation,
            side,
            ..
        } = call;
        if self.random.once_in(4) {
            self.push_again();
        }
        let task = self.random.below(self.sizes.tasks);
        let begun = self.both.begin(task, call);
        begun.expect("the task is idle");
        let (ticks, words) = alone::run(self.random, &mut self.both, self.sizes, task);
        self.counts.alone.saw(self.sizes.nodes, operation, ticks);
        let case = self.lanes.case(call, self.sizes) as usize;
        let spur = self.lanes.0[lane as usize].ends[side as usize].spur as usize;
        self.counts.idle.calls[case][spur][side as usize] += 1;
        let (name, _) = CASES[case];
        let answer = self.lanes.make(call, self.sizes);
        assert_eq!(words, answer.words(), "answer alone: {name}");
        let after = Lanes::of(self.both.table(), self.sizes);
        assert_eq!(after, self.lanes, "left alone: {name}");
        answer
    }

    /// Pushes at each end of each lane until it is full, in any order: every slot but two a lane has a bag.
    fn fill(&mut self) {
        let Sizes { nodes, lanes, .. } = self.sizes;
        let mut ends: Vec<(u32, u32)> =
            (0..lanes).flat_map(|lane| [(lane, 0), (lane, 1)]).collect();
        while !ends.is_empty() {
            let place = self.random.below(ends.len() as u32);
            let (lane, side) = ends.swap_remove(place as usize);
            let mut answer = Answer::Pushed;
            while answer == Answer::Pushed {
                let push = self.lanes.any(self.random, PUSH);
                answer = self.call(Note { lane, side, ..push });
            }
        }
        let bags = (0..lanes).map(|lane| {
            let tags = self.both.read(lane, 2 * nodes as usize, 0);
            tags.expect("the lane is read").len() as u32
        });
        let bags: u32 = bags.sum();
        assert_eq!(bags, nodes - 2 * lanes, "bags when all ends are full");
    }

    fn done(self) {
        self.counts.add(&self.both.given);
    }
}

/// What was seen of idle tables.
#[derive(Default)]
pub struct Idle {
    /// Tables by lanes, from 1.
    tables: [u64; 4],
    /// Their lanes by spurs, left and right.
    lanes: [[u64; 2]; 2],
    /// Tables with spurs on several lanes.
    several: u64,
    /// Calls alone by case, spur and side.
    calls: [[[u64; 2]; 2]; CASES.len()],
}

impl Idle {
    /// Counts a table; gives its lanes with spurs.
    fn saw(&mut self, lanes: &Lanes) -> usize {
        let mut spurred = 0;
        for list in &lanes.0 {
            let [left, right] = list.ends.map(|end| end.spur as usize);
            self.lanes[left][right] += 1;
            spurred += left.max(right);
            assert!(
                left + right < 2 || !list.tags.is_empty(),
                "two spurs and no bag"
            );
        }
        self.tables[lanes.0.len() - 1] += 1;
        self.several += u64::from(spurred > 1);
        spurred
    }

    /// Prints the counts; gives what was never seen.
    pub fn report(&self) -> Vec<String> {
        let [[_, right], [left, both]] = self.lanes;
        println!(
            "\nidle tables by lanes: {:?}; with spurs on several lanes: {}",
            self.tables, self.several
        );
        println!(
            "lanes of them with the hat on a spur at the left {}, at the right {}, at both {both}",
            left + both,
            right + both
        );
        let mut faults = Vec::new();
        for (name, count) in [
            ("at the left", left),
            ("at the right", right),
            ("at the left and the right", both),
            ("on several lanes", self.several),
        ] {
            if count == 0 {
                faults.push(format!("no idle table with a spur {name}"));
            }
        }
        if self.tables.contains(&0) {
            faults.push(format!("idle tables by lanes: {:?}", self.tables));
        }
        self.report_calls(&mut faults);
        faults
    }

    fn report_calls(&self, faults: &mut Vec<String>) {
        println!(
            "{:31} {:>23} {:>23}",
            "calls alone on them", "hat in the list", "hat on a spur"
        );
        println!(
            "{:31} {:>11} {:>11} {:>11} {:>11}",
            "r spare slots", "left", "right", "left", "right"
        );
        for ((name, comes), counts) in CASES.iter().zip(self.calls) {
            let [[left, right], [spur_left, spur_right]] = counts;
            println!("{name:31} {left:>11} {right:>11} {spur_left:>11} {spur_right:>11}");
            for (comes, sides) in comes.iter().zip(counts) {
                if *comes && sides.contains(&0) {
                    faults.push(format!("never made alone on an idle table: {name}"));
                }
            }
        }
    }
}
