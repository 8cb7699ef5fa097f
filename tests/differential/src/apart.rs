//! Lanes do not meet: no node is reached from two of them, and a tick changes nothing that is of another lane.

use reference::table::{content, header, is_tag, node, record, Sizes, IDLE, NONE};
use reference::Answer;

use crate::common::paths::Needed;

/// Steps are below this.
const STEPS: usize = 83;
/// A table with more slots takes long to walk.
const LARGE: u32 = 64;

/// What was seen of the lanes of tables that start and the calls reach.
pub struct Apart {
    /// By step: the registers, from A on, that hold their nodes.
    held: [[bool; 4]; STEPS],
    /// Ticks on tables of so many lanes, from 1.
    ticks: [u64; 4],
    /// Ticks while tasks were in the middle of calls on so many lanes, from 1.
    busy: [u64; 4],
    /// Pushes that were full while another lane had spare slots.
    full: u64,
}

impl Apart {
    pub fn new() -> Apart {
        let needed = Needed::new();
        let holds = |step, register| needed.holds(step as u32, record::A + register);
        Apart {
            held: std::array::from_fn(|step| std::array::from_fn(|register| holds(step, register))),
            ticks: [0; 4],
            busy: [0; 4],
            full: 0,
        }
    }

    /// A tick of a task was made: on both tables no node is of two lanes, and what was of another lane than the task's
    /// is as it was.
    pub fn tick(&mut self, before: &[u32], after: &[u32], sizes: Sizes, task: u32, answer: Answer) {
        self.ticks[sizes.lanes as usize - 1] += 1;
        // Of a large table's ticks one in 16.
        let passed = sizes.nodes > LARGE && before[header::TICKS] & 15 != 0;
        if sizes.lanes == 1 || passed {
            return;
        }
        let lane = before[sizes.record(task) + record::LANE];
        let lanes = self.lanes(before, sizes);
        for at in sizes.hats() {
            let kept = before[at] == after[at];
            assert!(kept || of_hat(at) == lane, "lane {lane} moved hat {at}");
        }
        for (number, of) in (0..).zip(&lanes) {
            let words = sizes.node(number)..sizes.node(number + 1);
            let kept = before[words.clone()] == after[words];
            let other = of.is_some_and(|of| of != lane);
            assert!(kept || !other, "a tick on lane {lane} wrote slot {number}");
        }
        self.lanes(after, sizes);
        self.count(before, sizes, lane, &lanes, answer);
    }

    /// Of each node the lane that reaches it, from its hats or from what the registers of its tasks hold.
    fn lanes(&self, table: &[u32], sizes: Sizes) -> Vec<Option<u32>> {
        let mut lanes = vec![None; sizes.nodes as usize];
        let hats = sizes.hats().map(|at| (table[at], of_hat(at)));
        let mut pending: Vec<(u32, u32)> = hats.collect();
        for task in table[sizes.record(0)..].chunks_exact(record::WORDS) {
            // At step 0, where a task is idle, none holds.
            let held = self.held[task[record::STEP] as usize];
            let registers = task[record::A..].iter().zip(held);
            let nodes = registers.filter(|(_, held)| *held).map(|(&node, _)| node);
            pending.extend(nodes.map(|node| (node, task[record::LANE])));
        }
        while let Some((number, lane)) = pending.pop() {
            match lanes.get(number as usize) {
                Some(None) => {
                    lanes[number as usize] = Some(lane);
                    let at = sizes.node(number);
                    let links = [table[at + node::LEFT], table[at + node::RIGHT]];
                    pending.extend(links.map(|link| (link, lane)));
                }
                Some(&of) => assert_eq!(of, Some(lane), "slot {number} is of two lanes"),
                None => assert_eq!(number, NONE, "a link to no slot"),
            }
        }
        lanes
    }

    /// Counts the lanes with calls, and "full" where another lane has spare slots.
    fn count(
        &mut self,
        before: &[u32],
        sizes: Sizes,
        lane: u32,
        lanes: &[Option<u32>],
        answer: Answer,
    ) {
        let tasks = before[sizes.record(0)..].chunks_exact(record::WORDS);
        let mut in_calls = [0; 4];
        for task in tasks.filter(|task| task[record::OPERATION] != IDLE) {
            in_calls[task[record::LANE] as usize] = 1;
        }
        self.busy[in_calls.iter().sum::<usize>() - 1] += 1;
        if answer == Answer::Full {
            let has_tag = |number| is_tag(content(before, sizes.node(number) + node::VALUE));
            let without = |other| {
                let slots = (0..).zip(lanes).filter(|&(_, &of)| of == Some(other));
                slots.filter(|&(number, _)| !has_tag(number)).count()
            };
            // Each lane keeps two.
            let mut others = (0..sizes.lanes).filter(|&other| other != lane);
            self.full += u64::from(others.any(|other| without(other) > 2));
        }
    }

    /// Prints the counts; gives what was never seen.
    pub fn report(&self) -> Vec<String> {
        let mut faults = Vec::new();
        println!(
            "\n{:45} {:>11} {:>11} {:>11} {:>11}",
            "lanes", "1", "2", "3", "4"
        );
        for (name, [one, two, three, four]) in [
            ("ticks on tables of so many lanes", self.ticks),
            ("ticks while so many had calls, of 2 and more", self.busy),
        ] {
            println!("{name:45} {one:>11} {two:>11} {three:>11} {four:>11}");
            if [one, two, three, four].contains(&0) {
                faults.push(format!("none, of some number of lanes: {name}"));
            }
        }
        println!("full while another lane had spare slots: {}", self.full);
        if self.full == 0 {
            faults.push("no push was full while another lane had spare slots".to_string());
        }
        faults
    }
}

/// The lane of the hat in this word.
fn of_hat(at: usize) -> u32 {
    (at - header::HATS) as u32 / 2
}
