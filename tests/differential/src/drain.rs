//! Dispatches alone come to "idle": each busy task has its answer by then, within a bound.

use reference::table::{header, record, Sizes, IDLE};
use reference::Answer;

use crate::alone;
use crate::both::Both;
use crate::common::random::Random;
use crate::nearest::Nearest;

/// So many dispatches answer all calls, as is proved: one after another ends, and the last task is alone.
fn bound(sizes: Sizes, busy: u32) -> u32 {
    let Sizes {
        nodes,
        tasks,
        lanes,
        ..
    } = sizes;
    let until_one_ends =
        |busy| (busy * (tasks + 1) + 2 * lanes + 1) * (busy * (6 * nodes + 153) + 1);
    match busy {
        0 => 0,
        _ => (2..=busy).map(until_one_ends).sum::<u32>() + alone::bound(nodes),
    }
}

/// The most dispatches that tables took.
#[derive(Default)]
pub struct Drains {
    most: Nearest,
    /// Tables by busy tasks.
    tables: [u64; 17],
}

impl Drains {
    /// Drains a table that start and the calls reach, by consecutive dispatches, with any hints.
    pub fn drain(&mut self, random: &mut Random, both: &mut Both, sizes: Sizes) {
        let busy = busy(both.table(), sizes);
        let (mut ended, mut ticks) = (Vec::new(), 0);
        loop {
            let hint = random.below(sizes.nodes);
            let some = 1 + random.below(30);
            let times = random.pick(&[some, u32::MAX]);
            let Some(answer) = both.dispatches(hint, times).expect("a hint below S") else {
                break;
            };
            ticks += both.ticks_made();
            if answer != Answer::Going {
                ended.push(both.table()[header::DISPATCHED]);
            }
        }
        ended.sort_unstable();
        assert_eq!(ended, busy, "the tasks that answered");
        let busy = busy.len() as u32;
        let bound = bound(sizes, busy);
        assert!(ticks <= bound, "{busy} tasks took {ticks} dispatches");
        self.tables[busy as usize] += 1;
        if busy > 0 {
            self.most.saw(sizes.nodes, busy, ticks, bound);
        }
    }

    /// Prints the counts; gives what was never seen.
    pub fn report(&self) -> Vec<String> {
        let faults = self
            .most
            .report("most dispatches until every task is idle, by busy tasks");
        println!("tables drained, from 0 busy tasks on: {:?}", self.tables);
        let missing = (0..).zip(&self.tables).filter(|&(_, &count)| count == 0);
        let missing = missing.map(|(busy, _): (u32, _)| format!("no table drained of {busy}"));
        faults.into_iter().chain(missing).collect()
    }
}

/// The tasks in the middle of a call.
fn busy(table: &[u32], sizes: Sizes) -> Vec<u32> {
    (0..sizes.tasks)
        .filter(|&task| table[sizes.record(task) + record::OPERATION] != IDLE)
        .collect()
}
