//! The tables and tick lists that are measured, prepared by the second program.

use reference::table::{header, node, record, Sizes, ADD, LEFT, POP, PUSH, REMOVE, RIGHT};

/// Tasks of every table.
pub const TASKS: u32 = 16;
/// Most ticks of a run.
const MOST_TICKS: u32 = 4096;
/// Most that an add may ask for.
const MOST_ADDED: u32 = 64;
/// Tags from here on, with digit 0, are in no lane below.
pub const NEW_TAG: u32 = 2000;

/// A table, and the ticks to make on it.
pub struct Load {
    /// The words before the first tick.
    pub table: Vec<u32>,
    /// The (task, hint) pairs.
    pub list: Vec<u32>,
}

impl Load {
    /// The ticks of the list.
    pub fn ticks(&self) -> usize {
        self.list.len() / 2
    }

    /// Room for their answers.
    pub fn answers(&self) -> Vec<u32> {
        vec![0; 3 * self.ticks()]
    }
}

/// 16 removes that walk along spare nodes, of which each lane has its share; none answers and nothing is taken.
pub fn walks(nodes: u32, lanes: u32) -> Load {
    let mut table = started(nodes, lanes);
    let share = nodes / lanes;
    for lane in 0..lanes {
        let mut more = share - 2;
        while more > 0 {
            // An add of n takes n + 1 nodes.
            let added = (more - 1).min(MOST_ADDED);
            finish(&mut table, lane, ADD, added);
            more -= added + 1;
        }
    }
    begin_all(&mut table, lanes, REMOVE, 1023);
    // A walk of n spare nodes answers at tick 2n + 2.
    let each = 2 * (share - 2);
    let list = in_turn((TASKS * each).min(MOST_TICKS));
    Load { table, list }
}

/// The first 64 ticks of the same, to be made one call each.
pub fn short_walks(nodes: u32, lanes: u32) -> Load {
    let Load { table, mut list } = walks(nodes, lanes);
    list.truncate(2 * 64);
    Load { table, list }
}

/// 16 pops of an empty lane, all of which answer: four ticks each.
pub fn pops(nodes: u32, lanes: u32) -> Load {
    let mut table = started(nodes, lanes);
    begin_all(&mut table, lanes, POP, 0);
    let list = in_turn(4 * TASKS);
    Load { table, list }
}

/// 16 adds of 64 nodes until all nodes are taken: every tick takes one.
pub fn takes(nodes: u32, lanes: u32) -> Load {
    let mut table = started(nodes, lanes);
    begin_all(&mut table, lanes, ADD, MOST_ADDED);
    let list = in_turn(nodes - 2 * lanes);
    Load { table, list }
}

/// The same, each tick with the hint that a caller can keep: the node after the one that the tick before it took.
pub fn hinted_takes(nodes: u32, lanes: u32) -> Load {
    let Load { table, mut list } = takes(nodes, lanes);
    let mut after = table.clone();
    let mut hint = 0;
    for pair in list.chunks_exact_mut(2) {
        pair[1] = hint;
        reference::tick(&mut after, pair[0], hint).expect("a busy task");
        let record =
            header::WORDS + node::WORDS * nodes as usize + record::WORDS * pair[0] as usize;
        hint = (after[record + record::D] + 1) % nodes;
    }
    Load { table, list }
}

/// 16 pushes at both ends of lanes half full, until each has answered or 4,096 ticks are made.
pub fn pushes(nodes: u32, lanes: u32) -> Load {
    let mut table = filled(nodes, lanes, nodes / 2);
    begin_all(&mut table, lanes, PUSH, NEW_TAG);
    let mut list = Vec::new();
    let mut after = table.clone();
    let mut busy = true;
    while busy && list.len() < 2 * MOST_TICKS as usize {
        busy = false;
        for task in 0..TASKS {
            if reference::tick(&mut after, task, 0).is_ok() {
                list.extend([task, 0]);
                busy = true;
            }
        }
    }
    Load { table, list }
}

/// The same table and no ticks: a run of them is the test of the shape alone.
pub fn none(nodes: u32, lanes: u32) -> Load {
    Load {
        list: Vec::new(),
        ..pushes(nodes, lanes)
    }
}

/// An empty lane whose right end has one spare node more than it keeps, so that no push takes one; and no ticks.
pub fn empty(nodes: u32, lanes: u32) -> Load {
    let mut table = started(nodes, lanes);
    finish(&mut table, 0, ADD, 0);
    Load {
        table,
        list: Vec::new(),
    }
}

/// Lanes of so many bags in all, each with its share.
pub fn filled(nodes: u32, lanes: u32, bags: u32) -> Vec<u32> {
    let mut table = started(nodes, lanes);
    for bag in 1..=bags {
        finish(&mut table, bag % lanes, PUSH, bag);
    }
    table
}

fn started(nodes: u32, lanes: u32) -> Vec<u32> {
    let sizes = Sizes::new(nodes, TASKS, 0, lanes).expect("sizes in range");
    let mut table = vec![0; sizes.words()];
    reference::start(&mut table, nodes, TASKS, 0, lanes).expect("an accepted start");
    table
}

/// Every task the same operation, as many tasks on each lane, at the left and the right in turn; a remove at the right,
/// where the nodes are. Each push has a tag of its own, from the argument on.
fn begin_all(table: &mut [u32], lanes: u32, operation: u32, argument: u32) {
    for task in 0..TASKS {
        let lane = task * lanes / TASKS;
        let side = if operation == REMOVE || task % 2 == 1 {
            RIGHT
        } else {
            LEFT
        };
        let argument = argument + if operation == PUSH { task } else { 0 };
        reference::begin(table, task, lane, operation, side, 0, argument).expect("an idle task");
    }
}

/// A call of task 0 at the right end of a lane, to its answer.
fn finish(table: &mut [u32], lane: u32, operation: u32, argument: u32) {
    reference::begin(table, 0, lane, operation, RIGHT, 0, argument).expect("an idle task");
    while let Ok(reference::Answer::Going) = reference::tick(table, 0, 0) {}
}

/// So many ticks, the tasks in turn, every search from node 0.
fn in_turn(ticks: u32) -> Vec<u32> {
    (0..ticks).flat_map(|tick| [tick % TASKS, 0]).collect()
}
