//! The longest stretches of ticks without an answer, whoever ticks, by slots, tasks and lanes.

use reference::table::Sizes;

use crate::nearest::Nearest;

/// Of so many ticks of busy tasks one ends a call, as is proved.
fn bound(nodes: u32, tasks: u32, lanes: u32) -> u32 {
    (tasks * (tasks + 1) + 2 * lanes + 1) * (tasks * (6 * nodes + 153) + 1)
}

/// The longest stretches that were met.
#[derive(Default)]
pub struct Stretches(Nearest);

impl Stretches {
    /// So many consecutive ticks were made, and none ended a call.
    pub fn saw(&mut self, sizes: Sizes, ticks: u32) {
        let Sizes {
            nodes,
            tasks,
            lanes,
            ..
        } = sizes;
        let bound = bound(nodes, tasks, lanes);
        assert!(
            ticks < bound,
            "{ticks} ticks of {tasks} tasks without an answer, with {nodes} slots, {lanes} lanes"
        );
        self.0.saw(nodes, tasks, ticks, bound);
    }

    /// Prints them, for all lanes together; gives what was never seen.
    pub fn report(&self) -> Vec<String> {
        self.0.report("longest stretch of ticks without an answer")
    }
}
