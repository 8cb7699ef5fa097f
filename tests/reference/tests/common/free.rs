//! Which nodes are free, in the words of the paper: reachability spreads until nothing changes.

use super::tables::sizes;
use reference::table::{header, node, record, LEFT, NONE, RIGHT};

/// The free nodes in order, where `holds` says of a step and a register whether that register holds its node there.
pub fn free(table: &[u32], holds: impl Fn(u32, usize) -> bool) -> Vec<u32> {
    let sizes = sizes(table);
    let mut reached = vec![false; sizes.nodes as usize];
    for root in roots(table, holds) {
        reached[root as usize] = true;
    }
    let mut changed = true;
    while changed {
        changed = false;
        for number in 0..sizes.nodes {
            if reached[number as usize] {
                for link in [node::LEFT, node::RIGHT] {
                    let next = table[sizes.node(number) + link];
                    if next != NONE && !reached[next as usize] {
                        reached[next as usize] = true;
                        changed = true;
                    }
                }
            }
        }
    }
    (0..sizes.nodes)
        .filter(|&number| !reached[number as usize])
        .collect()
}

/// The hats of every lane, and what the registers hold.
fn roots(table: &[u32], holds: impl Fn(u32, usize) -> bool) -> Vec<u32> {
    let sizes = sizes(table);
    let mut roots = Vec::new();
    for lane in 0..sizes.lanes {
        roots.extend([LEFT, RIGHT].map(|side| table[header::hat(lane, side)]));
    }
    for task in 0..sizes.tasks {
        let at = sizes.record(task);
        let held = (record::A..=record::D)
            .filter(|&register| holds(table[at + record::STEP], register))
            .map(|register| table[at + register]);
        roots.extend(held.filter(|&number| number != NONE));
    }
    roots
}

/// The first of them from the hint upward, going round.
pub fn first(free: &[u32], hint: u32) -> Option<u32> {
    let above = free.iter().find(|&&number| number >= hint);
    above.or(free.first()).copied()
}
