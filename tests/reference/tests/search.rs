//! The node that a tick takes, on tables of every size for which the search has a form of its own.

mod common;

use common::free::{first, free};
use common::random::Random;
use common::tables::{sizes, started, LANE};
use reference::table::{header, node, record, ADD, LEFT, NONE, RIGHT};

/// Sizes at the limits of the forms, and of what is looked at in one step.
const SIZES: [u32; 12] = [2, 3, 31, 33, 64, 65, 255, 256, 257, 992, 1023, 1024];

/// A table in which so many nodes are reached, along one chain in any order, and others lead there.
fn chained(random: &mut Random, nodes: u32, reached: u32) -> Vec<u32> {
    let mut table = started(nodes, 1, 0);
    let mut order: Vec<u32> = (0..nodes).collect();
    for last in (1..nodes).rev() {
        order.swap(last as usize, random.below(last + 1) as usize);
    }
    let sizes = sizes(&table);
    for (rank, &number) in order.iter().enumerate() {
        let chained = (rank as u32) < reached;
        let next = match order.get(rank + 1) {
            Some(&next) if chained && (rank as u32) + 1 < reached => next,
            _ if chained => NONE,
            _ => random.below(nodes),
        };
        let (onward, back) = random.pick(&[(node::LEFT, node::RIGHT), (node::RIGHT, node::LEFT)]);
        table[sizes.node(number) + onward] = next;
        table[sizes.node(number) + back] = order[rank.saturating_sub(1)];
    }
    let [left, right] = [LEFT, RIGHT].map(|side| header::hat(LANE, side));
    table[left] = order[0];
    table[right] = order[random.below(reached) as usize];
    table
}

#[test]
fn the_node_taken_is_the_first_free_one() {
    let mut random = Random::new(11);
    let mut full = 0;
    for round in 0..600 {
        let nodes = SIZES[round % SIZES.len()];
        let any = random.below(nodes);
        let reached = random.pick(&[nodes, nodes - 1, 1 + any]);
        let mut table = chained(&mut random, nodes, reached);
        let free = free(&table, |_, _| false);
        assert_eq!(free.len() as u32, nodes - reached);
        assert_eq!(
            free.len() as u32,
            reference::count_free(&table, sizes(&table))
        );
        let any = random.below(nodes);
        let hint = random.pick(&[0, nodes - 1, any]);
        reference::begin(&mut table, 0, LANE, ADD, RIGHT, 0, 64).expect("an idle task");
        reference::tick(&mut table, 0, hint).expect("a busy task");
        let taken = table[sizes(&table).record(0) + record::D];
        assert_eq!(first(&free, hint).unwrap_or(NONE), taken);
        full += u32::from(free.is_empty());
    }
    assert!(full > 50);
}
