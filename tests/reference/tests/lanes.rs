//! Request 2026-12: lanes over the same nodes. What a start writes for each, what they share, and that a lane is told
//! from another by its number alone.

mod common;

use common::calls::{begin, call, tags};
use common::random::Random;
use common::tables::{shaped, sizes, started, started_lanes, LANE};
use reference::table::{
    header, node, record, tag, Sizes, ADD, IDLE, LEFT, LX, NONE, POP, PUSH, REMOVE, RIGHT, RX,
};
use reference::{dispatch, read, run, tick, Answer};
use Answer::{Bag, Empty, Full, No, Pushed, Yes};

/// The tags of every lane.
fn rows(table: &[u32]) -> Vec<Vec<u64>> {
    (0..table[header::LANES])
        .map(|lane| tags(table, lane).expect("the lane is read"))
        .collect()
}

#[test]
fn a_start_writes_every_word() {
    for lanes in 1..=4 {
        for (nodes, tasks, growth) in [(2 * lanes, 1, 0), (9, 3, 2), (1024, 16, 64)] {
            let mut wanted = vec![nodes, tasks, growth, lanes, 0, tasks - 1];
            for lane in 0..4 {
                let hats = [2 * lane, 2 * lane + 1];
                wanted.extend(if lane < lanes { hats } else { [NONE; 2] });
            }
            wanted.extend([0, 0]);
            for lane in 0..lanes {
                wanted.extend([NONE, 2 * lane + 1, LX, 0]);
                wanted.extend([2 * lane, NONE, RX, 0]);
            }
            for _ in 2 * lanes..nodes {
                wanted.extend([NONE, NONE, 0, 0]);
            }
            for _ in 0..tasks {
                wanted.extend([0, 0, 0, 0, 0, 0, 0, 0, NONE, NONE, NONE, NONE, 0]);
            }
            let table = started_lanes(nodes, tasks, growth, lanes);
            assert_eq!(table, wanted);
            assert_eq!(rows(&table), vec![vec![]; lanes as usize]);
        }
    }
}

/// A lane that takes all nodes leaves an empty one without any; what it gives back the other may take.
#[test]
fn full_by_the_nodes_of_another_lane() {
    const SPARE: u32 = 5;
    for lanes in 2..=4 {
        let lane_pairs = (0..lanes).flat_map(|user| (0..lanes).map(move |other| (user, other)));
        for (user, other) in lane_pairs.filter(|(user, other)| user != other) {
            for (side, end) in [(LEFT, LEFT), (LEFT, RIGHT), (RIGHT, LEFT), (RIGHT, RIGHT)] {
                let mut table = started_lanes(2 * lanes + SPARE, 1, 0, lanes);
                let mut call = |parts| call(&mut table, 0, parts);
                for tag in 1..=SPARE.into() {
                    assert_eq!(call((user, PUSH, side, tag)), Pushed);
                }
                assert_eq!(call((other, PUSH, end, 51)), Full);
                assert_eq!(call((other, ADD, end, 0)), No);
                assert_eq!(call((other, POP, end, 0)), Empty);
                // A node out of which a tag is popped is still its lane's, until it is removed.
                assert_eq!(call((user, POP, side, 0)), Bag(5));
                assert_eq!(call((user, POP, side, 0)), Bag(4));
                assert_eq!(call((other, PUSH, end, 51)), Full);
                assert_eq!(call((user, REMOVE, side, 0)), Yes);
                assert_eq!(call((other, PUSH, end, 51)), Pushed);
                assert_eq!(call((other, PUSH, end, 52)), Pushed);
                assert_eq!(call((other, PUSH, end, 53)), Full);
                let (mut used, mut others) = (vec![1, 2, 3], vec![51, 52]);
                if side == LEFT {
                    used.reverse();
                }
                if end == LEFT {
                    others.reverse();
                }
                let mut wanted = vec![vec![]; lanes as usize];
                wanted[user as usize] = used;
                wanted[other as usize] = others;
                assert_eq!(rows(&table), wanted);
            }
        }
    }
}

/// Wherever the tags are pushed, all lanes together take one for each node that no lane started with.
#[test]
fn all_lanes_together_take_s_less_twice_the_lanes() {
    let mut random = Random::new(31);
    for lanes in 1..=4 {
        for spare in 0..40 {
            let mut table = started_lanes(2 * lanes + spare, 1, 0, lanes);
            for tag in 1..=spare.into() {
                let (lane, side) = (random.below(lanes), random.below(2));
                assert_eq!(call(&mut table, 0, (lane, PUSH, side, tag)), Pushed);
            }
            for (lane, side) in (0..lanes).flat_map(|lane| [(lane, LEFT), (lane, RIGHT)]) {
                assert_eq!(call(&mut table, 0, (lane, PUSH, side, 51)), Full);
            }
            let stands: usize = rows(&table).iter().map(Vec::len).sum();
            assert_eq!(stands, spare as usize);
        }
    }
}

/// Two lanes that change names.
#[derive(Clone, Copy)]
struct Exchange(u32, u32);

impl Exchange {
    fn lane(self, lane: u32) -> u32 {
        if lane == self.0 {
            self.1
        } else if lane == self.1 {
            self.0
        } else {
            lane
        }
    }

    /// The same table by the other names: the hats in the header, and the lanes of the busy tasks.
    fn table(self, table: &[u32]) -> Vec<u32> {
        let mut result = table.to_vec();
        for side in [LEFT, RIGHT] {
            result.swap(header::hat(self.0, side), header::hat(self.1, side));
        }
        for task in result[sizes(table).record(0)..].chunks_exact_mut(record::WORDS) {
            if task[record::OPERATION] != IDLE {
                task[record::LANE] = self.lane(task[record::LANE]);
            }
        }
        result
    }
}

/// Makes calls on a table, and on a twin whose lanes have changed names; counts those accepted.
fn play_twins(random: &mut Random, mut table: Vec<u32>, calls: u32, accepted: &mut [u32; 5]) {
    let Sizes {
        nodes,
        tasks,
        lanes,
        ..
    } = sizes(&table);
    let first = random.below(lanes);
    let names = Exchange(first, (first + 1 + random.below(lanes - 1)) % lanes);
    let mut twin = names.table(&table);
    for _ in 0..calls {
        let (task, hint) = (random.below(tasks), random.below(nodes));
        let lane = random.below(lanes + 1);
        let kind = random.below(5);
        let is_accepted = match kind {
            0 => {
                let (operation, side) = (PUSH + random.below(4), random.below(2));
                let argument = match operation {
                    PUSH => tag(random.below(2), 1 + random.below(3)),
                    POP => 0,
                    _ => random.below(3).into(),
                };
                let found = begin(&mut table, task, lane, operation, side, argument);
                let twins = begin(&mut twin, task, names.lane(lane), operation, side, argument);
                assert_eq!(twins, found);
                found.is_ok()
            }
            1 => {
                let found = tick(&mut table, task, hint);
                assert_eq!(tick(&mut twin, task, hint), found);
                found.is_ok()
            }
            2 => {
                let found = dispatch(&mut table, hint);
                assert_eq!(dispatch(&mut twin, hint), found);
                found.is_ok()
            }
            3 => {
                let list = [task, hint, random.below(tasks), hint, task, hint];
                let (mut answers, mut others) = ([8; 9], [8; 9]);
                let found = run(&mut table, &list, &mut answers);
                assert_eq!(run(&mut twin, &list, &mut others), found);
                assert_eq!(others, answers);
                found.1 > 0
            }
            _ => {
                let (mut out, mut other) = ([8; 12], [8; 12]);
                let found = read(&table, lane, &mut out);
                assert_eq!(read(&twin, names.lane(lane), &mut other), found);
                assert_eq!(other, out);
                found.is_ok()
            }
        };
        accepted[kind as usize] += u32::from(is_accepted);
        assert_eq!(twin, names.table(&table), "call {kind}");
    }
}

#[test]
fn two_lanes_may_exchange_their_numbers() {
    let mut random = Random::new(32);
    let mut accepted = [0; 5];
    for _ in 0..12_000 {
        let table = shaped(&mut random);
        if table[header::LANES] > 1 {
            play_twins(&mut random, table, 8, &mut accepted);
        }
    }
    for _ in 0..400 {
        let lanes = 2 + random.below(3);
        let nodes = 2 * lanes + random.below(8);
        let table = started_lanes(nodes, 1 + random.below(4), random.below(3), lanes);
        play_twins(&mut random, table, 200, &mut accepted);
    }
    assert!(accepted.iter().all(|&count| count > 2000), "{accepted:?}");
}

/// A table of one lane as the one lane in use among several: the nodes that the others start with stand between.
fn among(table: &[u32], lanes: u32, lane: u32) -> Vec<u32> {
    let one = sizes(table);
    let mut result = started_lanes(one.nodes + 2 * (lanes - 1), one.tasks, one.growth, lanes);
    let several = sizes(&result);
    for at in [header::TICKS, header::DISPATCHED] {
        result[at] = table[at];
    }
    for side in [LEFT, RIGHT] {
        result[header::hat(lane, side)] = name(table[header::hat(LANE, side)], lanes, lane);
    }
    for number in 0..one.nodes {
        let (from, to) = (one.node(number), several.node(name(number, lanes, lane)));
        result[to..to + node::WORDS].copy_from_slice(&table[from..from + node::WORDS]);
        for link in [node::LEFT, node::RIGHT] {
            result[to + link] = name(table[from + link], lanes, lane);
        }
    }
    for task in 0..one.tasks {
        let (from, to) = (one.record(task), several.record(task));
        result[to..to + record::WORDS].copy_from_slice(&table[from..from + record::WORDS]);
        for register in record::A..=record::D {
            result[to + register] = name(table[from + register], lanes, lane);
        }
        if table[from + record::OPERATION] != IDLE {
            result[to + record::LANE] = lane;
        }
    }
    result
}

/// A node, or none, of the table of one lane as that of several has it.
fn name(number: u32, lanes: u32, lane: u32) -> u32 {
    match number {
        NONE => NONE,
        0 | 1 => number + 2 * lane,
        _ => number + 2 * (lanes - 1),
    }
}

/// Lanes that no call is on take no part in the calls on another.
#[test]
fn a_lane_alone_is_a_table_of_one_lane() {
    let mut random = Random::new(33);
    let mut answers = [0; 7];
    for (lanes, lane) in (2..=4).flat_map(|lanes| (0..lanes).map(move |lane| (lanes, lane))) {
        for (nodes, tasks) in (2..=9).flat_map(|nodes| [1, 2, 3].map(|tasks| (nodes, tasks))) {
            let mut table = started(nodes, tasks, nodes % 3);
            let mut several = among(&table, lanes, lane);
            for _ in 0..300 {
                let (task, hint) = (random.below(tasks), random.below(nodes));
                if random.once_in(6) {
                    let (operation, side) = (PUSH + random.below(4), random.below(2));
                    let argument = match operation {
                        PUSH => 1 + u64::from(random.below(9)),
                        POP => 0,
                        _ => random.below(3).into(),
                    };
                    let found = begin(&mut table, task, LANE, operation, side, argument);
                    let others = begin(&mut several, task, lane, operation, side, argument);
                    assert_eq!(others, found);
                } else {
                    let found = tick(&mut table, task, hint);
                    let hint = name(hint, lanes, lane);
                    assert_eq!(tick(&mut several, task, hint), found);
                    if let Ok(answer) = found {
                        answers[answer.words()[0] as usize] += 1;
                    }
                }
                assert_eq!(several, among(&table, lanes, lane));
                assert_eq!(tags(&several, lane), tags(&table, LANE));
            }
        }
    }
    assert!(answers.iter().all(|&count| count > 100), "{answers:?}");
}
