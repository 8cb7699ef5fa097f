//! Tables for tests: started ones, random ones of good shape, and mirrors.

use super::random::Random;
use reference::table::{
    goal, header, mark, mirror, node, record, step_belongs, Content, Sizes, ADD, IDLE, LEFT, LN,
    LX, LY, MAX_LOW, NEVER_USED, NONE, POP, PUSH, RIGHT, RN, RX, RY,
};

/// The lane of a table that has one.
pub const LANE: u32 = 0;

/// A table of one lane as an accepted start leaves it.
pub fn started(nodes: u32, tasks: u32, growth: u32) -> Vec<u32> {
    started_lanes(nodes, tasks, growth, 1)
}

/// The same of so many lanes.
pub fn started_lanes(nodes: u32, tasks: u32, growth: u32, lanes: u32) -> Vec<u32> {
    let sizes = Sizes::new(nodes, tasks, growth, lanes).expect("sizes in range");
    let mut table = vec![7; sizes.words()];
    reference::start(&mut table, nodes, tasks, growth, lanes).expect("start");
    table
}

/// The sizes in a table's header.
pub fn sizes(table: &[u32]) -> Sizes {
    Sizes::new(
        table[header::NODES],
        table[header::TASKS],
        table[header::GROWTH],
        table[header::LANES],
    )
    .expect("sizes in range")
}

/// The same table seen from the other side; node numbers stay.
pub fn mirrored(table: &[u32]) -> Vec<u32> {
    let sizes = sizes(table);
    let mut result = table.to_vec();
    for lane in 0..sizes.lanes {
        result.swap(header::hat(lane, LEFT), header::hat(lane, RIGHT));
    }
    for number in 0..sizes.nodes {
        let at = sizes.node(number);
        result.swap(at + node::LEFT, at + node::RIGHT);
        result[at + node::VALUE] = mirror(result[at + node::VALUE]);
    }
    for task in 0..sizes.tasks {
        let at = sizes.record(task);
        if result[at + record::OPERATION] != IDLE {
            result[at + record::SIDE] ^= 1;
            result[at + record::VALUE] = mirror(result[at + record::VALUE]);
        }
    }
    result
}

/// A small table whose shape holds and whose words are otherwise arbitrary.
pub fn shaped(random: &mut Random) -> Vec<u32> {
    let lanes = 1 + random.below(Sizes::MAX_LANES);
    let sizes = Sizes::new(
        2 * lanes + random.below(7),
        1 + random.below(4),
        random.pick(&[0, 1, 2, 64]),
        lanes,
    )
    .expect("sizes in range");
    shaped_of(random, sizes)
}

/// The same of given sizes.
pub fn shaped_of(random: &mut Random, sizes: Sizes) -> Vec<u32> {
    let mut table = vec![0; sizes.words()];
    table[header::NODES] = sizes.nodes;
    table[header::TASKS] = sizes.tasks;
    table[header::GROWTH] = sizes.growth;
    table[header::LANES] = sizes.lanes;
    table[header::TICKS] = random.word();
    table[header::DISPATCHED] = random.below(sizes.tasks);
    for lane in 0..Sizes::MAX_LANES {
        for side in [LEFT, RIGHT] {
            table[header::hat(lane, side)] = if lane < sizes.lanes {
                random.below(sizes.nodes)
            } else {
                NONE
            };
        }
    }
    for number in 0..sizes.nodes {
        let at = sizes.node(number);
        let [value, digit] = content(random);
        let words = [link(random, sizes), link(random, sizes), value, digit];
        table[at..at + node::WORDS].copy_from_slice(&words);
    }
    for task in 0..sizes.tasks {
        let at = sizes.record(task);
        let words = shaped_record(random, sizes);
        table[at..at + record::WORDS].copy_from_slice(&words);
        // Without help few swaps would find what they compare.
        if words[record::A] != NONE && random.once_in(2) {
            table[header::hat(words[record::LANE], words[record::SIDE])] = words[record::A];
        }
    }
    table
}

/// All steps of an operation.
pub fn steps_of(operation: u32) -> Vec<u32> {
    (0..100)
        .filter(|&step| step_belongs(operation, step))
        .collect()
}

/// The record of a task, idle or at any step, in a table of these sizes.
pub fn shaped_record(random: &mut Random, sizes: Sizes) -> [u32; record::WORDS] {
    let mut words = record::FRESH;
    let operation = random.below(5);
    if operation == IDLE {
        return words;
    }
    let side = random.below(2);
    let [mut argument, digit] = match operation {
        PUSH => tag(random),
        POP => [0, 0],
        ADD => [random.pick(&[0, 1, 2, 64]), 0],
        _ => [random.pick(&[0, 1, 2, 1023]), 0],
    };
    let mut step = random.pick(&steps_of(operation));
    if matches!(step, 31 | 56 | 58) && goal(operation, argument, sizes.growth) == 0 {
        if operation == PUSH {
            step = 15;
        } else {
            argument = 1;
        }
    }
    let goal = goal(operation, argument, sizes.growth);
    words[record::OPERATION] = operation;
    words[record::STEP] = step;
    words[record::SIDE] = side;
    words[record::ARGUMENT] = argument;
    words[record::ARGUMENT_DIGIT] = digit;
    words[record::COUNTED] = match step {
        54 => 0,
        31 | 56 | 58 => random.below(goal),
        _ => random.below(goal + 1),
    };
    let [value, digit] = match (step, side) {
        (48, 0) => mark(random.pick(&[RN, RX])),
        (48, _) => mark(random.pick(&[LN, LX])),
        (51, _) => tag(random),
        _ => content(random),
    };
    words[record::VALUE] = value;
    words[record::VALUE_DIGIT] = digit;
    for register in &mut words[record::A..=record::D] {
        *register = link(random, sizes);
    }
    words[record::LANE] = random.below(sizes.lanes);
    words
}

fn link(random: &mut Random, sizes: Sizes) -> u32 {
    if random.once_in(6) {
        NONE
    } else {
        random.below(sizes.nodes)
    }
}

fn content(random: &mut Random) -> Content {
    match random.below(13) {
        0 => NEVER_USED,
        1..=3 => tag(random),
        _ => mark(random.pick(&[LN, LX, LY, RN, RX, RY, LN, RN, LX, RX])),
    }
}

/// A tag of few, so that some are equal and some differ in the digit alone; V may be 0.
fn tag(random: &mut Random) -> Content {
    let low = random.pick(&[0, 1, MAX_LOW]);
    let digit = random.pick(if low == 0 { &[1, 9] } else { &[0, 1, 9] });
    [low, digit]
}
