//! Which nodes are reachable, and the first that is not.

use crate::table::{node, record, Sizes};

/// Marks that are tested at once in the search for one that is missing.
const BLOCK: usize = 32;

/// The first free node from the hint upward, going round past the last.
///
/// The table's shape holds and the hint is below the number of nodes.
pub fn first_free(table: &[u32], sizes: Sizes, hint: u32) -> Option<u32> {
    // A small table needs no large arrays to be cleared.
    match sizes.nodes {
        0..=64 => first_of::<64>(table, sizes, hint),
        65..=256 => first_of::<256>(table, sizes, hint),
        _ => first_of::<{ Sizes::MAX_NODES }>(table, sizes, hint),
    }
}

fn first_of<const N: usize>(table: &[u32], sizes: Sizes, hint: u32) -> Option<u32> {
    let marks = marked::<N>(table, sizes);
    let (before, from) = marks[..sizes.nodes as usize].split_at(hint as usize);
    let found = match unmarked(from) {
        Some(place) => hint as usize + place,
        None => unmarked(before)?,
    };
    Some(found as u32)
}

/// How many nodes are free.
///
/// The table's shape holds.
pub fn count_free(table: &[u32], sizes: Sizes) -> u32 {
    let marks = marked::<{ Sizes::MAX_NODES }>(table, sizes);
    let nodes = &marks[..sizes.nodes as usize];
    nodes.iter().filter(|&&mark| mark == 0).count() as u32
}

/// The place of the first mark that is missing.
fn unmarked(marks: &[u8]) -> Option<usize> {
    let all = |marks: &[u8]| marks.iter().fold(1, |all, mark| all & mark) == 1;
    let full = marks.chunks_exact(BLOCK).take_while(|block| all(block));
    let from = BLOCK * full.count();
    let place = marks[from..].iter().position(|&mark| mark == 0)?;
    Some(from + place)
}

/// The registers that a path of steps from this step may still use before it sets them.
fn held(step: u32) -> &'static [usize] {
    use record::{A, B, C, D};
    match step {
        2 | 15 | 31 | 67 => &[D],
        3 | 8 | 17 | 18 | 24 | 68 | 69 => &[A, D],
        5 | 25 | 70 => &[A, B, D],
        72 => &[A, C, D],
        40 | 56 | 58 | 60 | 81 | 82 => &[A],
        42 | 48 | 51 | 62 | 64 | 77 | 78 | 79 => &[A, B],
        74 => &[B],
        _ => &[],
    }
}

/// Marks every node to which a chain of links leads from a hat of any lane or a register that holds its node. What is
/// marked stands in a queue until its links are followed: so the chains from all of them go on side by side.
fn marked<const N: usize>(table: &[u32], sizes: Sizes) -> [u8; N] {
    let mut marks = [0; N];
    let mut queue = [0; N];
    let mut tail = 0;
    for &hat in &table[sizes.hats()] {
        tail = mark(&mut marks, &mut queue, tail, hat);
    }
    for task in table[sizes.record(0)..].chunks_exact(record::WORDS) {
        for &register in held(task[record::STEP]) {
            tail = mark(&mut marks, &mut queue, tail, task[register]);
        }
    }
    let (nodes, _) = table[sizes.node(0)..sizes.record(0)].as_chunks::<{ node::WORDS }>();
    let mut head = 0;
    while head < tail {
        let node = &nodes[queue[head % N] as usize];
        tail = mark(&mut marks, &mut queue, tail, node[node::LEFT]);
        tail = mark(&mut marks, &mut queue, tail, node[node::RIGHT]);
        head += 1;
    }
    marks
}

/// Marks a node and puts it to the end of the queue, unless it has its mark; returns the end. A node enters only once,
/// so that the queue cannot overflow, and none is no index.
fn mark<const N: usize>(
    marks: &mut [u8; N],
    queue: &mut [u32; N],
    tail: usize,
    number: u32,
) -> usize {
    let number = number as usize;
    if number < N && marks[number] == 0 {
        marks[number] = 1;
        queue[tail % N] = number as u32;
        tail + 1
    } else {
        tail
    }
}
