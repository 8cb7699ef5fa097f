//! Refusals 3 and 4: whether a lent slice is a table at all.

use crate::refusal;
use crate::side::Side;
use crate::table::{
    self, are_content, content, header, is_content, is_tag, node, record, Sizes, LEFT, NONE,
};

/// The sizes of a table whose shape holds, or the refusal.
#[inline(never)]
pub fn check(table: &[u32]) -> Result<Sizes, u32> {
    let sizes = sizes(table).ok_or(refusal::SIZES)?;
    if holds(table, sizes) {
        Ok(sizes)
    } else {
        Err(refusal::SHAPE)
    }
}

/// The same with a lent record in its task's place.
pub fn check_lent(table: &[u32], task: u32, record: &[u32; record::WORDS]) -> Result<Sizes, u32> {
    let sizes = sizes(table).ok_or(refusal::SIZES)?;
    let (head, nodes, _) = sizes.parts(table);
    let parts = sizes.records_with(table, task, record);
    let records_hold = |records: &&[u32]| records_hold(records, sizes);
    if header_holds(head, sizes) && nodes_hold(nodes, sizes) && parts.iter().all(records_hold) {
        Ok(sizes)
    } else {
        Err(refusal::SHAPE)
    }
}

/// The same of the table that a snapshot stands for: its header and its records stand where the table's do.
pub fn check_columns(snapshot: &[u32]) -> Result<Sizes, u32> {
    let sizes = sizes(snapshot).ok_or(refusal::SIZES)?;
    if columns_hold(snapshot, sizes) {
        Ok(sizes)
    } else {
        Err(refusal::SHAPE)
    }
}

fn sizes(table: &[u32]) -> Option<Sizes> {
    if table.len() < Sizes::MIN_WORDS {
        return None;
    }
    Sizes::new(
        table[header::NODES],
        table[header::TASKS],
        table[header::GROWTH],
        table[header::LANES],
    )
    .filter(|sizes| sizes.words() == table.len())
}

fn holds(table: &[u32], sizes: Sizes) -> bool {
    let (head, nodes, records) = sizes.parts(table);
    header_holds(head, sizes) && nodes_hold(nodes, sizes) && records_hold(records, sizes)
}

fn columns_hold(snapshot: &[u32], sizes: Sizes) -> bool {
    let (head, columns, records) = sizes.parts(snapshot);
    let [left, right, values, digits] = sizes.columns(columns);
    let links_hold = |links: &[u32]| {
        links
            .iter()
            .fold(true, |hold, &word| hold & is_link(word, sizes))
    };
    let contents = values.iter().zip(digits);
    header_holds(head, sizes)
        && links_hold(left)
        && links_hold(right)
        && contents.fold(true, |hold, (&value, &digit)| {
            hold & are_content(value, digit)
        })
        && records_hold(records, sizes)
}

/// A lane that is not used has no hats.
fn header_holds(head: &[u32], sizes: Sizes) -> bool {
    let hats = sizes.hats();
    let unused = hats.end..header::hat(Sizes::MAX_LANES, LEFT);
    head[header::DISPATCHED] < sizes.tasks
        && head[hats].iter().all(|&hat| hat < sizes.nodes)
        && head[unused].iter().all(|&hat| hat == NONE)
        && header::ZEROS.iter().all(|&at| head[at] == 0)
}

/// Every node, without leaving at the first that does not hold: the compiler then tests several at once.
fn nodes_hold(nodes: &[u32], sizes: Sizes) -> bool {
    let nodes = nodes.chunks_exact(node::WORDS);
    nodes.fold(true, |hold, node| hold & node_holds(node, sizes))
}

fn is_link(word: u32, sizes: Sizes) -> bool {
    (word < sizes.nodes) | (word == NONE)
}

fn node_holds(node: &[u32], sizes: Sizes) -> bool {
    is_link(node[node::LEFT], sizes)
        & is_link(node[node::RIGHT], sizes)
        & are_content(node[node::VALUE], node[node::DIGIT])
}

fn records_hold(records: &[u32], sizes: Sizes) -> bool {
    let (records, _) = records.as_chunks();
    records.iter().all(|task| record_holds(task, sizes))
}

fn record_holds(task: &[u32; record::WORDS], sizes: Sizes) -> bool {
    let operation = task[record::OPERATION];
    if operation == table::IDLE {
        let words = task.iter().zip(record::FRESH);
        return words.fold(0, |bits, (word, fresh)| bits | (word ^ fresh)) == 0;
    }
    // An unknown operation has no step, nor an argument that fits.
    let registers = &task[record::A..=record::D];
    owns(operation, task[record::STEP])
        && table::argument_fits(operation, content(task, record::ARGUMENT))
        && counted_holds(task, sizes)
        && value_holds(task)
        && (task[record::SIDE] <= 1)
            & (task[record::LANE] < sizes.lanes)
            & registers
                .iter()
                .fold(true, |hold, &word| hold & is_link(word, sizes))
}

/// Whether the step is one of the operation's, by the table of all steps.
fn owns(operation: u32, step: u32) -> bool {
    let owners = OWNERS.get(step as usize).copied().unwrap_or(0);
    (operation <= table::REMOVE) & (owners >> (operation % 8) & 1 == 1)
}

/// For each step a bit for each operation that has it.
static OWNERS: [u8; 83] = {
    let mut owners = [0; 83];
    let mut step = 0;
    while step < owners.len() {
        let mut operation = table::PUSH;
        while operation <= table::REMOVE {
            owners[step] |= (table::step_belongs(operation, step as u32) as u8) << operation;
            operation += 1;
        }
        step += 1;
    }
    owners
};

fn counted_holds(task: &[u32; record::WORDS], sizes: Sizes) -> bool {
    let counted = task[record::COUNTED];
    let goal = table::goal(
        task[record::OPERATION],
        task[record::ARGUMENT],
        sizes.growth,
    );
    match task[record::STEP] {
        54 => counted == 0,
        31 | 56 | 58 => counted < goal,
        _ => counted <= goal,
    }
}

fn value_holds(task: &[u32; record::WORDS]) -> bool {
    let value = content(task, record::VALUE);
    match task[record::STEP] {
        48 => {
            let side = Side::numbered(task[record::SIDE]);
            value == side.far_null || value == side.far_terminator
        }
        51 => is_tag(value),
        _ => is_content(value),
    }
}
