//! The order of a snapshot's words, by the sentence of the request.

use super::tables::sizes;
use reference::table::{header, node, Sizes};

/// Where each word of a snapshot stands in the table.
fn places(sizes: Sizes) -> Vec<usize> {
    let header = 0..header::WORDS;
    let columns = [node::LEFT, node::RIGHT, node::VALUE, node::DIGIT];
    let column = |word: usize| (0..sizes.nodes).map(move |number| sizes.node(number) + word);
    let tasks = sizes.record(0)..sizes.words();
    header
        .chain(columns.into_iter().flat_map(column))
        .chain(tasks)
        .collect()
}

/// The snapshot of a table.
pub fn by_columns(table: &[u32]) -> Vec<u32> {
    places(sizes(table))
        .into_iter()
        .map(|at| table[at])
        .collect()
}

/// The table that a snapshot stands for; where the sizes are none of this length there is no order.
pub fn by_nodes(snapshot: &[u32]) -> Option<Vec<u32>> {
    let fields = [header::NODES, header::TASKS, header::GROWTH, header::LANES];
    let [nodes, tasks, growth, lanes] = fields.map(|at| snapshot.get(at).copied());
    let sizes = Sizes::new(nodes?, tasks?, growth?, lanes?)?;
    let mut table = vec![0; snapshot.len()];
    if sizes.words() != table.len() {
        return None;
    }
    for (word, at) in snapshot.iter().zip(places(sizes)) {
        table[at] = *word;
    }
    Some(table)
}
