//! Snapshots by columns: the words of a table in another order, taken and put back.

use crate::refusal;
use crate::shape;
use crate::table::node;

/// Takes a snapshot: the header, every node's L, every R, every V, every leading digit, then the tasks.
pub fn take(table: &[u32], snapshot: &mut [u32]) -> Result<(), u32> {
    if snapshot.len() != table.len() {
        return Err(refusal::SNAPSHOT_LENGTH);
    }
    let sizes = shape::check(table)?;
    let between = sizes.node(0)..sizes.record(0);
    snapshot[..between.start].copy_from_slice(&table[..between.start]);
    snapshot[between.end..].copy_from_slice(&table[between.end..]);
    let nodes = table[between.clone()].chunks_exact(node::WORDS);
    for (column, words) in snapshot[between].chunks_exact_mut(nodes.len()).enumerate() {
        for (word, node) in words.iter_mut().zip(nodes.clone()) {
            *word = node[column];
        }
    }
    Ok(())
}

/// Puts a snapshot back. What the table holds is not looked at; the result is tested before the first write.
pub fn put(snapshot: &[u32], table: &mut [u32]) -> Result<(), u32> {
    if snapshot.len() != table.len() {
        return Err(refusal::SNAPSHOT_LENGTH);
    }
    let sizes = shape::check_columns(snapshot)?;
    let between = sizes.node(0)..sizes.record(0);
    table[..between.start].copy_from_slice(&snapshot[..between.start]);
    table[between.end..].copy_from_slice(&snapshot[between.end..]);
    let columns = sizes.columns(&snapshot[between.clone()]);
    let nodes = &mut table[between];
    for (column, words) in columns.into_iter().enumerate() {
        for (node, word) in nodes.chunks_exact_mut(node::WORDS).zip(words) {
            node[column] = *word;
        }
    }
    Ok(())
}
