//! Lent records: a begin with the record put in its task's place, and records to lend.

use super::random::Random;
use super::row::Note;
use super::tables::{shaped_record, sizes};
use reference::begin;
use reference::table::{header, record, Sizes};

/// The words of a record.
pub type Record = [u32; record::WORDS];

/// Where a task's record lies, if these words have the sizes of a table and there is such a task.
pub fn place(table: &[u32], task: u32) -> Option<usize> {
    let fields = [header::NODES, header::TASKS, header::GROWTH, header::LANES];
    let [nodes, tasks, growth, lanes] = fields.map(|at| table.get(at).copied());
    let sizes = Sizes::new(nodes?, tasks?, growth?, lanes?)?;
    (sizes.words() == table.len() && task < tasks?).then(|| sizes.record(task))
}

/// The words of a task's record in a table.
pub fn words(table: &[u32], task: u32) -> Record {
    let at = place(table, task).expect("a task of the table");
    table[at..][..record::WORDS].try_into().expect("a record")
}

/// The table with a record in its task's place, as a panel copies it.
pub fn copied(table: &[u32], task: u32, lent: &Record) -> Vec<u32> {
    let mut table = table.to_vec();
    if let Some(at) = place(&table, task) {
        table[at..][..record::WORDS].copy_from_slice(lent);
    }
    table
}

/// What begin gives of a lent record, by the sentence of the request: the record stands in its task's place, and what
/// is then there is lent back.
pub fn begun(lent: &Record, table: &[u32], task: u32, note: Note) -> (u32, Record) {
    let Note {
        lane,
        operation,
        side,
        digit,
        argument,
    } = note;
    let mut table = copied(table, task, lent);
    match begin(&mut table, task, lane, operation, side, digit, argument) {
        Ok(()) => (0, words(&table, task)),
        Err(number) => (number, *lent),
    }
}

/// A record to lend for a task of a table: fresh, as it stands there, another task's, at any step, damaged, or any words.
pub fn any(random: &mut Random, table: &[u32], task: u32) -> Record {
    let sizes = sizes(table);
    let known = task.min(sizes.tasks - 1);
    let mut lent = match random.below(8) {
        0 => words(table, random.below(sizes.tasks)),
        1 | 2 => shaped_record(random, sizes),
        3 => words(table, known),
        4 if random.once_in(3) => [(); record::WORDS].map(|()| random.word()),
        _ => record::FRESH,
    };
    if random.once_in(6) {
        let at = random.below(record::WORDS as u32) as usize;
        lent[at] = match random.below(3) {
            0 => lent[at].wrapping_add(1),
            1 => lent[at].wrapping_sub(1),
            _ => random.word(),
        };
    }
    lent
}
