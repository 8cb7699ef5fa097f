//! Snapshots: what is done to one before it is put back, what that gives, and what the rows of a play then are.

use std::ops::Range;

use reference::table::{header, Sizes};

use crate::both::Both;
use crate::broken;
use crate::common::columns::{by_columns, by_nodes};
use crate::common::random::Random;
use crate::common::row::Row;
use crate::common::tables::{shaped_of, sizes};
use crate::counts::{Counts, Origin};

/// Changes a snapshot of a table of these sizes; gives none where it has no place for it.
type Alter = fn(&mut Random, &mut Vec<u32>, Sizes) -> Option<()>;

/// Whether a put can give something.
#[derive(Clone, Copy, PartialEq)]
enum Comes {
    Seen,
    /// By rare chance; it need not be seen.
    Rare,
    Never,
}
use Comes::*;

/// What a put gives.
const GIVES: [u32; 4] = [0, 3, 4, 22];

/// What is done to a snapshot, what of `GIVES` then comes, and how it is done.
const ALTERED: [(&str, [Comes; 4], Alter); 13] = [
    ("nothing", [Seen, Never, Never, Never], |_, _, _| Some(())),
    (
        "a word of the header altered",
        [Seen, Seen, Seen, Never],
        |random, words, _| alter(random, words, 0..header::WORDS),
    ),
    (
        "a word of a column altered",
        [Seen, Never, Seen, Never],
        |random, words, sizes| alter(random, words, sizes.node(0)..sizes.record(0)),
    ),
    (
        "a word of a task altered",
        [Seen, Never, Seen, Never],
        |random, words, sizes| alter(random, words, sizes.record(0)..sizes.words()),
    ),
    (
        "two words exchanged",
        [Seen, Seen, Seen, Never],
        |random, words, sizes| {
            let [one, other] = [0..sizes.words(), 0..sizes.words()].map(|all| any(random, all));
            words.swap(one, other);
            Some(())
        },
    ),
    (
        "two columns exchanged",
        [Seen, Never, Seen, Never],
        |random, words, sizes| {
            let one = random.below(4);
            let other = (one + 1 + random.below(3)) % 4;
            for (one, other) in column(sizes, one).zip(column(sizes, other)) {
                words.swap(one, other);
            }
            Some(())
        },
    ),
    (
        "a column moved on by a slot",
        [Seen, Never, Seen, Never],
        |random, words, sizes| {
            words[column(sizes, random.below(4))].rotate_left(1);
            Some(())
        },
    ),
    (
        "the words as in the table",
        [Rare, Never, Seen, Never],
        |_, words, _| {
            *words = by_nodes(words)?;
            Some(())
        },
    ),
    (
        "13 slots for 4 tasks said, or back",
        [Rare, Rare, Seen, Never],
        |random, words, sizes| {
            let Sizes { nodes, tasks, .. } = sizes;
            let more = resize(nodes.checked_add(13), tasks.checked_sub(4));
            let less = resize(nodes.checked_sub(13), tasks.checked_add(4));
            let ways: Vec<[u32; 2]> = [more, less].into_iter().flatten().collect();
            let way = (!ways.is_empty()).then(|| random.pick(&ways))?;
            words[..2].copy_from_slice(&way);
            Some(())
        },
    ),
    (
        "other sizes said",
        [Never, Seen, Never, Never],
        |random, words, sizes| {
            let nodes = sizes.nodes + 1 + random.below(12);
            words[header::NODES] = nodes;
            Some(())
        },
    ),
    (
        "the last words cut off",
        [Never, Never, Never, Seen],
        |random, words, _| {
            words.truncate(random.below(words.len() as u32) as usize);
            Some(())
        },
    ),
    (
        "the first words cut off",
        [Never, Never, Never, Seen],
        |random, words, _| {
            words.drain(..1 + random.below(words.len() as u32) as usize);
            Some(())
        },
    ),
    (
        "words after the last",
        [Never, Never, Never, Seen],
        |random, words, _| {
            words.extend((0..1 + random.below(13)).map(|_| random.word()));
            Some(())
        },
    ),
];

/// What a snapshot that is put back as it was taken brings back, first things first.
const BROUGHT: [&str; 7] = [
    "a row, where none was known",
    "other slots and tasks",
    "other lanes or another growth",
    "other bags",
    "the same bags, other calls",
    "the same bags and calls, another turn",
    "the same row",
];

/// Where the rows of a play are after a put.
const ROWS: [&str; 4] = [
    "refused: the row stays",
    "accepted, not as taken: no row known",
    "a start then: the empty row",
    "the same ticks again, the same answers",
];
pub const REFUSED: usize = 0;
pub const NOT_KNOWN: usize = 1;
pub const STARTED: usize = 2;
pub const AGAIN: usize = 3;

/// What was seen of them.
#[derive(Default)]
pub struct Snapshots {
    /// As in `ALTERED` and `GIVES`, by origin.
    put: [[[u64; 2]; GIVES.len()]; ALTERED.len()],
    /// As in `BROUGHT`.
    brought: [u64; BROUGHT.len()],
    /// As in `ROWS`.
    pub rows: [u64; ROWS.len()],
}

/// Takes a snapshot of a well-shaped table. A slice of any other length is refused first.
pub fn take(random: &mut Random, both: &mut Both) -> Vec<u32> {
    let length = both.table().len();
    if random.once_in(4) {
        let other = random.below(2 * length as u32) as usize;
        if other != length {
            assert_eq!(both.take(other, random.word()), Err(22));
        }
    }
    let snapshot = both.take(length, random.word()).expect("a table");
    assert!(
        snapshot == by_columns(both.table()),
        "a snapshot is not by columns"
    );
    snapshot
}

/// Does one of these things to a snapshot and puts it back: the words that were put, and what that gave.
pub fn put(
    random: &mut Random,
    counts: &mut Counts,
    origin: Origin,
    both: &mut Both,
    mut words: Vec<u32>,
) -> (Vec<u32>, Result<(), u32>) {
    let taken = words.clone();
    let mut place = random.below(ALTERED.len() as u32) as usize;
    let (_, _, alter) = ALTERED[place];
    if alter(random, &mut words, sizes(&taken)).is_none() {
        (place, words) = (0, taken);
    }
    let (name, comes, _) = ALTERED[place];
    let given = both.put(&words);
    if given.is_ok() {
        assert!(by_nodes(&words).is_some_and(|table| both.table() == table));
    }
    let gives = given.err().unwrap_or(0);
    let gives = GIVES.iter().position(|&number| number == gives);
    let gives = gives.expect("0, 3, 4 or 22");
    assert!(comes[gives] != Never, "put, {name}: {given:?}");
    counts.snapshots.put[place][gives][origin as usize] += 1;
    (words, given)
}

/// Takes a snapshot of any well-shaped table and puts it back, altered or not, over any words; both programs go on from
/// there.
pub fn check(random: &mut Random, counts: &mut Counts) {
    let table = broken::shaped_table(random);
    let mut taken = Both::over(&table);
    let snapshot = take(random, &mut taken);
    counts.add(&taken.given);
    let over = match random.below(3) {
        0 => table,
        1 => shaped_of(random, sizes(&table)),
        _ => table.iter().map(|_| random.word()).collect(),
    };
    let mut both = Both::over(&over);
    let (_, given) = put(random, counts, Origin::Anywhere, &mut both, snapshot);
    if given.is_ok() {
        broken::calls(random, counts, &mut both);
    }
    counts.add(&both.given);
}

/// A table that every call turns back with this number is not taken, and not put back.
pub fn turned_back(both: &mut Both, gives: u32) {
    let table = both.table().to_vec();
    assert_eq!(both.take(table.len(), 0), Err(gives));
    // Without sizes there is no order.
    let snapshot = if gives == 3 {
        table
    } else {
        by_columns(&table)
    };
    assert_eq!(both.put(&snapshot), Err(gives));
}

/// Some place of these.
fn any(random: &mut Random, places: Range<usize>) -> usize {
    places.start + random.below(places.len() as u32) as usize
}

/// Changes a word, often by 1.
fn alter(random: &mut Random, words: &mut [u32], places: Range<usize>) -> Option<()> {
    let word = &mut words[any(random, places)];
    let [more, less] = [word.wrapping_add(1), word.wrapping_sub(1)];
    *word = match random.below(3) {
        0 => more,
        1 => less,
        _ => random.word(),
    };
    Some(())
}

/// The places of a column, from 0.
fn column(sizes: Sizes, number: u32) -> Range<usize> {
    let length = sizes.nodes as usize;
    let first = sizes.node(0) + number as usize * length;
    first..first + length
}

/// Slots and tasks, if they are in range for one lane.
fn resize(nodes: Option<u32>, tasks: Option<u32>) -> Option<[u32; 2]> {
    let sizes = Sizes::new(nodes?, tasks?, 0, 1)?;
    Some([sizes.nodes, sizes.tasks])
}

impl Snapshots {
    /// A snapshot was put back as it was taken, over a table of these sizes and rows, if they were known.
    pub fn brought(&mut self, before: Option<(Sizes, &Row)>, after: (Sizes, &Row)) {
        let (sizes, row) = after;
        let place = match before {
            None => 0,
            Some((old, _)) if (old.nodes, old.tasks) != (sizes.nodes, sizes.tasks) => 1,
            Some((old, _)) if old != sizes => 2,
            Some((_, old)) if old.tags != row.tags => 3,
            Some((_, old)) if old.notes != row.notes => 4,
            Some((_, old)) if !old.is(row) => 5,
            Some(_) => 6,
        };
        self.brought[place] += 1;
    }

    /// Prints the counts; gives what was to be seen and was not.
    pub fn report(&self) -> Vec<String> {
        let mut faults = Vec::new();
        println!(
            "\n{:36} {:>7} {:>11} {:>11}",
            "snapshots put back, done to them", "gives", "from start", "any table"
        );
        for ((name, comes, _), put) in ALTERED.iter().zip(self.put) {
            for ((gives, comes), counts) in GIVES.iter().zip(comes).zip(put) {
                let [calls, anywhere] = counts;
                if *comes != Never {
                    println!("{name:36} {gives:>7} {calls:>11} {anywhere:>11}");
                }
                if *comes == Seen && counts.contains(&0) {
                    faults.push(format!("put, {name}, {gives}: {calls}, {anywhere}"));
                }
            }
        }
        println!("\n{:45}", "put back as taken, which brings back");
        let brought = BROUGHT.iter().zip(self.brought);
        let rows = ROWS.iter().zip(self.rows);
        for (name, count) in brought.chain(rows) {
            println!("{name:45} {count:>11}");
            if count == 0 {
                faults.push(format!("snapshots, none: {name}"));
            }
        }
        faults
    }
}
