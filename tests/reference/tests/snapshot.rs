//! Snapshots by columns: the order of their words, there and back, every refusal in its order, and what is put back of
//! any words.

mod common;

use common::columns::{by_columns, by_nodes};
use common::random::Random;
use common::tables::{shaped, shaped_of, sizes, started, started_lanes};
use reference::table::{header, Sizes};
use reference::{put, run, start, take};

/// What a lent slice holds before a call.
const KEPT: u32 = 0xa5a5_a5a5;

/// What every call but a start gives for a table: 3, 4, or 0.
fn tested(table: &[u32]) -> u32 {
    run(&mut table.to_vec(), &[], &mut []).0
}

/// A snapshot of a table that is accepted.
fn taken(table: &[u32]) -> Vec<u32> {
    let mut snapshot = vec![KEPT; table.len()];
    assert_eq!(take(table, &mut snapshot), Ok(()));
    snapshot
}

/// Taking gives the words by columns, putting back gives the table over any words, and taking again the same snapshot.
fn check_round(random: &mut Random, table: &[u32]) {
    let snapshot = taken(table);
    assert_eq!(snapshot, by_columns(table));
    let [mut before, mut after] = [table.to_vec(), snapshot.clone()];
    before.sort_unstable();
    after.sort_unstable();
    assert_eq!(before, after, "the same words");
    let mut back: Vec<u32> = table.iter().map(|_| random.word()).collect();
    assert_eq!(put(&snapshot, &mut back), Ok(()));
    assert_eq!(back, table);
    assert_eq!(taken(&back), snapshot);
}

/// A put gives what the tests give for the result, and writes that or nothing.
fn check_put(snapshot: &[u32], table: &mut [u32]) -> u32 {
    let before = table.to_vec();
    let (wanted, left) = match by_nodes(snapshot) {
        _ if snapshot.len() != table.len() => (22, before),
        None => (3, before),
        Some(result) => match tested(&result) {
            0 => (0, result),
            number => (number, before),
        },
    };
    assert_eq!(put(snapshot, table).err().unwrap_or(0), wanted);
    assert_eq!(table, left);
    wanted
}

#[test]
fn the_order_of_the_words() {
    let mut table = started_lanes(4, 1, 0, 1);
    // Slots 0 and 1 are the lane's ends, 2 and 3 get words that tell the columns apart.
    let at = sizes(&table).node(2);
    table[at..at + 8].copy_from_slice(&[1, 2, 51, 3, 0, 3, 52, 4]);
    let none = 65_535;
    #[rustfmt::skip]
    let snapshot = [
        4, 1, 0, 1, 0, 0, 0, 1, none, none, none, none, none, none, 0, 0,
        none, 0, 1, 0,
        1, none, 2, 3,
        1_000_000_002, 1_000_000_005, 51, 52,
        0, 0, 3, 4,
        0, 0, 0, 0, 0, 0, 0, 0, none, none, none, none, 0,
    ];
    assert_eq!(taken(&table), snapshot);
    let mut back = vec![KEPT; table.len()];
    assert_eq!(put(&snapshot, &mut back), Ok(()));
    assert_eq!(back, table);
}

#[test]
fn there_and_back_on_any_table_of_good_shape() {
    let mut random = Random::new(51);
    for _ in 0..5_000 {
        let table = shaped(&mut random);
        check_round(&mut random, &table);
    }
    for (nodes, tasks, lanes) in [
        (2, 1, 1),
        (2, 16, 1),
        (8, 16, 4),
        (1024, 1, 1),
        (1024, 16, 4),
    ] {
        let sizes = Sizes::new(nodes, tasks, 64, lanes).expect("sizes in range");
        let table = shaped_of(&mut random, sizes);
        check_round(&mut random, &table);
        check_round(&mut random, &started_lanes(nodes, tasks, 0, lanes));
    }
}

#[test]
fn refusals_in_order() {
    let good = started(6, 2, 0);
    for faults in 0..8 {
        let [differ, no_table, broken] = [0, 1, 2].map(|bit| faults >> bit & 1 == 1);
        let mut table = good.clone();
        // A link past the last node, in both orders the first word after the header.
        table[header::WORDS] = if broken { 6 } else { table[header::WORDS] };
        let mut snapshot = by_columns(&table);
        for words in [&mut table, &mut snapshot] {
            words[header::GROWTH] = if no_table { 65 } else { 0 };
        }
        let wanted = match (differ, no_table, broken) {
            (true, ..) => Err(22),
            (_, true, _) => Err(3),
            (.., true) => Err(4),
            _ => Ok(()),
        };
        for length in lengths(table.len(), differ) {
            let mut out = vec![KEPT; length];
            assert_eq!(take(&table, &mut out), wanted, "{length} words");
            let left = if wanted.is_ok() {
                snapshot.clone()
            } else {
                vec![KEPT; length]
            };
            assert_eq!(out, left);
            let mut out = vec![KEPT; length];
            assert_eq!(put(&snapshot, &mut out), wanted, "{length} words");
            let left = if wanted.is_ok() {
                table.clone()
            } else {
                vec![KEPT; length]
            };
            assert_eq!(out, left);
        }
    }
}

/// Lengths that differ from this one, or it alone.
fn lengths(exact: usize, differ: bool) -> Vec<usize> {
    match differ {
        true => vec![
            0,
            1,
            36,
            37,
            exact - 13,
            exact - 1,
            exact + 1,
            exact + 13,
            4320,
        ],
        false => vec![exact],
    }
}

#[test]
fn slices_of_any_equal_length_and_words() {
    let mut random = Random::new(52);
    for length in 0..120 {
        for _ in 0..40 {
            let words: Vec<u32> = (0..length).map(|_| random.word()).collect();
            let mut out = vec![KEPT; length];
            assert_eq!(take(&words, &mut out), Err(3));
            assert_eq!(out, vec![KEPT; length]);
            assert_eq!(check_put(&words, &mut out), 3);
        }
    }
}

#[test]
fn the_table_s_old_words_are_not_tested() {
    let good = started(6, 2, 0);
    let snapshot = taken(&good);
    for mut old in [
        vec![0; good.len()],
        vec![u32::MAX; good.len()],
        snapshot.clone(),
        good.clone(),
    ] {
        assert_eq!(check_put(&snapshot, &mut old), 0);
        assert_eq!(old, good);
    }
}

#[test]
fn other_sizes_of_the_same_length() {
    let mut random = Random::new(53);
    for (nodes, tasks) in [(2, 5), (2, 16), (8, 8), (100, 13)] {
        let (more_nodes, fewer_tasks) = (nodes + 13, tasks - 4);
        for lanes in 1..=4.min(nodes / 2) {
            let few = started_lanes(nodes, tasks, 3, lanes);
            let many = started_lanes(more_nodes, fewer_tasks, 0, 1);
            assert_eq!(few.len(), many.len());
            for (from, over) in [(&few, &many), (&many, &few)] {
                let mut table = over.clone();
                assert_eq!(check_put(&taken(from), &mut table), 0);
                assert_eq!(&table, from);
                check_round(&mut random, &table);
                // The same columns under the other sizes are another table, and mostly none.
                let mut mixed = taken(from);
                mixed[..2].copy_from_slice(&over[..2]);
                check_put(&mixed, &mut table);
            }
        }
    }
}

#[test]
fn altered_and_exchanged_words() {
    let mut random = Random::new(54);
    let mut counts = [0; 23];
    for _ in 0..20_000 {
        let table = shaped(&mut random);
        let mut snapshot = taken(&table);
        let length = snapshot.len() as u32;
        let [one, other] = [0; 2].map(|_| random.below(length) as usize);
        match random.below(4) {
            0 => snapshot[one] = random.word(),
            1 => snapshot.swap(one, other),
            2 => snapshot.rotate_left(one),
            _ => snapshot[one..]
                .iter_mut()
                .for_each(|word| *word = random.word()),
        }
        if random.once_in(20) {
            snapshot.truncate(other);
        }
        let mut over = shaped_of(&mut random, sizes(&table));
        let number = check_put(&snapshot, &mut over);
        counts[number as usize] += 1;
    }
    for number in [0, 3, 4, 22] {
        assert!(counts[number] > 100, "{number}: {}", counts[number]);
    }
}

#[test]
fn every_word_of_a_snapshot_is_tested_where_it_stands_in_the_result() {
    let good = started_lanes(4, 2, 0, 2);
    let snapshot = taken(&good);
    let mut refused = 0;
    for at in 0..snapshot.len() {
        for word in [
            0,
            1,
            3,
            4,
            9,
            10,
            65_535,
            1_000_000_000,
            1_000_000_006,
            u32::MAX,
        ] {
            let mut altered = snapshot.clone();
            altered[at] = word;
            let number = check_put(&altered, &mut good.clone());
            refused += u32::from(number != 0);
        }
    }
    assert!(refused > 100);
}

#[test]
fn a_start_over_a_snapshot_s_table_is_as_any() {
    let mut table = started(6, 2, 0);
    assert_eq!(put(&taken(&started_lanes(6, 2, 1, 3)), &mut table), Ok(()));
    assert_eq!(start(&mut table, 6, 2, 0, 1), Ok(()));
    assert_eq!(table, started(6, 2, 0));
}
