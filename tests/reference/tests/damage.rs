//! Damaged tables, wrong lengths and any numbers: no panic, and a refusal
//! changes no word.

mod common;

use common::columns::by_columns;
use common::random::Random;
use common::tables::{shaped, started_lanes};
use reference::table::{header, Sizes, PUSH, REMOVE};
use reference::{begin, dispatch, put, read, run, start, take, tick};

/// Calls by their refusal; at 0 those that were accepted.
type Counts = [u32; 27];

/// Makes one call with arbitrary arguments and checks what it leaves.
fn call(random: &mut Random, table: &mut [u32], counts: &mut Counts) {
    let before = table.to_vec();
    let number = match random.below(8) {
        0 => {
            let (nodes, tasks, growth) = if random.once_in(2) {
                (random.word(), random.word(), random.word())
            } else {
                (2 + random.below(8), 1 + random.below(3), random.below(66))
            };
            let lanes = near(random, 6);
            let number = refused(start(table, nodes, tasks, growth, lanes));
            if number == 0 {
                assert_eq!(run(table, &[], &mut []), (0, 0));
            }
            number
        }
        1 => {
            let number = refused(begin(
                table,
                near(random, 4),
                near(random, 3),
                near(random, 5),
                near(random, 2),
                random.digit(),
                near(random, 3),
            ));
            if number == 0 {
                assert_eq!(run(table, &[], &mut []), (0, 0));
            }
            number
        }
        2 => {
            let number = refused(tick(table, near(random, 4), near(random, 6)).map(|_| ()));
            if number == 0 {
                // A tick made keeps the shape.
                assert_eq!(run(table, &[], &mut []), (0, 0));
            }
            number
        }
        3 => {
            let given = dispatch(table, near(random, 6));
            if matches!(given, Ok(Some(_))) {
                assert_eq!(run(table, &[], &mut []), (0, 0));
            }
            if given == Ok(None) {
                assert_eq!(table, before, "idle");
            }
            refused(given.map(|_| ()))
        }
        4 => {
            let list: Vec<u32> = (0..random.below(40)).map(|_| near(random, 4)).collect();
            let mut answers = vec![8; random.below(70) as usize];
            let (number, made) = run(table, &list, &mut answers);
            let made = made as usize;
            assert!(2 * made <= list.len());
            assert!(answers.iter().skip(3 * made).all(|&word| word == 8));
            if made > 0 {
                assert!(matches!(number, 0 | 5 | 9 | 10 | 11));
                counts[0] += 1;
                return;
            }
            number
        }
        5 => {
            let mut snapshot = vec![8; near_length(random, table)];
            let found = take(table, &mut snapshot);
            if found.is_err() {
                assert!(snapshot.iter().all(|&word| word == 8));
            }
            assert_eq!(table, before);
            refused(found)
        }
        6 => {
            // A table that is none has no order: its words stand as they are.
            let mut snapshot = match run(table, &[], &mut []) {
                (0, _) => by_columns(table),
                _ => before.clone(),
            };
            snapshot.resize(near_length(random, table), 8);
            let number = refused(put(&snapshot, table));
            if number == 0 {
                assert_eq!(run(table, &[], &mut []), (0, 0));
            }
            number
        }
        _ => {
            let mut out = vec![8; random.below(20) as usize];
            let found = read(table, near(random, 3), &mut out);
            let written = 2 * found.unwrap_or(0) as usize;
            assert!(out[written..].iter().all(|&word| word == 8));
            assert_eq!(table, before);
            refused(found.map(|_| ()))
        }
    };
    counts[number as usize] += 1;
    if number != 0 {
        assert_eq!(table, before, "refused with {number}");
    }
}

fn refused(found: Result<(), u32>) -> u32 {
    found.err().unwrap_or(0)
}

/// Mostly the length of the table, sometimes another.
fn near_length(random: &mut Random, table: &[u32]) -> usize {
    if random.once_in(8) {
        random.below(100) as usize
    } else {
        table.len()
    }
}

/// Mostly a number below the bound, sometimes any.
fn near(random: &mut Random, bound: u32) -> u32 {
    if random.once_in(8) {
        random.word()
    } else {
        random.below(bound)
    }
}

#[test]
fn slices_of_any_words() {
    let mut random = Random::new(11);
    let mut counts: Counts = [0; 27];
    for _ in 0..20_000 {
        let length = random.below(100) as usize;
        let mut table: Vec<u32> = (0..length).map(|_| random.word()).collect();
        call(&mut random, &mut table, &mut counts);
    }
    for number in [1, 2, 3, 22, 25] {
        assert!(counts[number] > 0, "{counts:?}");
    }
}

#[test]
fn started_tables_with_damaged_words() {
    let mut random = Random::new(12);
    let mut counts: Counts = [0; 27];
    for _ in 0..12_000 {
        let lanes = 1 + random.below(Sizes::MAX_LANES);
        let nodes = 2 * lanes + random.below(5);
        let mut table = started_lanes(nodes, 1 + random.below(3), random.below(3), lanes);
        begin_some(&mut random, &mut table);
        for _ in 0..random.below(3) {
            let at = random.below(table.len() as u32) as usize;
            table[at] = random.word();
        }
        match random.below(12) {
            0 => table.truncate(random.below(100) as usize),
            1 => table.push(random.word()),
            _ => {}
        }
        for _ in 0..8 {
            call(&mut random, &mut table, &mut counts);
        }
    }
    // 15 is the panel's, and the others between 16 and 25 are of none of these calls.
    for number in (0..=14).chain([16, 22, 25, 26]) {
        assert!(counts[number] > 0, "{number}: {counts:?}");
    }
}

#[test]
fn tables_of_good_shape_and_no_sense() {
    let mut random = Random::new(13);
    let mut counts: Counts = [0; 27];
    for _ in 0..10_000 {
        let mut table = shaped(&mut random);
        assert_eq!(run(&mut table, &[], &mut []), (0, 0), "shape");
        for _ in 0..10 {
            call(&mut random, &mut table, &mut counts);
        }
    }
    for number in [0, 1, 2, 5, 6, 7, 8, 9, 10, 11, 12, 13, 14, 16, 22, 25, 26] {
        assert!(counts[number] > 0, "{counts:?}");
    }
    assert_eq!((counts[3], counts[4]), (0, 0));
}

#[test]
fn a_run_is_its_ticks_on_any_table() {
    let mut random = Random::new(14);
    let mut stopped = 0;
    for _ in 0..8_000 {
        let mut table = shaped(&mut random);
        let mut single = table.clone();
        let list: Vec<u32> = (0..2 * random.below(20))
            .map(|_| {
                let bound = if random.once_in(30) { 9 } else { 2 };
                random.below(bound)
            })
            .collect();
        let mut answers = vec![8; 3 * list.len() / 2];
        let found = run(&mut table, &list, &mut answers);
        let (mut refused, mut made) = (0, 0);
        for (pair, words) in list.chunks(2).zip(answers.chunks(3)) {
            match tick(&mut single, pair[0], pair[1]) {
                Ok(answer) => {
                    assert_eq!(words, answer.words());
                    made += 1;
                }
                Err(number) => {
                    refused = number;
                    stopped += 1;
                    break;
                }
            }
        }
        assert_eq!(found, (refused, made));
        assert_eq!(table, single);
    }
    assert!(stopped > 100);
}

fn begin_some(random: &mut Random, table: &mut [u32]) {
    for task in 0..3 {
        let operation = PUSH + random.below(REMOVE);
        let lane = random.below(table[header::LANES]);
        let (side, digit, argument) = (random.below(2), random.below(2), random.below(2));
        let _ = begin(table, task, lane, operation, side, digit, argument);
        for _ in 0..random.below(12) {
            let _ = tick(table, task, 0);
        }
    }
}
