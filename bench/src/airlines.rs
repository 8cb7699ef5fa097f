//! Airline lists: the test of one, and a push begun by it, in nanoseconds.

use std::hint::black_box;

use reference::airlines::MAX_LINES;

use crate::loads::{self, Load};
use crate::measure::{interleaved, nanoseconds, Figures};
use crate::programs::{Program, PROVED, RUST};

/// Lines of a list, with the closing one.
const COUNTS: [u32; 3] = [2, 16, MAX_LINES];
/// Lines of all lists tested in one round.
const ROUND_LINES: u32 = 16 * MAX_LINES;
/// Slots of the table that is pushed to.
const SLOTS: u32 = 16;

/// Measures both calls on lists of every count.
pub fn rows(rounds: usize) {
    println!("Airline lists, nanoseconds a call; a push on a table of {SLOTS} slots, its code in the last");
    println!("line but one.");
    println!(
        "{:38} {:>5} {:>9} {:>9} {:>6} {:>6}",
        "", "lines", "proved", "Rust", "ratio", "low10"
    );
    let load = loads::empty(SLOTS, 1);
    for count in COUNTS {
        let list = list(count);
        show("a list tested", count, &testing(rounds, &list, count));
        show(
            "a push begun by it",
            count,
            &pushing(rounds, &list, count, &load),
        );
    }
}

fn show(name: &str, count: u32, figures: &Figures) {
    let Figures {
        proved,
        rust,
        low_ratio,
    } = figures;
    let ratio = figures.ratio();
    println!("{name:38} {count:>5} {proved:>9.1} {rust:>9.1} {ratio:>6.2} {low_ratio:>6.2}");
}

/// The code of an airline's line, from 1.
fn code(line: u32) -> u32 {
    line * 137 % 1000
}

/// A list of so many lines, the ends in turn.
fn list(count: u32) -> Vec<u8> {
    let ends = ["left", "right"];
    let airlines = (1..count).map(|line| {
        let end = ends[line as usize % 2];
        format!("(airline (code {:03}) {end})\n", code(line))
    });
    let list: String = airlines.chain(["(others left)\n".to_string()]).collect();
    list.into_bytes()
}

/// Nanoseconds of a list tested.
fn testing(rounds: usize, list: &[u8], count: u32) -> Figures {
    for program in [&PROVED, &RUST] {
        assert_eq!((program.check_list)(list), 0, "a list has a fault");
    }
    let times = ROUND_LINES / count;
    let work = |program: &'static Program| {
        move || {
            nanoseconds(|| {
                for _ in 0..times {
                    black_box((program.check_list)(black_box(list)));
                }
            }) / f64::from(times)
        }
    };
    interleaved(rounds, work(&PROVED), work(&RUST))
}

/// Nanoseconds of a push begun by a list.
fn pushing(rounds: usize, list: &[u8], count: u32, load: &Load) -> Figures {
    let low = code(count - 1) * 1_000_000 + 51;
    let push =
        |program: &Program, table: &mut [u32]| (program.push_by_list)(list, table, 0, 0, 0, low);
    let mut tables = [load.table.clone(), load.table.clone()];
    assert_eq!(push(&PROVED, &mut tables[0]), 0, "a push is refused");
    assert_eq!(push(&RUST, &mut tables[1]), 0, "a push is refused");
    assert_eq!(
        tables[0], tables[1],
        "the programs differ in the table after a push by list"
    );
    let copies = crate::copies(load);
    let work = |program: &'static Program| {
        let mut tables = vec![load.table.clone(); copies];
        move || {
            for table in &mut tables {
                table.copy_from_slice(&load.table);
            }
            nanoseconds(|| {
                for table in &mut tables {
                    black_box(push(program, black_box(table)));
                }
            }) / copies as f64
        }
    };
    interleaved(rounds, work(&PROVED), work(&RUST))
}
