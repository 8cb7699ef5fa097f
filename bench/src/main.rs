//! How fast the proved machine is beside the second program in Rust: one table of ratios, and the growth with S.

#![deny(unsafe_code)]

mod airlines;
mod lines;
mod lists;
mod loads;
mod measure;
mod programs;
mod snapshots;
mod vectors;
mod windows;

use std::hint::black_box;

use loads::Load;
use measure::{interleaved, nanoseconds, plain_sum, Figures};
use programs::{Program, PROVED, RUST};
use reference::sheet::{BYTES, MAX_PAGE};
use reference::table::{header, record, POP, PUSH, RIGHT};

/// Words of all copies of a table in one round: they stay in the nearest cache.
const ROUND_WORDS: usize = 6000;
const SIZES: [u32; 3] = [16, 128, 1024];
const ALL_SIZES: [u32; 7] = [16, 32, 64, 128, 256, 512, 1024];
const HINT_SIZES: [u32; 3] = [128, 512, 1024];

/// What makes a load for so many nodes and lanes.
type Make = fn(u32, u32) -> Load;
/// What measures a load in so many rounds.
type Measure = fn(usize, &Load) -> Figures;

/// What is measured, and on how many lanes; what `growth` shows on one lane is not shown twice.
const ROWS: [(&str, u32, Make, Measure); 8] = [
    (
        "tick, no take: 16 pops, empty lane",
        1,
        loads::pops,
        run_tick,
    ),
    (
        "tick, some take a node: 16 pushes",
        1,
        loads::pushes,
        run_tick,
    ),
    (
        "single tick, with its shape test",
        1,
        loads::short_walks,
        single_tick,
    ),
    (
        "dispatch, with its shape test",
        1,
        loads::short_walks,
        single_dispatch,
    ),
    (
        "push and pop, each a lane_call",
        1,
        loads::empty,
        whole_calls,
    ),
    (
        "push and pop, by single ticks",
        1,
        loads::empty,
        single_calls,
    ),
    (
        "tick, no take: 16 removes that walk",
        4,
        loads::walks,
        run_tick,
    ),
    (
        "tick, each takes a node: 16 adds",
        4,
        loads::takes,
        run_tick,
    ),
];

fn main() {
    let words: Vec<String> = std::env::args().skip(1).collect();
    let (rounds, line_rounds, one_in) = match words.iter().map(String::as_str).collect::<Vec<_>>()[..]
    {
        [] => (1001, 7, 1),
        ["--quick"] => (101, 3, 1),
        // Every row is made, and its answers are compared; the figures mean nothing.
        ["--brief"] => (1, 1, 100),
        _ => {
            eprintln!("usage: bench/run [--quick | --brief]");
            std::process::exit(2);
        }
    };
    println!("The proved machine beside the second program in Rust, T 16: ratio = proved / Rust.");
    println!(
        "Both built for release; medians of {rounds} rounds in turn, and the ratio of low deciles."
    );
    println!(
        "Both gave the same words first. A table is copied afresh before each round, outside the"
    );
    println!(
        "time; answer and out slices are not cleared. The ticks of a run share its one shape test."
    );
    println!();
    ratios(rounds);
    println!();
    growth(rounds / 2 + 1);
    println!();
    hints(rounds);
    println!();
    lists::rows(rounds);
    println!();
    airlines::rows(rounds);
    println!();
    snapshots::rows(rounds);
    println!();
    windows::rows(rounds);
    println!();
    lines::rows(line_rounds, one_in);
}

/// The table of ratios.
fn ratios(rounds: usize) {
    println!(
        "{:38} {:>5} {:>5} {:>6} {:>9} {:>9} {:>6} {:>6}",
        "nanoseconds", "S", "lanes", "ticks", "proved", "Rust", "ratio", "low10"
    );
    for (name, lanes, make, measure) in ROWS {
        for nodes in SIZES {
            let load = make(nodes, lanes);
            show(name, nodes, lanes, load.ticks(), &measure(rounds, &load));
        }
    }
    let [one, four] = [1, 4].map(|lanes| loads::filled(1024, lanes, 1000));
    let read = reading(rounds, &one, 1000);
    show("reading 1,000 bags, the whole call", 1024, 1, 0, &read);
    let read = reading(rounds, &four, 250);
    show("reading 250 bags, one lane of four", 1024, 4, 0, &read);
    for page in [0, MAX_PAGE] {
        let name = format!("sheet of 1,000 bags, page {page}");
        show(&name, 1024, 1, 0, &printing(rounds, &one, page));
    }
    for (lanes, table) in [(1, one), (4, four)] {
        let begin = beginning(rounds, &table);
        show("begin of a push, 1,000 bags", 1024, lanes, 0, &begin);
        let lent = lending(rounds, &table);
        show("the same over a lent record", 1024, lanes, 0, &lent);
    }
}

fn show(name: &str, nodes: u32, lanes: u32, ticks: usize, figures: &Figures) {
    let Figures {
        proved,
        rust,
        low_ratio,
    } = figures;
    let ratio = figures.ratio();
    println!(
        "{name:38} {nodes:>5} {lanes:>5} {ticks:>6} {proved:>9.2} {rust:>9.2} {ratio:>6.2} {low_ratio:>6.2}"
    );
}

/// A tick of a run, the run's one test of the shape shared among its ticks.
fn run_tick(rounds: usize, load: &Load) -> Figures {
    let mut answers = [load.answers(), load.answers()];
    let mut tables = [load.table.clone(), load.table.clone()];
    let proved = (PROVED.run)(&mut tables[0], &load.list, &mut answers[0]);
    let rust = (RUST.run)(&mut tables[1], &load.list, &mut answers[1]);
    assert_eq!(proved, load.ticks() as u64, "a tick was refused");
    assert_eq!(proved, rust, "the programs differ in what a run returns");
    assert_eq!(
        tables[0], tables[1],
        "the programs differ in the table after a run"
    );
    assert_eq!(
        answers[0], answers[1],
        "the programs differ in the answers of a run"
    );
    let copies = copies(load);
    let units = (copies * load.ticks()) as f64;
    let work = |program: &'static Program| {
        let mut tables = vec![load.table.clone(); copies];
        let mut answers = load.answers();
        move || {
            for table in &mut tables {
                table.copy_from_slice(&load.table);
            }
            nanoseconds(|| {
                for table in &mut tables {
                    black_box((program.run)(table, &load.list, &mut answers));
                }
            }) / units
        }
    };
    interleaved(rounds, work(&PROVED), work(&RUST))
}

/// A tick called singly; it tests the whole table each time.
fn single_tick(rounds: usize, load: &Load) -> Figures {
    singly(rounds, load, |program, table, task, hint| {
        (program.tick)(table, task, hint)
    })
}

/// The same ticks, whose tasks are in turn, by dispatches.
fn single_dispatch(rounds: usize, load: &Load) -> Figures {
    singly(rounds, load, |program, table, _, hint| {
        (program.dispatch)(table, hint)
    })
}

/// Each tick of a list by a call of its own.
fn singly(
    rounds: usize,
    load: &Load,
    call: impl Fn(&Program, &mut [u32], u32, u32) -> u64 + Copy,
) -> Figures {
    let mut tables = [load.table.clone(), load.table.clone()];
    for pair in load.list.chunks_exact(2) {
        let proved = call(&PROVED, &mut tables[0], pair[0], pair[1]);
        let rust = call(&RUST, &mut tables[1], pair[0], pair[1]);
        assert_eq!(proved, rust, "the programs differ in what a tick returns");
        assert_eq!(
            tables[0], tables[1],
            "the programs differ in the table after a tick"
        );
    }
    let work = |program: &'static Program| {
        let mut table = load.table.clone();
        move || {
            table.copy_from_slice(&load.table);
            nanoseconds(|| {
                for pair in load.list.chunks_exact(2) {
                    black_box(call(program, &mut table, pair[0], pair[1]));
                }
            }) / load.ticks() as f64
        }
    };
    interleaved(rounds, work(&PROVED), work(&RUST))
}

/// A push and a pop, each a whole call.
fn whole_calls(rounds: usize, load: &Load) -> Figures {
    pushed_and_popped(rounds, load, |program, table, operation, argument| {
        (program.call)(table, 0, 0, operation, RIGHT, 0, argument)
    })
}

/// The same by single ticks, each of which tests the whole table.
fn single_calls(rounds: usize, load: &Load) -> Figures {
    pushed_and_popped(rounds, load, |program, table, operation, argument| {
        let begun = (program.begin)(table, 0, 0, operation, RIGHT, 0, argument);
        assert_eq!(begun, 0, "an idle task, and a new tag");
        loop {
            let answer = (program.tick)(table, 0, 0);
            if answer != 0 {
                break answer;
            }
        }
    })
}

/// A push and a pop at one end, after which the lane is as it was; `call` makes one of them by task 0.
fn pushed_and_popped(
    rounds: usize,
    load: &Load,
    call: impl Fn(&Program, &mut [u32], u32, u32) -> u64 + Copy,
) -> Figures {
    let tag = loads::NEW_TAG;
    let calls = [(PUSH, tag, 1 << 40), (POP, 0, 2 << 40 | u64::from(tag))];
    let make = move |program: &Program, table: &mut [u32]| {
        for (operation, argument, answer) in calls {
            let given = call(program, table, operation, argument);
            assert_eq!(given, answer, "a call's answer");
        }
    };
    let mut tables = [load.table.clone(), load.table.clone()];
    make(&PROVED, &mut tables[0]);
    make(&RUST, &mut tables[1]);
    assert_eq!(
        tables[0], tables[1],
        "the programs differ in the table after a call"
    );
    let times = copies(load);
    let work = |program: &'static Program| {
        let mut table = load.table.clone();
        move || nanoseconds(|| (0..times).for_each(|_| make(program, &mut table))) / times as f64
    };
    interleaved(rounds, work(&PROVED), work(&RUST))
}

/// A run of no ticks, made several times a round, so that a short call is not lost beside the clock.
fn shape_test(rounds: usize, load: &Load) -> Figures {
    let times = repeats(load);
    let work = |program: &'static Program| {
        let mut table = load.table.clone();
        move || {
            nanoseconds(|| {
                for _ in 0..times {
                    let made = (program.run)(black_box(&mut table), &[], &mut []);
                    assert_eq!(made, 0, "the shape does not hold");
                }
            }) / times as f64
        }
    };
    interleaved(rounds, work(&PROVED), work(&RUST))
}

/// A read of the last lane, which has so many bags.
fn reading(rounds: usize, table: &[u32], bags: u64) -> Figures {
    let lane = table[header::LANES] - 1;
    let out = vec![0; 2 * bags as usize];
    let mut outs = [out.clone(), out.clone()];
    assert_eq!((PROVED.read)(table, lane, &mut outs[0]), bags);
    assert_eq!((RUST.read)(table, lane, &mut outs[1]), bags);
    assert_eq!(outs[0], outs[1], "the programs differ in the tags read");
    let work = |program: &'static Program| {
        let mut out = out.clone();
        move || {
            nanoseconds(|| {
                black_box((program.read)(black_box(table), lane, &mut out));
            })
        }
    };
    interleaved(rounds, work(&PROVED), work(&RUST))
}

/// A page of the first lane.
fn printing(rounds: usize, table: &[u32], page: u32) -> Figures {
    let mut pages = [[0; BYTES], [0; BYTES]];
    assert_eq!((PROVED.sheet)(table, 0, page, &mut pages[0]), 0);
    assert_eq!((RUST.sheet)(table, 0, page, &mut pages[1]), 0);
    assert_eq!(pages[0], pages[1], "the programs differ in a page");
    let work = |program: &'static Program| {
        let mut out = [0; BYTES];
        move || {
            nanoseconds(|| {
                black_box((program.sheet)(black_box(table), 0, page, &mut out));
            })
        }
    };
    interleaved(rounds, work(&PROVED), work(&RUST))
}

/// The begin of a push that is accepted: no tag of any lane is its own.
fn beginning(rounds: usize, table: &[u32]) -> Figures {
    let begin = |program: &Program, table: &mut [u32]| {
        (program.begin)(table, 0, 0, PUSH, RIGHT, 0, loads::NEW_TAG)
    };
    let mut tables = [table.to_vec(), table.to_vec()];
    assert_eq!(begin(&PROVED, &mut tables[0]), 0);
    assert_eq!(begin(&RUST, &mut tables[1]), 0);
    assert_eq!(
        tables[0], tables[1],
        "the programs differ in the table after a begin"
    );
    let work = |program: &'static Program| {
        let mut lent = table.to_vec();
        move || {
            lent.copy_from_slice(table);
            nanoseconds(|| {
                black_box(begin(program, black_box(&mut lent)));
            })
        }
    };
    interleaved(rounds, work(&PROVED), work(&RUST))
}

/// The same over a fresh record that is lent, and not copied.
fn lending(rounds: usize, table: &[u32]) -> Figures {
    let begin = |program: &Program, record: &mut [u32; record::WORDS], table: &[u32]| {
        (program.begin_record)(record, table, 0, 0, PUSH, RIGHT, 0, loads::NEW_TAG)
    };
    let mut records = [record::FRESH; 2];
    assert_eq!(begin(&PROVED, &mut records[0], table), 0);
    assert_eq!(begin(&RUST, &mut records[1], table), 0);
    assert_eq!(
        records[0], records[1],
        "the programs differ in a lent record"
    );
    let work = |program: &'static Program| {
        move || {
            let mut record = record::FRESH;
            nanoseconds(|| {
                black_box(begin(program, black_box(&mut record), black_box(table)));
            })
        }
    };
    interleaved(rounds, work(&PROVED), work(&RUST))
}

/// Copies of a load's table in one round.
fn copies(load: &Load) -> usize {
    (ROUND_WORDS / load.table.len()).max(1)
}

/// How often a call that changes nothing is made in one round.
fn repeats(load: &Load) -> usize {
    copies(load).max(8)
}

/// The times as S doubles: a tick without a take stays as it is, a take and the shape test grow with S.
fn growth(rounds: usize) {
    println!("Growth with S, nanoseconds: proved (Rust). Then the bytes of the table that the shape test");
    println!("reads in a nanosecond; those of the nodes alone in a test written by hand in vector");
    println!("instructions; and those of a plain sum of the same words, which is the limit.");
    println!(
        "{:>5} {:>22} {:>22} {:>22} {:>16} {:>8} {:>8}",
        "S", "tick, no take", "tick that takes", "shape test", "bytes a ns", "by hand", "sum"
    );
    for nodes in ALL_SIZES {
        let idle = loads::none(nodes, 1);
        let test = shape_test(rounds, &idle);
        let bytes = 4.0 * idle.table.len() as f64;
        let rates = format!("{:.1} ({:.1})", bytes / test.proved, bytes / test.rust);
        let by_hand = vectors::rate(rounds, &idle.table, repeats(&idle));
        let sum = bytes / plain_sum(rounds, &idle.table, repeats(&idle));
        let cells = [
            run_tick(rounds, &loads::walks(nodes, 1)),
            run_tick(rounds, &loads::takes(nodes, 1)),
            test,
        ]
        .map(|figures| format!("{:.2} ({:.2})", figures.proved, figures.rust));
        println!(
            "{nodes:>5} {:>22} {:>22} {:>22} {rates:>16} {by_hand:>8.1} {sum:>8.1}",
            cells[0], cells[1], cells[2]
        );
    }
}

/// A tick that takes a node, by its hint: 0, or the node after the one last taken.
fn hints(rounds: usize) {
    println!(
        "A tick that takes a node, by its hint, nanoseconds: proved (Rust), and what the proved"
    );
    println!("one saves. 16 adds on one lane, as above.");
    println!(
        "{:>5} {:>22} {:>22} {:>9}",
        "S", "hint 0", "next to the last", "saved"
    );
    for nodes in HINT_SIZES {
        let [zero, next] =
            [loads::takes, loads::hinted_takes].map(|make: Make| run_tick(rounds, &make(nodes, 1)));
        let saved = 100.0 * (1.0 - next.proved / zero.proved);
        let [zero, next] =
            [zero, next].map(|figures| format!("{:.2} ({:.2})", figures.proved, figures.rust));
        println!("{nodes:>5} {zero:>22} {next:>22} {saved:>7.0} %");
    }
}
