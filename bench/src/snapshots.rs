//! Snapshots taken and put back: nanoseconds beside the second program, and beside a plain copy of as many words.

use std::hint::black_box;

use crate::loads;
use crate::measure::{interleaved, nanoseconds, Figures};
use crate::programs::{Program, PROVED, RUST};
use crate::{ROUND_WORDS, SIZES};

/// A snapshot taken or put back: from these words to those, which are as many.
type Call = fn(&Program, &[u32], &mut [u32]) -> u32;

/// Measures both calls on tables of every size.
pub fn rows(rounds: usize) {
    println!("Snapshots, nanoseconds, beside a plain copy of the words.");
    println!(
        "{:38} {:>5} {:>9} {:>9} {:>6} {:>6} {:>9}",
        "", "S", "proved", "Rust", "ratio", "low10", "copy"
    );
    for nodes in SIZES {
        let table = loads::none(nodes, 1).table;
        let take: Call = |program, table, snapshot| (program.take)(table, snapshot);
        let put: Call = |program, snapshot, table| (program.put)(snapshot, table);
        let [snapshot, other] = [&PROVED, &RUST].map(|program| moved(program, take, &table));
        assert_eq!(snapshot, other, "the programs differ in a snapshot");
        for program in [&PROVED, &RUST] {
            let back = moved(program, put, &snapshot);
            assert_eq!(back, table, "not the table that was taken");
        }
        let copy = repeated(rounds, &table, |from, to| {
            to.copy_from_slice(from);
            0
        });
        let take = beside(rounds, &table, take);
        show("a snapshot taken", nodes, &take, copy);
        let put = beside(rounds, &snapshot, put);
        show("a snapshot put back", nodes, &put, copy);
    }
}

fn show(name: &str, nodes: u32, figures: &Figures, copy: f64) {
    let Figures {
        proved,
        rust,
        low_ratio,
    } = figures;
    let ratio = figures.ratio();
    println!(
        "{name:38} {nodes:>5} {proved:>9.1} {rust:>9.1} {ratio:>6.2} {low_ratio:>6.2} {copy:>9.1}"
    );
}

/// The words that a call writes.
fn moved(program: &Program, call: Call, from: &[u32]) -> Vec<u32> {
    let mut to = vec![0; from.len()];
    assert_eq!(call(program, from, &mut to), 0, "a call was refused");
    to
}

/// Both programs in turn.
fn beside(rounds: usize, from: &[u32], call: Call) -> Figures {
    let work = |program: &'static Program| timed(from, move |from, to| call(program, from, to));
    interleaved(rounds, work(&PROVED), work(&RUST))
}

/// The nanoseconds of one piece of work alone.
fn repeated(rounds: usize, from: &[u32], work: impl Fn(&[u32], &mut [u32]) -> u32 + Copy) -> f64 {
    interleaved(rounds, timed(from, work), timed(from, work)).proved
}

/// The nanoseconds of one call, made as often as a round's words allow.
fn timed<'a>(
    from: &'a [u32],
    call: impl Fn(&[u32], &mut [u32]) -> u32 + 'a,
) -> impl FnMut() -> f64 + 'a {
    let times = (ROUND_WORDS / from.len()).max(1);
    let mut to = from.to_vec();
    move || {
        nanoseconds(|| {
            for _ in 0..times {
                black_box(call(black_box(from), black_box(&mut to)));
            }
        }) / times as f64
    }
}
