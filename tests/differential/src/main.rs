//! The proved library against the second program in Rust, call by call and word by word.
//!
//! `differential [--seed N] [--seconds N]`: rounds with the seeds N, N + 1 and so on, for so many seconds or a fixed
//! number of rounds. A round is made from its seed alone: `--seconds 0` with the seed printed last repeats a failure.
//! It ends with status 1 if an outcome that can come was never seen; a few seconds are too short to see all.

#![forbid(unsafe_code)]

mod airlines;
mod alone;
mod apart;
mod begins;
mod both;
mod broken;
mod cause;
mod counts;
mod digits;
mod dispatches;
mod drain;
mod idle;
mod consecutive;
mod lent;
mod lists;
mod nearest;
mod one_user;
mod outcomes;
mod play;
mod records;
mod sheets;
mod snapshots;
mod starts;
mod stretch;
mod windows;
mod words;

#[path = "../../reference/tests/common/mod.rs"]
mod common;

use std::ops::RangeInclusive;
use std::process::ExitCode;
use std::time::{Duration, Instant};

use common::random::Random;
use common::tables::shaped;
use counts::Counts;
use one_user::played;
use reference::table::Sizes;

const ROUNDS: u64 = 24;
/// Slots of the tables of a round.
const SMALL: RangeInclusive<u32> = 2..=12;
const LARGE: u32 = 1024;
/// Lanes of the ten plays of a size, from any of them on, going round; where it allows fewer, the numbers begin again.
const LANES: [u32; 10] = [1, 2, 1, 3, 1, 2, 1, 4, 2, 1];

struct Options {
    seed: u64,
    seconds: Option<u64>,
}

fn main() -> ExitCode {
    let Some(Options { seed, seconds }) = options() else {
        eprintln!("usage: differential [--seed N] [--seconds N]");
        return ExitCode::from(2);
    };
    let begun = Instant::now();
    let mut counts = Counts::new();
    let mut rounds = 0;
    loop {
        round(&mut Random::new(seed.wrapping_add(rounds)), &mut counts);
        rounds += 1;
        let enough = match seconds {
            Some(seconds) => begun.elapsed() >= Duration::from_secs(seconds),
            None => rounds >= ROUNDS,
        };
        if enough {
            break;
        }
    }
    let faults = counts.report();
    for fault in &faults {
        println!("NOT AS LISTED: {fault}");
    }
    let time = begun.elapsed().as_secs();
    println!(
        "{rounds} rounds from seed {seed}, {time} s: no difference; {} outcomes not as listed",
        faults.len()
    );
    ExitCode::from(u8::from(!faults.is_empty()))
}

fn options() -> Option<Options> {
    let mut options = Options {
        seed: 1,
        seconds: None,
    };
    let mut words = std::env::args().skip(1);
    while let Some(word) = words.next() {
        let number = words.next()?.parse().ok()?;
        match word.as_str() {
            "--seed" => options.seed = number,
            "--seconds" => options.seconds = Some(number),
            _ => return None,
        }
    }
    Some(options)
}

/// Small tables of every size with every number of lanes that it allows, few and many tasks; a few slots for each of
/// several lanes; a large one, and tables from anywhere; lanes of any length on the shift sheet; and tag lists, airline
/// lists and windows.
fn round(random: &mut Random, counts: &mut Counts) {
    for nodes in SMALL {
        let first = random.below(LANES.len() as u32) as usize;
        let lanes = LANES.iter().cycle().skip(first);
        let many = 9 + random.below(8);
        for (tasks, lanes) in [1, 2, 3, 3, 4, 4, 5, 6, 8, many].into_iter().zip(lanes) {
            let most = Sizes::MAX_LANES.min(nodes / 2);
            small(random, counts, nodes, tasks, 1 + (lanes - 1) % most);
        }
    }
    for lanes in [2, 3, 4, 2, 3, 4] {
        let (nodes, tasks) = (lanes * (3 + random.below(4)), 3 + random.below(8));
        small(random, counts, nodes, tasks, lanes);
    }
    let (tasks, growth) = (1 + random.below(16), random.below(65));
    let lanes = 1 + random.below(Sizes::MAX_LANES);
    let sizes = Sizes::new(LARGE, tasks, growth, lanes).expect("sizes in range");
    play::play(random, counts, sizes, 300);
    played::from_start(random, counts, sizes, 40);
    for _ in 0..40_000 {
        broken::shaped(random, counts);
        broken::damaged(random, counts);
    }
    for _ in 0..4_000 {
        digits::check(random, counts);
        dispatches::check(random, counts);
        snapshots::check(random, counts);
        let table = shaped(random);
        words::check(random, counts, table);
    }
    sheets::check(random, counts);
    lists::check(random, &mut counts.lists);
    airlines::check(random, counts);
    windows::check(random, &mut counts.windows);
}

fn small(random: &mut Random, counts: &mut Counts, nodes: u32, tasks: u32, lanes: u32) {
    let any = random.below(65);
    let growth = random.pick(&[0, 0, 0, 1, 2, 3, any]);
    let sizes = Sizes::new(nodes, tasks, growth, lanes).expect("sizes in range");
    play::play(random, counts, sizes, 600);
    played::from_start(random, counts, sizes, 40);
}
