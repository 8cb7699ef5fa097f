//! The proved lane program against the second program in Rust, byte for byte, over standard input and output.
//!
//! `program [--seed N] [--seconds N] [--program FILE]`: what is tried once, then rounds with the seeds N, N + 1 and so
//! on, for so many seconds, or eight if they do not take too long. A round is made from its seed alone. It ends with
//! status 1 at the first difference, and if an outcome that lines can reach was never seen.

#![forbid(unsafe_code)]

mod child;
mod counts;
mod cuts;
mod damage;
mod lengths;
mod limits;
mod session;
mod talk;
mod trials;

#[path = "../../reference/tests/common/mod.rs"]
mod common;

use std::path::PathBuf;
use std::process::ExitCode;
use std::time::{Duration, Instant};

use common::random::Random;
use session::Session;
use trials::{Trials, Verdict};

/// Without a number of seconds: the most rounds, and the time after which none is begun.
const ROUNDS: u64 = 8;
const SECONDS: u64 = 20;

struct Options {
    seed: u64,
    seconds: Option<u64>,
    program: PathBuf,
}

fn main() -> ExitCode {
    let Some(options) = options() else {
        eprintln!("usage: program [--seed N] [--seconds N] [--program FILE]");
        return ExitCode::from(2);
    };
    if !options.program.is_file() {
        let program = options.program.display();
        eprintln!("{program} is missing; `make program` makes crates/lane/out/lane");
        return ExitCode::from(2);
    }
    if child::bytes_read(std::process::id()).is_none() {
        eprintln!("/proc/self/io is needed: it tells which pieces of its input a program has read");
        return ExitCode::from(2);
    }
    let begun = Instant::now();
    let mut trials = Trials::new(options.program.clone());
    let tried = all(&options, begun, &mut trials);
    trials.report();
    let rounds = match tried {
        Ok(rounds) => rounds,
        Err(fault) => {
            println!("NOT THE SAME, by the seed printed last: {fault}");
            return ExitCode::FAILURE;
        }
    };
    let faults = trials.counts.report();
    for fault in &faults {
        println!("NOT AS LISTED: {fault}");
    }
    let (time, seed) = (begun.elapsed().as_secs(), options.seed);
    println!(
        "{} lines, {rounds} rounds from seed {seed}, {time} s: no difference; {} outcomes not as listed",
        trials.counts.lines(),
        faults.len()
    );
    ExitCode::from(u8::from(!faults.is_empty()))
}

fn options() -> Option<Options> {
    let mut options = Options {
        seed: 1,
        seconds: None,
        program: PathBuf::from("crates/lane/out/lane"),
    };
    let mut words = std::env::args().skip(1);
    while let Some(word) = words.next() {
        let value = words.next()?;
        match word.as_str() {
            "--seed" => options.seed = value.parse().ok()?,
            "--seconds" => options.seconds = Some(value.parse().ok()?),
            "--program" => options.program = PathBuf::from(value),
            _ => return None,
        }
    }
    Some(options)
}

/// Gives the rounds made, or the first fault.
fn all(options: &Options, begun: Instant, trials: &mut Trials) -> Result<u64, String> {
    once(&mut Random::new(options.seed), trials)?;
    let mut rounds = 0;
    loop {
        round(&mut Random::new(options.seed.wrapping_add(rounds)), trials)?;
        rounds += 1;
        let seconds = Duration::from_secs(options.seconds.unwrap_or(SECONDS));
        if begun.elapsed() >= seconds || (options.seconds.is_none() && rounds >= ROUNDS) {
            return Ok(rounds);
        }
    }
}

/// What need not be tried twice.
fn once(random: &mut Random, trials: &mut Trials) -> Verdict {
    lengths::ends(trials)?;
    lengths::long_lines(trials)?;
    lengths::a_million_lines(random, trials)?;
    cuts::at_every_place(trials)?;
    cuts::at_ends_of_buffers(trials)?;
    cuts::in_sizes(random, trials)?;
    talk::line_by_line(random, trials)?;
    limits::little_memory(trials)?;
    limits::no_output(trials)?;
    limits::no_input(trials)
}

/// Sessions, whole, damaged and cut anywhere; bytes from anywhere; a full lane.
fn round(random: &mut Random, trials: &mut Trials) -> Verdict {
    for _ in 0..4 {
        let session = Session::random(random, 3000).input;
        trials.piped("sessions of well-formed lines", &session)?;
        let damaged = damage::damaged(random, &session, 2);
        trials.piped("sessions with half their lines damaged", &damaged)?;
        let damaged = damage::damaged(random, &session, 30);
        cuts::anywhere(random, trials, &damaged)?;
    }
    for length in [100, 70_000, 300_000] {
        let noise = damage::noise(random, length);
        trials.piped("bytes from anywhere", &noise)?;
    }
    trials.piped("a full lane", &session::full_lane(random))
}
