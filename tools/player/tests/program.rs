//! What the player prints is what the proved program prints.

mod common;

use common::{lines, program, Random};
use player::form::Lines;
use player::moment::{Event, MOST_MOMENTS};
use player::play::play;

const STORED: &str = include_str!("../../../examples/belt.lines");

#[test]
fn the_stored_run() {
    let expected = include_str!("../../../examples/belt.expected");
    assert_eq!(play(STORED.as_bytes(), Lines::Belt).printed, expected);
    assert_eq!(program(STORED.as_bytes()), expected);
}

#[test]
fn random_runs() {
    for seed in 1..=60 {
        let input = lines(&mut Random::new(seed), 400);
        assert_eq!(
            play(input.as_bytes(), Lines::Belt).printed,
            program(input.as_bytes()),
            "seed {seed}"
        );
    }
}

#[test]
fn ends_and_bytes_of_lines() {
    let long = "9".repeat(100_000);
    for input in [
        "".to_owned(),
        "\n".to_owned(),
        "\n\n(lane)".to_owned(),
        "(lane)\r\n".to_owned(),
        STORED.trim_end().to_owned(),
        format!("(tick 0 0 {long})\n({long}"),
        "(start (slots 4294967295) (tasks 4294967295) (growth 0))\n".to_owned(),
        "(start (slots 4294967296) (tasks 1) (growth 0))\n".to_owned(),
        "(start (slots 1024) (tasks 16) (growth 64))\n(start (slots 1025) (tasks 16) (growth 64))\n(lane)\n".to_owned(),
        "(start (slots 004) (tasks 01) (growth 0))\n(start (slots 4) (tasks 17) (growth 0))\n(lane)\n".to_owned(),
    ] {
        assert_eq!(play(input.as_bytes(), Lines::Belt).printed, program(input.as_bytes()));
    }
    let bytes = b"\xff\xfe(lane)\0\n(lane)";
    assert_eq!(play(bytes, Lines::Belt).printed, program(bytes));
}

/// A longer run is played to its end, and what the page leaves out is counted.
#[test]
fn what_is_cut_is_counted() {
    let mut input = "(start (slots 8) (tasks 1) (growth 0))\n".to_owned();
    input += &"(begin 0 (pop left 0))\n(tick 0 0 3)\n(tick 0 0 9)\n".repeat(2000);
    let played = play(input.as_bytes(), Lines::Belt);
    assert_eq!(played.printed, program(input.as_bytes()));
    let run = &played.run;
    assert_eq!(run.moments.len(), MOST_MOMENTS);
    let shown = run
        .moments
        .iter()
        .filter(|moment| matches!(moment.event, Event::Tick(_)))
        .count();
    assert_eq!(shown as u64 + run.cut.ticks, 4 * 2000);
    assert_eq!(run.lines.len() as u64 + run.cut.lines, 1 + 3 * 2000);
    assert_eq!(
        run.lines.len(),
        run.moments.last().expect("moments").line + 1
    );
}
