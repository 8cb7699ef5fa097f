//! Inputs of every length: none at all, lines without end, a million lines.

use crate::common::random::Random;
use crate::trials::{Trials, Verdict};

const START: &str = "(start (slots 6) (tasks 2) (growth 1))\n";

/// Where an input ends, and where a line does.
pub fn ends(trials: &mut Trials) -> Verdict {
    let line_feeds = "\n".repeat(200_000);
    for input in [
        "",
        "\n",
        "\n\n",
        "\r\n",
        "\0",
        " ",
        "(lane)",
        "(lane)\n",
        "(lane)\n\n",
        "(lane)\n(lane",
        "(lane)\r\n(lane)\r",
        "\n(lane)",
        "(tick 0 0 1000",
        "(start (slots 2) (tasks 1) (growth 0))",
        &line_feeds,
        &line_feeds[1..65_537],
    ] {
        trials.piped("ends of input and of lines", input.as_bytes())?;
        trials.by_file("ends of input and of lines", input.as_bytes())?;
    }
    Ok(())
}

/// Lines about as long as the buffers that a program may have, and much longer, each form's place in them tried.
pub fn long_lines(trials: &mut Trials) -> Verdict {
    for length in [4095, 4096, 65_535, 65_536, 65_537, 131_072, 1_000_001] {
        let mut input = START.as_bytes().to_vec();
        for [before, fill, after] in [
            ["(begin ", "0", " (push right 0000000051))"],
            ["(begin ", "0", "1 (push left 4294967347))"],
            ["(begin 1 (push left ", "0", "51))"],
            ["(begin 1 (pop left ", "0", "))"],
            ["(tick ", "0", " 0 3)"],
            ["(tick 0 ", "0", "5 1000)"],
            ["(tick 1 0 ", "0", "1000)"],
            ["(tick 1 0 ", "0", "1001)"],
            ["(tick ", "9", " 0 1)"],
            ["(tick ", "42949672960", " 0 1)"],
            ["(lane)", " ", ""],
            ["(lane)", "0", ""],
            ["(lane)", "\0", ""],
            ["", " ", "(lane)"],
            ["", "0", "(lane)"],
            ["", "\0", "(lane)"],
            ["", "\r", "(lane)"],
            ["", "(", ""],
            ["", "7", ""],
            ["", "\u{e9}", ""],
            ["", "(lane)", ""],
            ["", "(tick 0 0 1) ", "(lane)"],
            ["(start (slots ", "0", "1025) (tasks 1) (growth 0))"],
            ["(start (slots 7) (tasks 1) (growth ", "0", "64))"],
        ] {
            let times = (length - before.len() - after.len()) / fill.len();
            let line = [before, &fill.repeat(times), after, "\n(lane)\n"].concat();
            input.extend(line.as_bytes());
        }
        trials.piped("long lines", &input)?;
        input.truncate(input.len() - "\n(lane)\n".len());
        trials.by_file("long lines", &input)?;
    }
    Ok(())
}

/// Short lines of all forms, a million of them.
pub fn a_million_lines(random: &mut Random, trials: &mut Trials) -> Verdict {
    let lines = [
        "(lane)\n",
        "(tick 0 0 1)\n",
        "(tick 1 5 2)\n",
        "(tick 0 3 1000)\n",
        "(begin 0 (push right 1234567890))\n",
        "(begin 1 (push left 0000000001))\n",
        "(begin 0 (push left 1000000001))\n",
        "(begin 1 (push right 9000000000))\n",
        "(begin 0 (push right 4444))\n",
        "(begin 1 (push left 00000000001))\n",
        "(begin 0 (pop left 0))\n",
        "(begin 1 (pop right 0))\n",
        "(begin 1 (add right 2))\n",
        "(begin 0 (remove left 0))\n",
        "(tock)\n",
        "\n",
    ];
    let mut input = START.as_bytes().to_vec();
    for _ in 0..1_000_000 {
        input.extend(random.pick(&lines).as_bytes());
    }
    trials.by_file("a million lines", &input)
}
