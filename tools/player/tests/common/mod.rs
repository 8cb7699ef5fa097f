//! Random lines with tasks that get into each other's way, and the proved program.

use std::io::Write;
use std::path::PathBuf;
use std::process::{Command, Stdio};

#[allow(dead_code)]
/// What the proved program prints for an input. `make program` makes it.
pub fn program(input: &[u8]) -> String {
    let file = PathBuf::from(env!("CARGO_MANIFEST_DIR")).join("../../crates/lane/out/lane");
    let mut child = Command::new(&file)
        .stdin(Stdio::piped())
        .stdout(Stdio::piped())
        .spawn()
        .unwrap_or_else(|error| panic!("{}: {error}", file.display()));
    let mut stdin = child.stdin.take().expect("a pipe");
    let input = input.to_vec();
    // On its own thread: the program answers while it reads.
    let writing = std::thread::spawn(move || stdin.write_all(&input));
    let output = child.wait_with_output().expect("the program ends");
    writing.join().expect("written").expect("written");
    String::from_utf8(output.stdout).expect("text")
}

/// Numbers from a seed (xorshift).
pub struct Random(u64);

impl Random {
    pub fn new(seed: u64) -> Random {
        Random(seed.wrapping_mul(0x9e37_79b9_7f4a_7c15) | 1)
    }

    pub fn below(&mut self, limit: u32) -> u32 {
        self.0 ^= self.0 << 13;
        self.0 ^= self.0 >> 7;
        self.0 ^= self.0 << 17;
        (self.0 >> 33) as u32 % limit
    }

    pub fn pick<T: Copy>(&mut self, from: &[T]) -> T {
        from[self.below(from.len() as u32) as usize]
    }
}

/// A run of so many lines or more: a start, then begins and ticks of any task, most of them single ticks; some of the
/// lines are refused, and some cannot be read.
pub fn lines(random: &mut Random, count: u32) -> String {
    let (slots, tasks) = (2 + random.below(10), 1 + random.below(4));
    let growth = random.pick(&[0, 0, 1, 3]);
    let sides = random.pick(&[["left", "left"], ["right", "right"], ["left", "right"]]);
    let mut text = format!("(start (slots {slots}) (tasks {tasks}) (growth {growth}))\n");
    for number in 0..count {
        let too_far = u32::from(random.below(40) == 0);
        let (task, hint) = (random.below(tasks + too_far), random.below(slots + too_far));
        let side = random.pick(&sides);
        text += &match random.below(30) {
            0 => "(lane)".to_owned(),
            1 => random
                .pick(&[
                    "",
                    "(lane) ",
                    "(tick 0 0 0)",
                    "(tick 0 0 1001)",
                    "(begin 0 (push up 0000000001))",
                    "(lane 0)",
                    "\"\\</script>\u{7f}é",
                ])
                .to_owned(),
            2 if random.below(20) == 0 => format!(
                "(start (slots {}) (tasks {tasks}) (growth {growth}))",
                random.below(14)
            ),
            // As in case 5 of the paper: a push stands at its swap while another task takes away the slot behind.
            3 if tasks > 1 => {
                let tag = 1 + number;
                format!(
                    "(tick 0 0 1000)\n(tick 1 0 1000)\n(begin 1 (add {side} 2))\n(tick 1 0 1000)\n\
                     (begin 0 (push {side} {tag:010}))\n(tick 0 {hint} 2)\n(begin 1 (remove {side} 0))\n\
                     (tick 1 0 1000)\n(begin 1 (add {side} 0))\n(tick 1 {hint} 1000)"
                )
            }
            4..=9 => {
                let tag = 1 + number + 1_000_000_000 * random.below(3);
                match random.below(10) {
                    0..=2 => format!("(begin {task} (push {side} {tag:010}))"),
                    3..=4 => format!("(begin {task} (pop {side} 0))"),
                    5..=6 => format!("(begin {task} (add {side} {}))", random.below(4)),
                    _ => format!("(begin {task} (remove {side} {}))", random.below(3)),
                }
            }
            _ => {
                let times = random.pick(&[1, 1, 2, 4, 60]);
                format!("(tick {task} {hint} {times})")
            }
        };
        text.push('\n');
    }
    text
}
