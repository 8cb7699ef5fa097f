//! The two line programs as whole processes, from a file to nowhere.

use std::fs::{self, File};
use std::path::Path;
use std::process::{Command, Stdio};

use crate::measure::{interleaved, nanoseconds, Figures};

/// The proved program, made by `make program`.
const PROVED: &str = "crates/lane/out/lane";
/// The second program in its fastest form, made by `bench/run`.
const RUST: &str = "bench/target/release/lane";

/// What is measured, S, the lines that prepare its table, the lines given again and again, and how many of these.
type Row = (
    &'static str,
    u32,
    fn(u32) -> String,
    fn(u32) -> String,
    usize,
);

const MILLION: usize = 1_000_000;
const SOME: usize = 200_000;
const ROWS: [Row; 7] = [
    ("(tick 0 0 1), walking", 16, spare, walk, MILLION),
    ("(tick 0 0 1), walking", 1024, spare, walk, SOME),
    ("(tick 0 0 1000), walking", 1024, spare, long_walk, 1000),
    ("(lane), empty", 16, start, lane, MILLION),
    ("(lane), empty", 1024, start, lane, SOME),
    ("(lane), 1,000 bags", 1024, thousand, lane, 10_000),
    ("(tick 0 0 1001), unread", 16, start, unread, MILLION),
];

/// Measures both programs, each with one in so many of a row's lines; says so if there is no proved program.
pub fn rows(rounds: usize, one_in: usize) {
    println!("The lane program, T 1: whole processes, a file of lines read, answers to /dev/null.");
    if !Path::new(PROVED).is_file() {
        println!("Not measured: {PROVED} is missing; `make program` makes it.");
        return;
    }
    println!("Both gave the same bytes first. Medians of {rounds} rounds in turn.");
    println!(
        "{:26} {:>5} {:>8} {:>9} {:>9} {:>6} {:>6}",
        "nanoseconds a line", "S", "lines", "proved", "Rust", "ratio", "low10"
    );
    let path = std::env::temp_dir().join(format!("lane-bench-{}", std::process::id()));
    for (name, nodes, before, lines, count) in ROWS {
        let count = count / one_in;
        let again = lines(nodes);
        let again = again.split_inclusive('\n').cycle().take(count);
        let input = before(nodes) + &again.collect::<String>();
        fs::write(&path, input).expect("a file of lines");
        let figures = measured(rounds, count, &path);
        let Figures {
            proved,
            rust,
            low_ratio,
        } = figures;
        let ratio = figures.ratio();
        println!(
            "{name:26} {nodes:>5} {count:>8} {proved:>9.1} {rust:>9.1} {ratio:>6.2} {low_ratio:>6.2}"
        );
    }
    fs::remove_file(path).expect("the file of lines");
}

/// Nanoseconds a line; the start of the process and the preparing lines are in them.
fn measured(rounds: usize, count: usize, path: &Path) -> Figures {
    let command = |program: &str| {
        let mut command = Command::new(program);
        command.stdin(File::open(path).expect("the file of lines"));
        command
    };
    let [proved, rust] =
        [PROVED, RUST].map(|program| command(program).output().expect("a program"));
    assert!(proved.stdout == rust.stdout, "the programs differ");
    let work = |program| {
        move || {
            let mut command = command(program);
            let command = command.stdout(Stdio::null());
            nanoseconds(|| assert!(command.status().expect("a program").success())) / count as f64
        }
    };
    interleaved(rounds, work(PROVED), work(RUST))
}

fn start(nodes: u32) -> String {
    format!("(start (slots {nodes}) (tasks 1) (growth 0))\n")
}

/// All nodes added at the right.
fn spare(nodes: u32) -> String {
    let add = "(begin 0 (add right 64))\n(tick 0 0 1000)\n";
    start(nodes) + &add.repeat(nodes as usize / 65 + 1)
}

/// A lane of 1,000 bags.
fn thousand(nodes: u32) -> String {
    let push = |tag: u64| format!("(begin 0 (push right {tag}))\n(tick 0 0 1000)\n");
    let tags = 9_999_999_000..=9_999_999_999;
    start(nodes) + &tags.map(push).collect::<String>()
}

fn walk(nodes: u32) -> String {
    walk_by(nodes, 1)
}

fn long_walk(nodes: u32) -> String {
    walk_by(nodes, 1000)
}

/// A remove that walks along all spare nodes, cuts none off and leaves the table as it was.
fn walk_by(nodes: u32, times: u32) -> String {
    let ticks = 2 * (nodes - 2) + 2;
    let tick = format!("(tick 0 0 {times})\n");
    String::from("(begin 0 (remove right 1023))\n") + &tick.repeat(ticks.div_ceil(times) as usize)
}

fn lane(_: u32) -> String {
    String::from("(lane)\n")
}

fn unread(_: u32) -> String {
    String::from("(tick 0 0 1001)\n")
}
