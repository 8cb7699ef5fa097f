//! Tag lists in packed decimal, read and written: bytes of the list a second.

use std::hint::black_box;

use reference::lists::{MAX_TAGS, TAG_BYTES, TAG_WORDS};

use crate::measure::{interleaved, nanoseconds, Figures};
use crate::programs::{Program, PROVED, RUST};

/// Tags of a list.
const COUNTS: [usize; 2] = [MAX_TAGS, 16];
/// Tags of all lists of one round.
const ROUND_TAGS: usize = 4 * MAX_TAGS;

/// Measures both calls on lists of every count.
pub fn rows(rounds: usize) {
    println!("Tag lists in packed decimal, megabytes of the list a second; ratio of the times.");
    println!(
        "{:38} {:>5} {:>9} {:>9} {:>6} {:>6}",
        "", "tags", "proved", "Rust", "ratio", "low10"
    );
    for count in COUNTS {
        let bytes = list(count);
        let words = read(&PROVED, &bytes);
        assert_eq!(words, read(&RUST, &bytes), "the programs differ in reading");
        for program in [&PROVED, &RUST] {
            assert_eq!(
                bytes,
                write(program, &words),
                "not the bytes that were read"
            );
        }
        show("reading", count, &reading(rounds, &bytes));
        show("writing", count, &writing(rounds, &words));
    }
}

fn show(name: &str, count: usize, figures: &Figures) {
    let megabytes = |nanoseconds: f64| (TAG_BYTES * count) as f64 * 1000.0 / nanoseconds;
    let (proved, rust) = (megabytes(figures.proved), megabytes(figures.rust));
    let (ratio, low_ratio) = (figures.ratio(), figures.low_ratio);
    println!("{name:38} {count:>5} {proved:>9.0} {rust:>9.0} {ratio:>6.2} {low_ratio:>6.2}");
}

/// A list of so many tags with all digits in every place.
fn list(count: usize) -> Vec<u8> {
    let tags = (1..=count as u64).map(|number| number * 7_182_818_283 % 9_999_999_967);
    let digits: String = tags.map(|tag| format!("{tag:010}")).collect();
    let pairs = digits.as_bytes().chunks_exact(2);
    pairs
        .map(|pair| (pair[0] - b'0') << 4 | (pair[1] - b'0'))
        .collect()
}

fn read(program: &Program, bytes: &[u8]) -> Vec<u32> {
    let count = bytes.len() / TAG_BYTES;
    let mut words = vec![0; TAG_WORDS * count];
    assert_eq!((program.read_tags)(bytes, &mut words), count as u64);
    words
}

fn write(program: &Program, words: &[u32]) -> Vec<u8> {
    let count = words.len() / TAG_WORDS;
    let mut bytes = vec![0; TAG_BYTES * count];
    assert_eq!((program.write_tags)(words, &mut bytes), count as u64);
    bytes
}

/// Nanoseconds of a list read.
fn reading(rounds: usize, bytes: &[u8]) -> Figures {
    let count = bytes.len() / TAG_BYTES;
    let work = |program: &'static Program| {
        let mut words = vec![0; TAG_WORDS * count];
        repeated(count, move || {
            black_box((program.read_tags)(black_box(bytes), &mut words));
        })
    };
    interleaved(rounds, work(&PROVED), work(&RUST))
}

/// Nanoseconds of a list written.
fn writing(rounds: usize, words: &[u32]) -> Figures {
    let count = words.len() / TAG_WORDS;
    let work = |program: &'static Program| {
        let mut bytes = vec![0; TAG_BYTES * count];
        repeated(count, move || {
            black_box((program.write_tags)(black_box(words), &mut bytes));
        })
    };
    interleaved(rounds, work(&PROVED), work(&RUST))
}

/// The nanoseconds of one call on a list of so many tags, made as often as a round's tags allow.
fn repeated(count: usize, mut call: impl FnMut()) -> impl FnMut() -> f64 {
    let times = ROUND_TAGS / count;
    move || nanoseconds(|| (0..times).for_each(|_| call())) / times as f64
}
