//! Windows of lost swaps, fed: nanoseconds a feed, and the bytes of the places read in a nanosecond.

use std::hint::black_box;

use reference::window::WORDS;

use crate::measure::{interleaved, nanoseconds, plain_sum, Figures};
use crate::programs::{Program, PROVED, RUST};

/// Widths, each with the places fed before.
const WINDOWS: [(u32, u32); 4] = [(1, 1), (64, 64), (4096, 4096), (4096, 1024)];
/// Feeds of one round: enough that the words are in the nearest cache, where they were not after they were copied.
const FEEDS: usize = 64;

/// Measures feeds of every window.
pub fn rows(rounds: usize) {
    println!("Windows of lost swaps, nanoseconds a feed; then the bytes of the places read in a");
    println!("nanosecond, beside a plain sum of the same words, which is the limit.");
    println!(
        "{:38} {:>5} {:>9} {:>9} {:>6} {:>6} {:>14} {:>7}",
        "", "W", "proved", "Rust", "ratio", "low10", "bytes a ns", "sum"
    );
    for (width, fed) in WINDOWS {
        let name = if fed == width {
            "feed, all places fed"
        } else {
            "feed, a quarter of them fed"
        };
        let words = prepared(width, fed);
        let figures = feeding(rounds, &words);
        let bytes = f64::from(4 * width);
        let rates = [figures.proved, figures.rust].map(|time| bytes / time);
        let rates = format!("{:.1} ({:.1})", rates[0], rates[1]);
        let sum = bytes / plain_sum(rounds, &words[WORDS..], FEEDS);
        let (ratio, low_ratio) = (figures.ratio(), figures.low_ratio);
        let Figures { proved, rust, .. } = figures;
        println!(
            "{name:38} {width:>5} {proved:>9.2} {rust:>9.2} {ratio:>6.2} {low_ratio:>6.2} {rates:>14} {sum:>7.1}"
        );
    }
}

/// A window that so many ticks were fed to, each third of them lost.
fn prepared(width: u32, fed: u32) -> Vec<u32> {
    let mut windows = [&PROVED, &RUST].map(|program| {
        let mut words = vec![0; width as usize + WORDS];
        assert_eq!((program.window)(&mut words, width), 0, "a fresh window");
        for count in 1..=fed {
            (program.feed)(&mut words, count, 5, after(count));
        }
        words
    });
    assert_eq!(windows[0], windows[1], "the programs differ in a window");
    std::mem::take(&mut windows[0])
}

/// The step after 5 of the tick with this count.
fn after(count: u32) -> u32 {
    if count.is_multiple_of(3) {
        8
    } else {
        0
    }
}

/// Consecutive feeds, from a window that is copied afresh outside the time.
fn feeding(rounds: usize, words: &[u32]) -> Figures {
    let first = words[3] + 1;
    let feed = move |program: &Program, window: &mut [u32]| {
        (first..).take(FEEDS).fold(0, |_, count| {
            (program.feed)(window, count, black_box(5), after(count))
        })
    };
    let mut windows = [words.to_vec(), words.to_vec()];
    let proved = feed(&PROVED, &mut windows[0]);
    assert_eq!(
        proved,
        feed(&RUST, &mut windows[1]),
        "the programs differ in an answer"
    );
    assert_eq!(windows[0], windows[1], "the programs differ in a window");
    let work = |program: &'static Program| {
        let mut window = words.to_vec();
        move || {
            window.copy_from_slice(words);
            nanoseconds(|| {
                black_box(feed(program, black_box(&mut window)));
            }) / FEEDS as f64
        }
    };
    interleaved(rounds, work(&PROVED), work(&RUST))
}
