//! Request 2026-11: windows made fresh, fed and damaged; which pairs of steps are lost, and that they are the ticks
//! whose compare did not match.

mod common;

use common::random::Random;
use common::tables::{shaped, sizes};
use reference::table::{content, header, mark, mirror, node, record, Sizes, LEFT, RIGHT, RN, RX};
use reference::window::{feed, is_lost, window, MAX_WIDTH, WORDS};
use reference::{dispatch, tick};

/// What the words hold before a call.
const KEPT: u32 = 0xa5a5_a5a5;

fn fresh(width: u32) -> Vec<u32> {
    let mut words = vec![KEPT; width as usize + WORDS];
    assert_eq!(window(&mut words, width), 0);
    words
}

/// Steps of a tick that loses its swap, and of one that does not.
fn steps(lost: bool) -> (u32, u32) {
    if lost {
        (5, 8)
    } else {
        (5, 0)
    }
}

fn fed(words: &mut [u32], count: u32, lost: bool) -> (u32, u32) {
    let (before, after) = steps(lost);
    feed(words, count, before, after)
}

/// The words refuse the count with this number and stay as they are.
fn refused(words: &[u32], count: u32, number: u32) {
    for lost in [false, true] {
        let mut after = words.to_vec();
        assert_eq!(fed(&mut after, count, lost), (number, 0), "{words:?}");
        assert_eq!(after, words);
    }
}

#[test]
fn a_fresh_window_is_its_width_and_zeros() {
    for width in [1, 2, 3, 64, 4095, 4096] {
        let words = fresh(width);
        assert_eq!(words[0], width);
        assert!(words[1..].iter().all(|&word| word == 0));
        for length in [0, 1, 4, width as usize + 3, width as usize + 5] {
            if length != width as usize + WORDS {
                let mut words = vec![KEPT; length];
                assert_eq!(window(&mut words, width), 23);
                assert_eq!(words, vec![KEPT; length]);
            }
        }
    }
    for width in [0, MAX_WIDTH + 1, u32::MAX] {
        for length in [0, 4, 5, 4100, 4101] {
            let mut words = vec![KEPT; length];
            assert_eq!(window(&mut words, width), 23);
            assert_eq!(words, vec![KEPT; length]);
        }
    }
}

#[test]
fn five_pairs_of_steps_are_lost() {
    let named = [(5, 8), (25, 15), (48, 39), (51, 39), (62, 0)];
    for before in 0..=90 {
        for after in 0..=90 {
            let lost = named.contains(&(before, after));
            assert_eq!(is_lost(before, after), lost, "{before} to {after}");
            let given = feed(&mut fresh(1), 7, before, after);
            assert_eq!(given, (0, lost.into()), "{before} to {after}");
        }
    }
    for word in [91, 65_535, 65_541, u32::MAX] {
        assert!(!is_lost(5, word) && !is_lost(word, 8) && !is_lost(word, 0));
    }
}

/// Of every window, after every feed: the answer is the number among the last ticks, counted over a list of all.
#[test]
fn the_last_ticks_are_counted() {
    let mut random = Random::new(11);
    let odds = [1, 2, 5];
    let wide = [(4095, &odds[1..2]), (4096, &odds[1..2])];
    let all = [1, 2, 3, 7, 64].map(|width| (width, &odds[..]));
    for (width, odds) in all.into_iter().chain(wide) {
        for &odds in odds {
            let mut words = fresh(width);
            let mut all = Vec::new();
            let mut count = random.pick(&[0, 1, 7, u32::MAX - 1, u32::MAX, u32::MAX - width]);
            for _ in 0..3 * width + 5 {
                all.push(random.once_in(odds));
                let last = all.iter().rev().take(width as usize);
                let lost = last.filter(|&&lost| lost).count() as u32;
                assert_eq!(fed(&mut words, count, all[all.len() - 1]), (0, lost));
                let filled = all.len().min(width as usize) as u32;
                let next = all.len() as u32 % width;
                assert_eq!(words[..WORDS], [width, filled, next, count]);
                count = count.wrapping_add(1);
            }
        }
    }
}

#[test]
fn a_later_count_is_the_last_one_plus_1() {
    for first in [0, 1, 7, u32::MAX - 1, u32::MAX] {
        let mut words = fresh(2);
        assert_eq!(fed(&mut words, first, true), (0, 1));
        for off in [0, 2, 3, 1000, u32::MAX - 1, u32::MAX] {
            refused(&words, first.wrapping_add(off), 24);
        }
        assert_eq!(fed(&mut words, first.wrapping_add(1), false), (0, 1));
        refused(&words, first, 24);
        refused(&words, first.wrapping_add(1), 24);
        assert_eq!(fed(&mut words, first.wrapping_add(2), false), (0, 0));
    }
}

/// Every word of a window is put out of its range, and 23 comes before 24.
#[test]
fn damaged_words_are_no_window() {
    let mut random = Random::new(23);
    for width in [1, 2, 5, 4096] {
        for feeds in [0, 1, 2, width - 1, width, width + 1] {
            let mut words = fresh(width);
            for count in 0..feeds {
                fed(&mut words, count, random.once_in(2));
            }
            let (filled, count) = (feeds.min(width), feeds);
            let damage = |at: usize, word: u32| {
                let mut damaged = words.clone();
                damaged[at] = word;
                refused(&damaged, count, 23);
                refused(&damaged, count.wrapping_add(5), 23);
            };
            for word in [0, width - 1, width + 1, MAX_WIDTH + 1, u32::MAX] {
                if word != width {
                    damage(0, word);
                }
            }
            damage(1, width + 1);
            damage(1, u32::MAX);
            damage(2, width);
            damage(2, u32::MAX);
            if filled < width {
                for word in 0..width.min(9) {
                    if word != filled {
                        damage(2, word);
                    }
                }
            }
            if filled == 0 {
                damage(3, 1);
                damage(3, u32::MAX);
            }
            for place in [0, filled.saturating_sub(1), filled, width - 1] {
                if place < width {
                    damage(WORDS + place as usize, 2);
                    damage(WORDS + place as usize, 1 << 31);
                    if place >= filled {
                        damage(WORDS + place as usize, 1);
                    }
                }
            }
            for length in 0..words.len().min(7) {
                refused(&words[..length], count, 23);
            }
            refused(&words[..words.len() - 1], count, 23);
            refused(&[&words[..], &[0]].concat(), count, 23);
        }
    }
}

/// Whether the swap that a task is to make next finds other words than it compares with: by the sentences of 01 alone.
/// Nothing where the task is at no such line.
fn compare_fails(table: &[u32], task: u32) -> Option<bool> {
    let sizes: Sizes = sizes(table);
    let words = &table[sizes.record(task)..][..record::WORDS];
    let side = words[record::SIDE];
    let seen = |[value, digit]: [u32; 2]| match side {
        LEFT => [mirror(value), digit],
        _ => [value, digit],
    };
    let hat = table[header::hat(words[record::LANE], side)];
    let value = |register: usize| seen(content(table, sizes.node(words[register]) + node::VALUE));
    let outward = |register: usize| {
        let link = if side == RIGHT {
            node::RIGHT
        } else {
            node::LEFT
        };
        table[sizes.node(words[register]) + link]
    };
    let [a, b] = [record::A, record::B];
    let matches = match words[record::STEP] {
        5 => hat == words[a] && value(a) == mark(RN),
        25 => outward(a) == words[b] && value(a) == mark(RX),
        48 | 51 => hat == words[a] && value(b) == seen(content(words, record::VALUE)),
        62 => value(a) == mark(RN) && value(b) == mark(RN),
        _ => return None,
    };
    Some(!matches)
}

/// On tables of any words: a tick that is made is a lost pair exactly if it stood at one of the five lines and its
/// compare fails. A tick fed with the count of its table is never refused, a dispatch's neither.
#[test]
fn lost_is_a_compare_that_failed() {
    let mut random = Random::new(62);
    let (mut lost, mut done) = (0, 0);
    for _ in 0..50_000 {
        let mut table = shaped(&mut random);
        let sizes = sizes(&table);
        let mut words = fresh(3);
        for _ in 0..3 {
            let before = table.clone();
            let hint = random.below(sizes.nodes);
            let task = if random.once_in(3) {
                match dispatch(&mut table, hint) {
                    Ok(Some(_)) => table[header::DISPATCHED],
                    _ => continue,
                }
            } else {
                let task = random.below(sizes.tasks);
                if tick(&mut table, task, hint).is_err() {
                    continue;
                }
                task
            };
            let step = |table: &[u32]| table[sizes.record(task) + record::STEP];
            let fails = compare_fails(&before, task);
            let pair = (step(&before), step(&table));
            assert_eq!(is_lost(pair.0, pair.1), fails == Some(true), "{pair:?}");
            let (refusal, _) = feed(&mut words, table[header::TICKS], pair.0, pair.1);
            assert_eq!(refusal, 0);
            lost += u32::from(fails == Some(true));
            done += u32::from(fails == Some(false));
        }
    }
    println!("{lost} lost, {done} done");
    assert!(lost > 1000 && done > 1000);
}
