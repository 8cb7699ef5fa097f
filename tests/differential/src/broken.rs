//! Tables that no start reaches: well-shaped ones, damaged ones and any words, with any numbers.

use reference::table::{content, header, is_tag, node, record, Content, Sizes, MAX_LOW, PUSH};

use crate::airlines;
use crate::both::Both;
use crate::common::random::Random;
use crate::common::records;
use crate::common::row::Note;
use crate::common::tables::{shaped_of, sizes};
use crate::counts::{Counts, Origin};
use crate::dispatches;
use crate::consecutive;
use crate::sheets;
use crate::snapshots;

/// Calls on a well-shaped table.
pub fn shaped(random: &mut Random, counts: &mut Counts) {
    let mut both = Both::over(&shaped_table(random));
    calls(random, counts, &mut both);
    counts.add(&both.given);
}

/// A few calls on a table that is well-shaped and stays so: never 3 or 4.
pub fn calls(random: &mut Random, counts: &mut Counts, both: &mut Both) {
    let sizes = sizes(both.table());
    let mut taken = None;
    for _ in 0..random.below(12) {
        let task = random.below(sizes.tasks + 1);
        let lane = match random.below(8) {
            0 => sizes.lanes + random.below(2),
            _ => random.below(sizes.lanes),
        };
        let hint = random.below(sizes.nodes + 1);
        match random.below(32) {
            0..=2 => {
                let length = random.below(2 * sizes.nodes + 2) as usize;
                let reading = both.read(lane, length, 0);
                assert!(!matches!(reading, Err(3 | 4)), "a tick broke the shape");
            }
            3..=5 => ticks(random, both),
            6..=8 => {
                let call = Note {
                    lane,
                    operation: random.below(6),
                    side: random.below(3),
                    digit: random.digit(),
                    argument: random.word(),
                };
                let _ = both.begin(task, call);
            }
            9..=11 => {
                let [argument, digit] = some_tag(random, both.table(), sizes);
                let push = Note {
                    lane,
                    operation: PUSH,
                    side: random.below(2),
                    digit,
                    argument,
                };
                let given = both.begin(task, push);
                if !matches!(given, Err(5 | 7 | 26)) {
                    let before = both.before();
                    let begins = &mut counts.begins;
                    begins.saw(Origin::Anywhere, before, task, push, given);
                }
            }
            12..=14 => {
                let _ = dispatches::dispatch(counts, Origin::Anywhere, both, hint);
            }
            15 => consecutive::ticks(random, counts, both, task, hint),
            16 => consecutive::dispatches(random, counts, both, hint),
            17 => match &taken {
                None => taken = Some(snapshots::take(random, both)),
                Some(snapshot) => assert_eq!(both.put(snapshot), Ok(())),
            },
            18 | 19 => {
                let [low, digit] = some_tag(random, both.table(), sizes);
                let words = [[digit, low], [random.digit(), random.word()]];
                let (list, words) = (airlines::any_list(random), random.pick(&words));
                let given = both.push_by_list(&list, task, lane, words);
                assert!(!matches!(given, Err((3 | 4, _))), "the shape is broken");
            }
            20 => sheets::any(random, counts, both, lane),
            21 | 22 => lend(random, both, task, lane),
            _ => {
                let given = both.tick(task, hint);
                if matches!(given, Ok(_) | Err(11)) {
                    counts.tick(Origin::Anywhere, both.before(), both.table(), task, given);
                }
            }
        }
    }
}

/// A begin over any record, of any numbers or of a push; if it is accepted, it may be copied.
fn lend(random: &mut Random, both: &mut Both, task: u32, lane: u32) {
    let own = records::any(random, both.table(), task);
    let [argument, digit] = some_tag(random, both.table(), sizes(both.table()));
    let mut call = Note {
        lane,
        operation: PUSH,
        side: random.below(2),
        digit,
        argument,
    };
    if random.once_in(3) {
        call = Note {
            operation: random.below(6),
            side: random.below(3),
            digit: random.digit(),
            argument: random.word(),
            ..call
        };
    }
    let (given, own) = both.begin_record(&own, task, call);
    if given.is_ok() && random.once_in(2) {
        both.copy(task, &own);
    }
}

/// What some slot has, or one of the few tags of such tables: they, and others, differ in the digit alone.
fn some_tag(random: &mut Random, table: &[u32], sizes: Sizes) -> Content {
    let standing = content(table, sizes.node(random.below(sizes.nodes)) + node::VALUE);
    let known = [0, 1, 2, MAX_LOW].map(|low| [low, random.pick(&[0, 1, 9])]);
    match random.below(4) {
        0 => standing,
        _ => random.pick(&known),
    }
}

/// Each call on words that were a table, or never were.
pub fn damaged(random: &mut Random, counts: &mut Counts) {
    let words = damaged_words(random);
    let mut both = Both::over(&words);
    for _ in 0..random.below(6) {
        let [one, two, three, four] = [(); 4].map(|()| random.word());
        let lane = random.pick(&[0, 0, 0, 1, 2, 3, 4, 5, one]);
        let call = Note {
            lane,
            operation: two % 8,
            side: three % 4,
            digit: random.digit(),
            argument: four,
        };
        match random.below(27) {
            0 | 1 => {
                let _ = both.start([one, two, three, lane]);
            }
            2 | 3 => {
                let (slots, tasks) = (words.first().copied(), words.get(1).copied());
                let _ = both.start([slots.unwrap_or(2), tasks.unwrap_or(1), three, lane]);
            }
            4..=7 => {
                let _ = both.begin(one % 20, call);
            }
            8 | 9 => {
                let _ = both.read(lane, random.below(50) as usize, four);
            }
            10 | 11 => ticks(random, &mut both),
            12 | 13 => {
                let _ = both.dispatch(two);
            }
            14 => consecutive::ticks(random, counts, &mut both, one % 20, two),
            15 => consecutive::dispatches(random, counts, &mut both, two),
            16 | 17 => {
                let length = words.len() + random.pick(&[0, 0, 0, 1]);
                let _ = both.take(length, four);
            }
            18 | 19 => {
                let _ = both.put(&words[random.pick(&[0, 0, 0, 1]).min(words.len())..]);
            }
            20 | 21 => {
                let (list, words) = (airlines::any_list(random), [call.digit, four]);
                let _ = both.push_by_list(&list, one % 20, lane, words);
            }
            22 => sheets::any(random, counts, &mut both, lane),
            23 => {
                let own = match records::place(both.table(), one % 20) {
                    Some(_) if random.once_in(2) => records::words(both.table(), one % 20),
                    _ => [(); record::WORDS].map(|()| random.pick(&[0, 0, 65_535, two])),
                };
                let _ = both.begin_record(&own, one % 20, call);
            }
            _ => {
                let _ = both.tick(one % 20, two);
            }
        }
    }
    counts.add(&both.given);
}

/// A run of any numbers over slices of any length, or the same from the panel.
fn ticks(random: &mut Random, both: &mut Both) {
    let length = match random.below(40) {
        0 => 8190 + random.below(5),
        1..=3 => 62 + random.below(6),
        _ => random.below(30),
    };
    let list: Vec<u32> = (0..length)
        .map(|_| {
            if random.once_in(30) {
                random.word()
            } else {
                random.below(3)
            }
        })
        .collect();
    let exact = 3 * (length / 2);
    let answers = match random.below(4) {
        0 => random.below(exact + 1),
        1 => exact.saturating_sub(1),
        _ => exact,
    };
    let content = random.word();
    if random.once_in(2) {
        both.panel(&list, answers as usize, content);
    } else {
        both.run(&list, answers as usize, content);
    }
}

fn any_sizes(random: &mut Random) -> Sizes {
    let nodes = match random.below(300) {
        0 => 1024,
        1 => 2 + random.below(1023),
        _ => 2 + random.below(11),
    };
    let [most, limit] = [[2, 4, 16], [1, 3, 65]].map(|bounds| random.pick(&bounds));
    let (tasks, growth) = (1 + random.below(most), random.below(limit));
    let lanes = 1 + random.below(Sizes::MAX_LANES.min(nodes / 2));
    Sizes::new(nodes, tasks, growth, lanes).expect("sizes in range")
}

/// Of any sizes, mostly few slots.
pub fn shaped_table(random: &mut Random) -> Vec<u32> {
    let sizes = any_sizes(random);
    let mut table = shaped_of(random, sizes);
    // A lane without an end is rare by chance.
    if random.once_in(20) {
        for number in 0..sizes.nodes {
            let at = sizes.node(number) + node::VALUE;
            if !is_tag(content(&table, at)) {
                table[at..at + 2].copy_from_slice(&[random.below(3), 1 + random.below(9)]);
            }
        }
    }
    table
}

fn damaged_words(random: &mut Random) -> Vec<u32> {
    if random.once_in(20) {
        return (0..random.below(80)).map(|_| random.word()).collect();
    }
    let mut words = shaped_table(random);
    match random.below(8) {
        0 => words.truncate(random.below(words.len() as u32 + 1) as usize),
        1 => words.extend((0..1 + random.below(12)).map(|_| random.word())),
        2 => words[random.below(header::WORDS as u32) as usize] = random.word(),
        3 => {
            // One word of one record, where most rules of the shape are.
            let sizes = sizes(&words);
            let at = sizes.record(random.below(sizes.tasks));
            words[at + random.below(record::WORDS as u32) as usize] = random.word();
        }
        4 => {}
        _ => {
            for _ in 0..1 + random.below(2) {
                let place = random.below(words.len() as u32) as usize;
                words[place] = match random.below(3) {
                    0 => words[place].wrapping_add(1),
                    1 => words[place].wrapping_sub(1),
                    _ => random.word(),
                };
            }
        }
    }
    words
}
