//! Words of the lanes put in a well-shaped table: their number, their hats, the lane of a task, the zeros of the header.
//! With some the shape holds, and both programs go on from there; with the others every call is turned back alike.

use reference::table::{header, node, record, Sizes, IDLE, LEFT, NONE, POP, RIGHT};

use crate::airlines;
use crate::both::Both;
use crate::broken;
use crate::common::random::Random;
use crate::common::row::Note;
use crate::common::tables::sizes;
use crate::counts::Counts;
use crate::snapshots;

/// Changes a table of these sizes; gives none where it has no place for it.
type Put = fn(&mut Random, &mut [u32], Sizes) -> Option<()>;

/// What is put, what every call then gives, 0 where the shape holds, and how it is put.
const PUT: [(&str, u32, Put); 22] = [
    ("no lane", 3, |_, table, _| set(table, header::LANES, 0)),
    ("over 4 lanes", 3, |random, table, _| {
        set(table, header::LANES, random.word().max(5))
    }),
    ("lanes over half of S", 3, |_, table, sizes| {
        let lanes = sizes.nodes / 2 + 1;
        (lanes <= Sizes::MAX_LANES).then(|| table[header::LANES] = lanes)
    }),
    ("a lane more, no hats", 4, |_, table, sizes| {
        let lane = one_more(sizes)?;
        set(table, header::LANES, lane + 1)
    }),
    (
        "a lane more, its hats on slots",
        0,
        |random, table, sizes| {
            let lane = one_more(sizes)?;
            let hats = [(); 2].map(|()| random.below(sizes.nodes));
            set_hats(table, lane, hats);
            set(table, header::LANES, lane + 1)
        },
    ),
    ("a lane less, its hats left", 4, |_, table, sizes| {
        let lane = one_less(sizes)?;
        set(table, header::LANES, lane)
    }),
    ("a lane less, a task in it", 4, |_, table, sizes| {
        let lane = one_less(sizes).filter(|&lane| is_in_call(table, sizes, lane))?;
        set_hats(table, lane, [NONE; 2]);
        set(table, header::LANES, lane)
    }),
    ("a lane less, no task in it", 0, |_, table, sizes| {
        let lane = one_less(sizes).filter(|&lane| !is_in_call(table, sizes, lane))?;
        set_hats(table, lane, [NONE; 2]);
        set(table, header::LANES, lane)
    }),
    ("no hat of a lane", 4, |random, table, sizes| {
        set(table, a_hat(random, sizes), NONE)
    }),
    ("a hat not below S", 4, |random, table, sizes| {
        let word = random.word().max(sizes.nodes);
        set(table, a_hat(random, sizes), word)
    }),
    ("a hat of no lane", 4, |random, table, sizes| {
        let unused = Sizes::MAX_LANES - sizes.lanes;
        let lane = sizes.lanes + (unused > 0).then(|| random.below(unused))?;
        let words = [random.below(sizes.nodes), random.word()];
        let word = random.pick(&words);
        (word != NONE).then(|| table[header::hat(lane, random.below(2))] = word)
    }),
    (
        "left hats of two lanes exchanged",
        0,
        |random, table, sizes| {
            let [one, two] = two_lanes(random, sizes)?;
            table.swap(header::hat(one, LEFT), header::hat(two, LEFT));
            Some(())
        },
    ),
    (
        "all hats of two lanes exchanged",
        0,
        |random, table, sizes| {
            let lanes = two_lanes(random, sizes)?;
            for [one, two] in [LEFT, RIGHT].map(|side| lanes.map(|lane| header::hat(lane, side))) {
                table.swap(one, two);
            }
            Some(())
        },
    ),
    (
        "a hat where another lane's is",
        0,
        |random, table, sizes| {
            let [one, two] = two_lanes(random, sizes)?;
            let [from, to] = [one, two].map(|lane| header::hat(lane, random.below(2)));
            set(table, to, table[from])
        },
    ),
    ("a lane that is not read", 0, |random, table, sizes| {
        let hat = table[header::hat(random.below(sizes.lanes), LEFT)];
        set(table, sizes.node(hat) + node::RIGHT, NONE)
    }),
    ("another lane of a busy task", 0, |random, table, sizes| {
        let at = a_record(random, table, sizes, true)?;
        let [one, two] = two_lanes(random, sizes)?;
        let lane = if table[at + record::LANE] == one {
            two
        } else {
            one
        };
        set(table, at + record::LANE, lane)
    }),
    (
        "lanes as the lane of a busy task",
        4,
        |random, table, sizes| {
            let at = a_record(random, table, sizes, true)?;
            set(table, at + record::LANE, sizes.lanes)
        },
    ),
    ("above lanes of a busy task", 4, |random, table, sizes| {
        let at = a_record(random, table, sizes, true)?;
        set(table, at + record::LANE, random.word().max(sizes.lanes + 1))
    }),
    (
        "a lane above 0 of an idle task",
        4,
        |random, table, sizes| {
            let at = a_record(random, table, sizes, false)?;
            let last = one_less(sizes)?;
            set(table, at + record::LANE, 1 + random.below(last))
        },
    ),
    (
        "no lane there is, of an idle task",
        4,
        |random, table, sizes| {
            let at = a_record(random, table, sizes, false)?;
            set(table, at + record::LANE, random.word().max(sizes.lanes))
        },
    ),
    ("not 0 in word 14", 4, |random, table, _| {
        set(table, 14, random.word().max(1))
    }),
    ("not 0 in word 15", 4, |random, table, _| {
        set(table, 15, random.word().max(1))
    }),
];

/// How often each was put.
#[derive(Default)]
pub struct Words {
    put: [u64; PUT.len()],
}

/// Puts one of these in a well-shaped table, from start or from anywhere.
pub fn check(random: &mut Random, counts: &mut Counts, mut table: Vec<u32>) {
    let place = random.below(PUT.len() as u32) as usize;
    let (name, gives, put) = PUT[place];
    let sizes = sizes(&table);
    if put(random, &mut table, sizes).is_none() {
        return;
    }
    counts.words.put[place] += 1;
    let mut both = Both::over(&table);
    let (given, ..) = both.run(&[], 0, 0);
    assert_eq!(given, gives, "{name}");
    if gives == 0 {
        broken::calls(random, counts, &mut both);
    } else {
        assert_eq!(both.begin(0, Note::new(0, POP, 0, 0)), Err(gives), "{name}");
        airlines::turned_back(&mut both, gives);
        assert_eq!(both.tick(0, 0), Err(gives), "{name}");
        assert_eq!(both.dispatch(0), Err(gives), "{name}");
        assert_eq!(both.panel(&[], 0, 0).0, gives, "{name}");
        assert_eq!(both.read(0, 0, 0), Err(gives), "{name}");
        assert_eq!(both.sheet(0, 0, 0, 0), Err(gives), "{name}");
        snapshots::turned_back(&mut both, gives);
    }
    counts.add(&both.given);
}

fn set(table: &mut [u32], at: usize, word: u32) -> Option<()> {
    table[at] = word;
    Some(())
}

fn set_hats(table: &mut [u32], lane: u32, hats: [u32; 2]) {
    table[header::hat(lane, LEFT)..=header::hat(lane, RIGHT)].copy_from_slice(&hats);
}

/// The lane after the last, if there may be one.
fn one_more(sizes: Sizes) -> Option<u32> {
    let most = Sizes::MAX_LANES.min(sizes.nodes / 2);
    (sizes.lanes < most).then_some(sizes.lanes)
}

/// The last lane, if it is not the only one.
fn one_less(sizes: Sizes) -> Option<u32> {
    (sizes.lanes > 1).then(|| sizes.lanes - 1)
}

/// The place of a hat of some lane.
fn a_hat(random: &mut Random, sizes: Sizes) -> usize {
    header::hat(random.below(sizes.lanes), random.below(2))
}

/// Two different lanes.
fn two_lanes(random: &mut Random, sizes: Sizes) -> Option<[u32; 2]> {
    let last = one_less(sizes)?;
    let one = random.below(sizes.lanes);
    let two = (one + 1 + random.below(last)) % sizes.lanes;
    Some([one, two])
}

fn is_busy(table: &[u32], sizes: Sizes, task: u32) -> bool {
    table[sizes.record(task) + record::OPERATION] != IDLE
}

/// Whether a task is in the middle of a call on this lane.
fn is_in_call(table: &[u32], sizes: Sizes, lane: u32) -> bool {
    let of_lane = |task: u32| table[sizes.record(task) + record::LANE] == lane;
    (0..sizes.tasks).any(|task| is_busy(table, sizes, task) && of_lane(task))
}

/// The place of a busy or an idle task's record.
fn a_record(random: &mut Random, table: &[u32], sizes: Sizes, busy: bool) -> Option<usize> {
    let tasks = (0..sizes.tasks).filter(|&task| is_busy(table, sizes, task) == busy);
    let tasks: Vec<u32> = tasks.collect();
    (!tasks.is_empty()).then(|| sizes.record(random.pick(&tasks)))
}

impl Words {
    /// Prints the counts; gives what was never put.
    pub fn report(&self) -> Vec<String> {
        println!(
            "\n{:45} {:>7} {:>11}",
            "words of the lanes put in", "gives", ""
        );
        let mut faults = Vec::new();
        for ((name, gives, _), count) in PUT.iter().zip(self.put) {
            println!("{name:45} {gives:>7} {count:>11}");
            if count == 0 {
                faults.push(format!("never put: {name}"));
            }
        }
        faults
    }
}
