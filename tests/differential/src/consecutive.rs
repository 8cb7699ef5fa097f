//! Consecutive ticks and dispatches: what they come to, and that they are the single calls up to the first that does not
//! say "going".

use reference::Answer;

use crate::both::Both;
use crate::common::random::Random;
use crate::counts::{Counts, Origin};

/// Which calls are made one after the other.
#[derive(Clone, Copy)]
pub enum Of {
    Ticks,
    Dispatches,
}

/// What the last of them gave.
#[derive(Clone, Copy, PartialEq)]
pub enum Last {
    Going,
    Ends,
    Idle,
    Refused,
}

/// Where something can come.
#[derive(Clone, Copy, PartialEq)]
enum Comes {
    /// On tables that start and the calls reach, and on others.
    Everywhere,
    /// On others alone.
    Elsewhere,
    Nowhere,
}
use Comes::*;

/// What they come to, and where: of ticks, of dispatches.
const FOUND: [(&str, [Comes; 2]); 9] = [
    ("none asked for: going", [Everywhere, Everywhere]),
    ("one asked for: going", [Everywhere, Everywhere]),
    ("more asked for: all going", [Everywhere, Everywhere]),
    ("the first ends a call", [Everywhere, Everywhere]),
    ("a later one, before the last", [Everywhere, Everywhere]),
    ("a later one, the last asked for", [Everywhere, Everywhere]),
    ("every task idle", [Nowhere, Everywhere]),
    ("the first is refused", [Everywhere, Everywhere]),
    ("a later one is refused", [Elsewhere, Elsewhere]),
];

/// The place in `FOUND` of so many calls asked for, of which so many were made up to the last.
fn place(times: u32, calls: u32, last: Last) -> usize {
    assert!(calls <= times, "{calls} calls of {times}");
    assert!(last != Last::Going || calls == times, "{calls} of {times}");
    match (last, calls) {
        (Last::Going, 0) => 0,
        (Last::Going, 1) => 1,
        (Last::Going, _) => 2,
        (Last::Ends, 1) => 3,
        (Last::Ends, _) if calls < times => 4,
        (Last::Ends, _) => 5,
        (Last::Idle, _) => 6,
        (Last::Refused, 1) => 7,
        (Last::Refused, _) => 8,
    }
}

/// What was seen of them.
#[derive(Default)]
pub struct Consecutive {
    /// By calls and origin, then as in `FOUND`.
    found: [[[u64; FOUND.len()]; 2]; 2],
    /// By calls and origin: as many were asked for as can be.
    largest: [[u64; 2]; 2],
}

impl Consecutive {
    /// So many calls were asked for, and so many made up to the last.
    pub fn saw(&mut self, of: Of, origin: Origin, times: u32, calls: u32, last: Last) {
        let (of, origin) = (of as usize, origin as usize);
        self.found[of][origin][place(times, calls, last)] += 1;
        self.largest[of][origin] += u64::from(times == u32::MAX);
    }

    /// Prints the counts; gives what was to be seen and was not, or seen and was not to be.
    pub fn report(&self) -> Vec<String> {
        let mut faults = Vec::new();
        println!("\n{:32} {:>23} {:>23}", "consecutive", "ticks", "dispatches");
        println!(
            "{:32} {:>11} {:>11} {:>11} {:>11}",
            "", "from start", "any table", "from start", "any table"
        );
        for (place, (name, comes)) in FOUND.into_iter().enumerate() {
            let counts = self.found.map(|origins| origins.map(|found| found[place]));
            show(name, counts);
            for (comes, [calls, anywhere]) in comes.into_iter().zip(counts) {
                let wanted = [comes == Everywhere, comes != Nowhere];
                if [calls > 0, anywhere > 0] != wanted {
                    faults.push(format!("consecutive calls, {name}: {calls}, {anywhere}"));
                }
            }
        }
        show("4,294,967,295 asked for", self.largest);
        if self.largest.as_flattened().contains(&0) {
            faults.push(format!("consecutive calls, the largest number: {:?}", self.largest));
        }
        faults
    }
}

fn show(name: &str, [[one, two], [three, four]]: [[u64; 2]; 2]) {
    println!("{name:32} {one:>11} {two:>11} {three:>11} {four:>11}");
}

/// Consecutive ticks on any words, and the single ones on a copy.
pub fn ticks(random: &mut Random, counts: &mut Counts, both: &mut Both, task: u32, hint: u32) {
    let mut copy = Both::over(both.table());
    let single = || copy.tick(task, hint);
    let (times, calls, wanted) = singly(random, Answer::Going, single);
    let given = both.ticks(task, hint, times);
    assert_eq!(given, wanted, "{times} ticks, consecutive and single");
    let last = last_of(given.map(Some));
    done(counts, Of::Ticks, both, &copy, [times, calls], last);
}

/// Consecutive dispatches on any words, and the single ones on a copy.
pub fn dispatches(random: &mut Random, counts: &mut Counts, both: &mut Both, hint: u32) {
    let mut copy = Both::over(both.table());
    let single = || copy.dispatch(hint);
    let (times, calls, wanted) = singly(random, Some(Answer::Going), single);
    let given = both.dispatches(hint, times);
    assert_eq!(given, wanted, "{times} dispatches, consecutive and single");
    let last = last_of(given);
    done(counts, Of::Dispatches, both, &copy, [times, calls], last);
}

/// What the last call gave, none for "idle".
pub fn last_of(given: Result<Option<Answer>, u32>) -> Last {
    match given {
        Ok(Some(Answer::Going)) => Last::Going,
        Ok(Some(_)) => Last::Ends,
        Ok(None) => Last::Idle,
        Err(_) => Last::Refused,
    }
}

/// Single calls up to the first that does not say "going", or some number: how many to ask for, how many were made, and
/// what the last gave. As many as can be are asked for only where so few come to an end: on such tables not all do.
fn singly<T: Copy + PartialEq>(
    random: &mut Random,
    going: T,
    mut single: impl FnMut() -> Result<T, u32>,
) -> (u32, u32, Result<T, u32>) {
    let times = random.pick(&[0, 1, 2, 4, 8, 60]);
    let (mut calls, mut last) = (0, Ok(going));
    while calls < times && last == Ok(going) {
        last = single();
        calls += 1;
    }
    if last != Ok(going) && random.once_in(3) {
        return (u32::MAX, calls, last);
    }
    (times, calls, last)
}

fn done(
    counts: &mut Counts,
    of: Of,
    both: &Both,
    copy: &Both,
    [times, calls]: [u32; 2],
    last: Last,
) {
    assert!(
        both.table() == copy.table(),
        "the table of consecutive calls is not that of single ones"
    );
    counts.consecutive.saw(of, Origin::Anywhere, times, calls, last);
    counts.add(&copy.given);
}
