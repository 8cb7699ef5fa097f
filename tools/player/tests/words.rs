//! The words that the player keeps are the table's at each moment; and what it says of a line of the figure is what the
//! library does there.

mod common;

use std::collections::BTreeMap;

use common::{lines, Random};
use lane::{ffi, Answer};
use player::figure::{line_at, LINES};
use player::form::{self, Form, Lines};
use player::moment::{Event, Moment, Run, Tick};
use player::places::{self, Record, Register, NONE, REGISTERS};
use player::play::{matched, play};

const STORED: &str = include_str!("../../../examples/belt.lines");
const LANES: &str = include_str!("../../../examples/pages/lanes.lines");

/// The words after each moment, as a page makes them from what is kept.
fn shown(run: &Run) -> Vec<Vec<u32>> {
    let mut words = Vec::new();
    run.moments
        .iter()
        .map(|moment| {
            if let Event::Start = moment.event {
                words = moment.wrote.iter().map(|&(_, word)| word).collect();
            }
            for &(place, word) in &moment.wrote {
                words[place] = word;
            }
            words.clone()
        })
        .collect()
}

/// The words after each moment of a run, made with the library's calls alone.
fn table_at_each_moment(input: &str, lines: Lines, run: &Run) -> Vec<Vec<u32>> {
    let forms: Vec<_> = input
        .lines()
        .map(|line| form::parse(line.as_bytes(), lines))
        .collect();
    let mut table = Vec::new();
    let mut tables = Vec::new();
    for moment in &run.moments {
        match forms[moment.line] {
            Some(Form::Start {
                slots,
                tasks,
                growth,
                lanes,
            }) if !matches!(moment.event, Event::Refused { .. }) => {
                table = vec![7; lane::words(slots, tasks)];
                assert_eq!(ffi::start(&mut table, slots, tasks, growth, lanes), 0);
            }
            Some(Form::Begin {
                task,
                lane,
                operation,
                side,
                digit,
                argument,
            }) => {
                let _ = ffi::begin(&mut table, task, lane, operation, side, digit, argument);
            }
            Some(Form::Tick { task, hint, .. }) => {
                let _ = ffi::tick(&mut table, task, hint);
            }
            Some(Form::Dispatch { hint, .. }) => {
                let _ = ffi::dispatch(&mut table, hint);
            }
            _ => {}
        }
        tables.push(table.clone());
    }
    tables
}

#[test]
fn the_words_are_the_tables() {
    let mut inputs: Vec<_> = (1..=40)
        .map(|seed| (lines(&mut Random::new(seed), 300), Lines::Belt))
        .collect();
    inputs.push((STORED.to_owned(), Lines::Belt));
    inputs.push((LANES.to_owned(), Lines::SeveralLanes));
    for (input, lines) in inputs {
        let run = play(input.as_bytes(), lines).run;
        assert_eq!(run.cut, Default::default());
        let tables = table_at_each_moment(&input, lines, &run);
        for ((moment, shown), table) in run.moments.iter().zip(shown(&run)).zip(tables) {
            assert_eq!(shown, table, "{:?}\n{input}", moment.event);
        }
    }
}

/// The slots that nothing reaches: no hat of a lane, and no register that holds at its task's step, by whatever links.
fn free(table: &[u32]) -> Vec<bool> {
    let mut queue: Vec<u32> = (0..table[places::LANES])
        .flat_map(|lane| [0, 1].map(|side| table[places::hat(lane, side)]))
        .collect();
    for task in 0..table[places::TASKS] {
        let record = Record::of(table, task);
        let holds = line_at(record.step()).map_or(&[][..], |line| line.holds);
        queue.extend(holds.iter().map(|&register| record.register(register)));
    }
    let mut free = vec![true; table[places::SLOTS] as usize];
    while let Some(slot) = queue.pop() {
        if slot != NONE && free[slot as usize] {
            free[slot as usize] = false;
            queue.extend([0, 1].map(|side| table[places::link(slot, side)]));
        }
    }
    free
}

/// Whether what was looked at was as wanted has to tell what the tick did.
fn agrees(tick: &Tick, before: &[u32], after: &[u32], moment: &Moment) -> bool {
    let all = tick.looked.iter().all(|looked| matched(before, looked));
    let step = Record::of(after, tick.task).step();
    let slots_end = places::link(before[places::SLOTS], 0);
    let wrote_lane = moment
        .wrote
        .iter()
        .any(|&(place, _)| place > places::DISPATCHED && place < slots_end);
    match tick.step {
        5 | 25 | 51 | 62 => tick.lost != all && wrote_lane == all,
        48 => tick.lost != all && (tick.answer == Answer::Empty) == all && !wrote_lane,
        64 | 72 => !tick.lost && wrote_lane == all,
        // A value that was RY before is written again.
        78 => !tick.lost && (step == 79) == all,
        8 => all == (step == 28),
        68 => all == (step == 69),
        56 => all == (tick.answer == Answer::Yes),
        28 | 31 => {
            let slots = before[places::SLOTS];
            let free = free(before);
            let from_hint = (0..slots).map(|further| (tick.hint + further) % slots);
            tick.took == from_hint.into_iter().find(|&slot| free[slot as usize])
        }
        _ => !tick.lost && all,
    }
}

#[test]
fn the_lines_do_what_is_said_of_them() {
    let mut met = BTreeMap::new();
    for seed in 1..=150 {
        let input = lines(&mut Random::new(seed), 500);
        let run = play(input.as_bytes(), Lines::Belt).run;
        let words = shown(&run);
        for (at, moment) in run.moments.iter().enumerate() {
            let Event::Tick(tick) = &moment.event else {
                continue;
            };
            let (before, after) = (&words[at - 1], &words[at]);
            assert!(
                agrees(tick, before, after, moment),
                "seed {seed}, moment {at}: {tick:?}"
            );
            *met.entry((tick.step, tick.lost)).or_insert(0) += 1;
        }
    }
    for line in &LINES {
        assert!(
            met.contains_key(&(line.step, false)),
            "line {} was never met",
            line.step
        );
    }
    for step in [5, 25, 48, 51, 62] {
        assert!(met.contains_key(&(step, true)), "line {step} never lost");
    }
}

/// The table is proved to be the only one that fits the steps (`machine_registers`).
#[test]
fn the_registers_that_hold_are_those_of_the_definitions() {
    let definitions = include_str!("../../../crates/machine/specs/Registers.antt");
    let mut found = 0;
    for row in definitions
        .lines()
        .filter_map(|line| line.strip_prefix("holding line"))
    {
        let (step, holding) = row.split_once(" = ").expect("a row of the table");
        let line = line_at(step.parse().expect("a number")).expect("a line of the figure");
        let names = REGISTERS.map(|register| format!("in_{register:?}").to_lowercase());
        let holds = REGISTERS.map(|register| line.holds.contains(&register));
        let defined = names.map(|name| holding.contains(&name));
        assert_eq!(holds, defined, "line {step}");
        found += 1;
    }
    assert_eq!(found, LINES.len());
}

#[test]
fn places_are_those_of_the_format() {
    let (slots, tasks) = (9, 3);
    let mut table = vec![0; lane::words(slots, tasks)];
    assert_eq!(ffi::start(&mut table, slots, tasks, 1, 2), 0);
    assert_eq!(ffi::begin(&mut table, 2, 1, 1, 1, 5, 77), 0);
    assert_eq!(ffi::dispatch(&mut table, 0), 0);
    assert_eq!(
        [
            table[places::SLOTS],
            table[places::TASKS],
            table[places::LANES]
        ],
        [9, 3, 2]
    );
    assert_eq!([table[places::TICKS], table[places::DISPATCHED]], [1, 2]);
    assert_eq!([table[places::hat(1, 0)], table[places::hat(1, 1)]], [2, 3]);
    assert_eq!(
        [
            table[places::link(2, 1)],
            table[places::link(3, 0)],
            table[places::link(2, 0)]
        ],
        [3, 2, NONE]
    );
    assert_eq!(
        [table[places::value(2)], table[places::value(3)]],
        [1_000_000_002, 1_000_000_005]
    );
    let record = Record::of(&table, 2);
    assert_eq!(
        (
            record.step(),
            record.side(),
            record.lane(),
            record.value_read()
        ),
        (3, 1, 1, [0, 0])
    );
    assert_eq!(
        REGISTERS.map(|register| record.register(register)),
        [3, NONE, NONE, NONE]
    );
    assert_eq!(record.register(Register::A), 3);
}
