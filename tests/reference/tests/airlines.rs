//! Request 2026-13: lists of airlines, their faults, the end for every code, and pushes by list.

mod common;

use std::collections::BTreeSet;

use common::list_texts::{self, airline, others, text};
use common::random::Random;
use common::tables::{shaped, sizes, started};
use reference::airlines::{check, end_for, push_by_list, Fault, MAX_LINES};
use reference::begin;
use reference::table::{digit, low_part, tag, LEFT, MAX_LOW, MAX_TAG, PUSH, RIGHT};

/// Lists by what they came to: accepted, and each fault.
#[derive(Default)]
struct Seen {
    accepted: u32,
    faults: [u32; 3],
    /// Lines at which a fault was.
    lines: BTreeSet<u32>,
}

/// Tags of the codes that a list may name or not, among them the first and the last of a code.
fn tags(random: &mut Random) -> [u64; 5] {
    let any = 1 + random.next() % MAX_TAG;
    let code = u64::from(random.below(1000)) * 1_000_000;
    [1, MAX_TAG, any, code + 1, code + 9_000_999_999]
}

/// Both readers on one list.
fn compared(random: &mut Random, seen: &mut Seen, list: &[u8]) {
    let wanted = list_texts::read(list);
    let shown = String::from_utf8_lossy(list);
    match &wanted {
        Ok(ends) => {
            assert_eq!(check(list), Ok(()), "{shown}");
            let named = ends.named.iter().map(|&(code, _)| u64::from(code));
            let first = named.map(|code| code * 1_000_000 + 3_000_000_000);
            for tag in first.chain(tags(random)) {
                let found = end_for(list, digit(tag), low_part(tag));
                assert_eq!(found, Ok(ends.of(tag)), "{tag:010} by {shown}");
            }
            seen.accepted += 1;
        }
        &Err((number, line)) => {
            let fault = Fault { number, line };
            assert_eq!(check(list), Err(fault), "{shown}");
            let [.., tag] = tags(random);
            let found = end_for(list, digit(tag), low_part(tag));
            assert_eq!(found, Err(fault), "{shown}");
            seen.faults[number as usize - 27] += 1;
            seen.lines.insert(line);
        }
    }
}

fn fault(list: &[u8], number: u32, line: u32) {
    let shown = String::from_utf8_lossy(list);
    assert_eq!(check(list), Err(Fault { number, line }), "{shown}");
    assert_eq!(list_texts::read(list), Err((number, line)), "{shown}");
}

fn end(list: &[u8], tag: u64) -> u32 {
    end_for(list, digit(tag), low_part(tag)).expect("an accepted list")
}

#[test]
fn the_request_s_lines() {
    let list = b"(airline (code 125) left)\n(others right)\n";
    assert_eq!(check(list), Ok(()));
    assert_eq!(check(&list[..list.len() - 1]), Ok(()));
    for (tag, side) in [
        (125_000_000, LEFT),
        (125_999_999, LEFT),
        (9_125_000_051, LEFT),
        (124_999_999, RIGHT),
        (126_000_000, RIGHT),
        (1_250_000_000, RIGHT),
        (12_500_000, RIGHT),
        (51, RIGHT),
        (MAX_TAG, RIGHT),
    ] {
        assert_eq!(end(list, tag), side, "{tag:010}");
    }
    assert_eq!(check(b"(others left)"), Ok(()));
    assert_eq!(end(b"(others left)", 125_000_000), LEFT);
}

#[test]
fn every_code_at_either_end() {
    for code in 0..1000 {
        for side in [LEFT, RIGHT] {
            let list = text(&[airline(&format!("{code:03}"), side), others(1 - side)]);
            for other in 0..1000 {
                let tag = tag(other % 10, other * 1_000_000 + other);
                let wanted = if other == code { side } else { 1 - side };
                assert_eq!(end(&list, tag), wanted, "{tag:010} by code {code}");
            }
        }
    }
}

#[test]
fn faults_by_the_request_s_words() {
    let (one, two, last) = (airline("125", LEFT), airline("000", RIGHT), others(RIGHT));
    let list =
        |lines: &[&String]| text(&lines.iter().map(|&line| line.clone()).collect::<Vec<_>>());
    let bad = String::from("(airline (code 12) left)");
    // No line, and a line that is neither form.
    fault(b"", 27, 1);
    fault(b"\n", 27, 1);
    fault(b"\n\n", 27, 1);
    fault(&list(&[&bad]), 27, 1);
    fault(&list(&[&one, &bad]), 27, 2);
    fault(&list(&[&one, &bad, &last]), 27, 2);
    // A code twice; it is lower than a last line that does not close.
    fault(&list(&[&one, &one, &last]), 28, 2);
    fault(&list(&[&one, &one]), 28, 2);
    fault(&list(&[&one, &two, &airline("125", RIGHT), &last]), 28, 3);
    // A closing line with a line after it, be that empty, too, or bad; and none.
    fault(&list(&[&last, &last]), 29, 1);
    fault(&list(&[&one, &last, &two]), 29, 2);
    fault(&list(&[&one, &last, &bad]), 29, 2);
    fault(&list(&[&one, &last, &String::new()]), 29, 2);
    fault(&list(&[&one]), 29, 1);
    fault(&list(&[&one, &two]), 29, 2);
    // The first faulty line of several.
    fault(&list(&[&one, &one, &bad]), 28, 2);
    fault(&list(&[&bad, &one, &one]), 27, 1);
    fault(&list(&[&one, &last, &one, &one]), 29, 2);
}

#[test]
fn about_the_64th_line() {
    let airlines: Vec<String> = (0..70)
        .map(|code| airline(&format!("{code:03}"), LEFT))
        .collect();
    let with = |count: usize, more: &[&str]| {
        let more = more.iter().map(|line| line.to_string());
        text(
            &airlines[..count]
                .iter()
                .cloned()
                .chain(more)
                .collect::<Vec<_>>(),
        )
    };
    let last = "(others right)";
    for count in 0..64 {
        assert_eq!(check(&with(count, &[last])), Ok(()));
    }
    fault(&with(64, &[last]), 27, 65);
    fault(&with(65, &[last]), 27, 65);
    fault(&with(66, &[last]), 27, 65);
    fault(&with(64, &[""]), 27, 65);
    fault(&with(64, &[&airlines[0]]), 27, 65);
    fault(&with(63, &[&airlines[0], last]), 28, 64);
    fault(&with(63, &[last, last]), 29, 64);
    fault(&with(63, &[last, ""]), 29, 64);
    fault(&with(63, &["", last]), 27, 64);
    fault(&with(62, &["", "", last]), 27, 63);
    fault(&with(63, &[]), 29, 63);
    fault(&with(64, &[]), 29, 64);
    fault(&with(65, &[]), 27, 65);
    fault(&with(66, &[]), 27, 65);
    // The line feed at the very end opens no line.
    let list = with(63, &[last]);
    assert_eq!(check(&list[..list.len() - 1]), Ok(()));
    let list = with(64, &[]);
    fault(&list[..list.len() - 1], 29, 64);
}

#[test]
fn every_fault_at_every_place() {
    let mut random = Random::new(13);
    let mut lists = Random::new(27);
    let mut seen = Seen::default();
    list_texts::of_every_length(&mut lists, |list| compared(&mut random, &mut seen, list));
    list_texts::with_other_bytes(&mut lists, |list| compared(&mut random, &mut seen, list));
    list_texts::with_bad_lines(&mut lists, |list| compared(&mut random, &mut seen, list));
    list_texts::with_carriage_returns(&mut lists, |list| compared(&mut random, &mut seen, list));
    list_texts::with_doubled_codes(&mut lists, |list| compared(&mut random, &mut seen, list));
    list_texts::with_closing_lines(&mut lists, |list| compared(&mut random, &mut seen, list));
    assert!(seen.lines.iter().copied().eq(1..=MAX_LINES + 1));
    assert!(seen.accepted > 100 && seen.faults.iter().all(|&count| count > 100));
}

#[test]
fn lists_with_any_faults() {
    let mut random = Random::new(14);
    let mut seen = Seen::default();
    for _ in 0..20_000 {
        let list = list_texts::any(&mut random);
        compared(&mut random, &mut seen, &list);
    }
    assert!(seen.accepted > 1000 && seen.faults.iter().all(|&count| count > 1000));
}

#[test]
fn any_bytes() {
    let mut random = Random::new(15);
    let mut seen = Seen::default();
    for _ in 0..20_000 {
        let length = random.below(120);
        let bytes: Vec<u8> = (0..length)
            .map(|_| match random.below(3) {
                0 => random.next() as u8,
                _ => random.pick(b"(airline (code 125) left)\n(others right)\n"),
            })
            .collect();
        compared(&mut random, &mut seen, &bytes);
    }
    assert!(seen.faults[0] > 19_000);
}

#[test]
fn the_order_of_the_airlines_has_no_say() {
    let mut random = Random::new(16);
    for _ in 0..60 {
        let count = 1 + random.below(64) as usize;
        let mut lines = list_texts::lines(&mut random, count);
        let one = text(&lines);
        for place in 1..count - 1 {
            lines.swap(place, random.below(place as u32 + 1) as usize);
        }
        let other = text(&lines);
        for code in 0..1000 {
            let low = code * 1_000_000 + random.below(1_000_000);
            let digit = random.below(10);
            assert_eq!(end_for(&one, digit, low), end_for(&other, digit, low));
        }
    }
}

/// What is no tag has some end, and the push is then refused whatever the end.
#[test]
fn numbers_that_are_no_tag() {
    let list = b"(airline (code 000) left)\n(airline (code 999) left)\n(others right)\n";
    let mut table = started(4, 1, 0);
    let before = table.clone();
    for (digit, low, side) in [
        (0, 0, LEFT),
        (10, 999_000_000, LEFT),
        (u32::MAX, 125_000_000, RIGHT),
        (0, MAX_LOW + 1, RIGHT),
        (0, u32::MAX, RIGHT),
    ] {
        assert_eq!(end_for(list, digit, low), Ok(side));
        assert_eq!(push_by_list(list, &mut table, 0, 0, digit, low), (7, 0));
        assert_eq!(table, before);
    }
}

/// On any table of good shape or none, with any numbers: the list's fault before every test of the table, or the begin
/// of a push at the end it names.
#[test]
fn a_push_by_list_is_that_push() {
    let mut random = Random::new(17);
    let mut numbers = [0; 30];
    for _ in 0..40_000 {
        let mut table = shaped(&mut random);
        let [tasks, lanes] = [sizes(&table).tasks, sizes(&table).lanes];
        match random.below(12) {
            0 => table.truncate(random.below(table.len() as u32) as usize),
            1 => {
                let at = random.below(table.len() as u32) as usize;
                table[at] = random.word();
            }
            _ => {}
        }
        let list = match random.below(4) {
            0 => list_texts::any(&mut random),
            _ => {
                let count = 1 + random.below(6) as usize;
                text(&list_texts::lines(&mut random, count))
            }
        };
        let [past_tasks, past_lanes] = [8; 2].map(|times| u32::from(random.once_in(times)));
        let (task, lane) = (
            random.below(tasks + past_tasks),
            random.below(lanes + past_lanes),
        );
        let (digit, low) = match random.below(4) {
            0 => (random.digit(), random.word()),
            1 => (random.pick(&[0, 1, 9]), random.pick(&[0, 1, MAX_LOW])),
            _ => (random.below(10), random.below(MAX_LOW + 1)),
        };
        let mut other = table.clone();
        let wanted = match list_texts::read(&list) {
            Err(fault) => fault,
            Ok(ends) => {
                let side = match low {
                    0..=MAX_LOW => ends.of(u64::from(low)),
                    _ => ends.others,
                };
                let begun = begin(&mut other, task, lane, PUSH, side, digit, low);
                (begun.err().unwrap_or(0), 0)
            }
        };
        let found = push_by_list(&list, &mut table, task, lane, digit, low);
        assert_eq!(found, wanted);
        assert_eq!(table, other);
        numbers[found.0 as usize] += 1;
    }
    for number in [0, 3, 4, 26, 5, 7, 11, 16, 8, 27, 28, 29] {
        assert!(numbers[number] > 20, "{number}: {}", numbers[number]);
    }
}
