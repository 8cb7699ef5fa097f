//! What airline lists came to: each kind of fault, each number at each line that it can name, each byte of each form
//! changed; and which lines sent pushes.

use std::collections::{BTreeMap, BTreeSet};
use std::ops::RangeInclusive;

use reference::airlines::MAX_LINES;

use super::line::{unlike, Unlike, FORMS};
use crate::common::list_texts::{self, cut, form, Ends, Form};

/// What a list comes to; one list comes to several.
#[derive(Clone, Copy)]
enum Outcome {
    One,
    More,
    Most,
    NoFeed,
    NoLine,
    Empty,
    Return,
    Blanks,
    FewDigits,
    ManyDigits,
    Byte,
    Other,
    Over,
    SameEnd,
    OtherEnd,
    AtTheEnd,
    ThenAirline,
    ThenClosing,
    ThenNeither,
    NotClosed,
    LineBehind,
    CodeBehind,
    ClosingBehind,
}
use Outcome::*;

/// In the same order: what it is, and its number.
const OUTCOMES: [(&str, u32); 23] = [
    ("1 line", 0),
    ("2 to 63 lines", 0),
    ("64 lines", 0),
    ("no line feed at the very end", 0),
    ("no line", 27),
    ("an empty line", 27),
    ("a form with carriage returns", 27),
    ("a form with other blanks", 27),
    ("a code of fewer digits", 27),
    ("a code of more digits", 27),
    ("a form with another byte", 27),
    ("any other line", 27),
    ("a 65th line", 27),
    ("a code again, at the same end", 28),
    ("a code again, at the other end", 28),
    ("a code again, in the last line", 28),
    ("closed, then an airline", 29),
    ("closed, then closed again", 29),
    ("closed, then neither form", 29),
    ("a last line that does not close", 29),
    ("with another faulty line behind", 27),
    ("with another faulty line behind", 28),
    ("with another faulty line behind", 29),
];

/// The numbers of a fault, and the lines that each can name.
const FAULTS: [(u32, RangeInclusive<u32>); 3] = [
    (27, 1..=MAX_LINES + 1),
    (28, 2..=MAX_LINES),
    (29, 1..=MAX_LINES),
];

/// What was seen.
#[derive(Default)]
pub struct Airlines {
    /// As in `OUTCOMES`.
    outcomes: [u64; OUTCOMES.len()],
    /// Faults by number and line.
    faults: BTreeMap<(u32, u32), u64>,
    /// Forms, as in `FORMS`, with another byte, by its place.
    bytes: BTreeMap<(usize, usize), u64>,
    /// Pushes by the line that has their code, from 1, or 0 for the closing one, and by its side.
    sent: BTreeMap<(u32, u32), u64>,
    /// Codes of lines that sent a push.
    codes: BTreeSet<u32>,
}

impl Airlines {
    /// A list was accepted, or refused with this number at this line.
    pub fn saw(&mut self, list: &[u8], (number, line): (u32, u32)) {
        let lines = cut(list);
        let outcomes = if number == 0 {
            let most = MAX_LINES as usize;
            vec![
                (One, lines.len() == 1),
                (More, (2..most).contains(&lines.len())),
                (Most, lines.len() == most),
                (NoFeed, !list.ends_with(b"\n")),
            ]
        } else {
            *self.faults.entry((number, line)).or_default() += 1;
            let (before, after) = lines.split_at((line as usize).min(lines.len()));
            let mut outcomes = match number {
                27 => self.neither(before, line),
                28 => again(before, after),
                _ => closed(before, after),
            };
            let behind = !after.is_empty() && list_texts::read(&after.join(&b'\n')).is_err();
            let of_number = [LineBehind, CodeBehind, ClosingBehind];
            outcomes.push((of_number[number as usize - 27], behind));
            outcomes
        };
        for (outcome, _) in outcomes.into_iter().filter(|&(_, comes)| comes) {
            let (name, wanted) = OUTCOMES[outcome as usize];
            assert_eq!(number, wanted, "{name}: {}", String::from_utf8_lossy(list));
            self.outcomes[outcome as usize] += 1;
        }
    }

    /// 27 of the last of these lines.
    fn neither(&mut self, lines: &[&[u8]], line: u32) -> Vec<(Outcome, bool)> {
        let Some(faulty) = lines.last() else {
            return vec![(NoLine, true)];
        };
        if line > MAX_LINES {
            return vec![(Over, true)];
        }
        assert!(form(faulty).is_none());
        let outcome = match unlike(faulty) {
            Unlike::Empty => Empty,
            Unlike::Return => Return,
            Unlike::Blanks => Blanks,
            Unlike::Digits(count) if count < 3 => FewDigits,
            Unlike::Digits(_) => ManyDigits,
            Unlike::Byte(form, place) => {
                *self.bytes.entry((form, place)).or_default() += 1;
                Byte
            }
            Unlike::Other => Other,
        };
        vec![(outcome, true)]
    }

    /// An accepted list has begun the push of a tag.
    pub fn sent(&mut self, ends: &Ends, tag: u64) {
        let code = (tag / 1_000_000 % 1000) as u32;
        let place = ends.named.iter().position(|&(named, _)| named == code);
        let line = place.map_or(0, |place| place as u32 + 1);
        *self.sent.entry((line, ends.of(tag))).or_default() += 1;
        if line > 0 {
            self.codes.insert(code);
        }
    }

    /// Prints the counts; gives what was to be seen and was not, or seen and was not to be.
    pub fn report(&self) -> Vec<String> {
        let mut faults = Vec::new();
        println!("\n{:36} {:>6}", "airline lists", "gives");
        for ((name, number), count) in OUTCOMES.iter().zip(self.outcomes) {
            println!("{name:36} {number:>6} {count:>11}");
            if count == 0 {
                faults.push(format!("airline lists, none with {number}: {name}"));
            }
        }
        println!("of each, the least often seen:");
        for (number, lines) in FAULTS {
            let least = least(&self.faults, lines.clone().map(|line| (number, line)));
            let name = format!("{number} at each of the lines {lines:?}");
            println!("{name:43} {least:>11}");
            let others = self.faults.keys();
            let others = others.filter(|&(given, line)| *given == number && !lines.contains(line));
            if least == 0 || others.count() > 0 {
                faults.push(format!("airline lists, not {number} at each of {lines:?}"));
            }
        }
        for (number, text) in FORMS.iter().enumerate() {
            let least = least(&self.bytes, (0..text.len()).map(|place| (number, place)));
            println!("another byte in {text:27} {least:>11}");
            if least == 0 {
                faults.push(format!("airline lists, no other byte in a place of {text}"));
            }
        }
        let lines = (0..MAX_LINES).flat_map(|line| [0, 1].map(|side| (line, side)));
        let least = least(&self.sent, lines);
        println!("{:43} {least:>11}", "pushes by each line, left and right");
        println!("{:43} {:>11}", "codes of these lines", self.codes.len());
        if least == 0 || self.codes.len() < 1000 {
            faults.push("airline lists, not a push by every line and code".to_string());
        }
        faults
    }
}

/// 28 of the last line before.
fn again(before: &[&[u8]], after: &[&[u8]]) -> Vec<(Outcome, bool)> {
    let airline = |line: &[u8]| match form(line) {
        Some(Form::Airline(code, side)) => Some((code, side)),
        _ => None,
    };
    let (faulty, earlier) = before.split_last().expect("a line is named");
    let (code, side) = airline(faulty).expect("an airline's line");
    let first = earlier
        .iter()
        .find_map(|line| airline(line).filter(|&(named, _)| named == code));
    let (_, first) = first.expect("the code in an earlier line");
    vec![
        (SameEnd, first == side),
        (OtherEnd, first != side),
        (AtTheEnd, after.is_empty()),
    ]
}

/// 29 of the last line before.
fn closed(before: &[&[u8]], after: &[&[u8]]) -> Vec<(Outcome, bool)> {
    let closes = matches!(
        before.last().and_then(|line| form(line)),
        Some(Form::Others(_))
    );
    assert_eq!(closes, !after.is_empty());
    let outcome = match after.first().map(|line| form(line)) {
        None => NotClosed,
        Some(Some(Form::Airline(..))) => ThenAirline,
        Some(Some(Form::Others(_))) => ThenClosing,
        Some(None) => ThenNeither,
    };
    vec![(outcome, true)]
}

/// The least often that one of these was seen.
fn least<K: Ord>(seen: &BTreeMap<K, u64>, keys: impl Iterator<Item = K>) -> u64 {
    let counts = keys.map(|key| seen.get(&key).copied().unwrap_or(0));
    counts.min().unwrap_or(0)
}
