//! Which end for which airline: a list in the program's brackets, and the push that follows it.

use crate::calls;
use crate::refusal;
use crate::table::{LEFT, PUSH, RIGHT};

/// Most lines of a list, with the closing one.
pub const MAX_LINES: u32 = 64;

/// What the last of the code's three digits counts in the low part, whose first three they are.
const CODE: u32 = 1_000_000;

/// What is wrong with a list.
#[derive(Clone, Copy, Debug, PartialEq, Eq)]
pub struct Fault {
    /// The refusal: 27, 28 or 29.
    pub number: u32,
    /// The first faulty line, from 1.
    pub line: u32,
}

/// Whether a list is one, or its first faulty line.
pub fn check(list: &[u8]) -> Result<(), Fault> {
    end_of(list, 0).map(|_| ())
}

/// The side at which a tag is loaded. The leading digit has no say, and a low part that is none has a code that no line
/// can name.
pub fn end_for(list: &[u8], _digit: u32, low: u32) -> Result<u32, Fault> {
    end_of(list, low / CODE)
}

/// Begins a push at the end that the list names for its tag; returns 0 twice, or the refusal and, for a fault of the
/// list, its line. The list is tested before the table.
pub fn push_by_list(
    list: &[u8],
    table: &mut [u32],
    task: u32,
    lane: u32,
    digit: u32,
    argument: u32,
) -> (u32, u32) {
    match end_for(list, digit, argument) {
        Ok(side) => {
            let begun = calls::begin(table, task, lane, PUSH, side, digit, argument);
            (begun.err().unwrap_or(0), 0)
        }
        Err(Fault { number, line }) => (number, line),
    }
}

/// The side for a code. The whole list is read, whether or not its line was found.
fn end_of(list: &[u8], wanted: u32) -> Result<u32, Fault> {
    let mut rest = list;
    let mut seen = Codes([0; 16]);
    let mut found = None;
    for line in 1..MAX_LINES + 1 {
        let fault = |number| Err(Fault { number, line });
        let Some((code, side, after)) = airline(rest) else {
            return match others(rest) {
                None => fault(refusal::LIST_LINE),
                Some((side, [] | [b'\n'])) => Ok(found.unwrap_or(side)),
                Some(_) => fault(refusal::LIST_CLOSING),
            };
        };
        if seen.add(code) {
            return fault(refusal::LIST_CODE);
        }
        if code == wanted {
            found = Some(side);
        }
        match after {
            [] | [_] => return fault(refusal::LIST_CLOSING),
            [_, lines @ ..] => rest = lines,
        }
    }
    Err(Fault {
        number: refusal::LIST_LINE,
        line: MAX_LINES + 1,
    })
}

/// The code and the side of an airline's line, and what follows it from its line feed on.
fn airline(list: &[u8]) -> Option<(u32, u32, &[u8])> {
    // The shorter of the two; no form has a line feed in it, so these bytes need not be those of one line.
    let bytes: &[u8; 25] = list.first_chunk()?;
    // The byte at 7 is compared twice, in two words.
    if bytes[..8] != *b"(airline" || bytes[7..15] != *b"e (code " {
        return None;
    }
    let code = number([bytes[15], bytes[16], bytes[17]])?;
    let (side, after) = if bytes[18..] == *b") left)" {
        (LEFT, &list[25..])
    } else {
        (RIGHT, list[18..].strip_prefix(b") right)")?)
    };
    ends(after).then_some((code, side, after))
}

/// The side of a closing line, and what follows it from its line feed on.
fn others(list: &[u8]) -> Option<(u32, &[u8])> {
    let bytes = list.strip_prefix(b"(others ")?;
    let (side, after) = match bytes.strip_prefix(b"left)") {
        Some(after) => (LEFT, after),
        None => (RIGHT, bytes.strip_prefix(b"right)")?),
    };
    ends(after).then_some((side, after))
}

/// Whether a line ends before these bytes.
fn ends(after: &[u8]) -> bool {
    matches!(after, [] | [b'\n', ..])
}

/// The number that three digits write.
fn number(code: [u8; 3]) -> Option<u32> {
    let [first, second, third] = code.map(|byte| u32::from(byte.wrapping_sub(b'0')));
    let are_digits = (first <= 9) & (second <= 9) & (third <= 9);
    are_digits.then_some(100 * first + 10 * second + third)
}

/// The codes of the lines so far, a bit each.
struct Codes([u64; 16]);

impl Codes {
    /// Adds a code below 1,000; says whether it was there.
    fn add(&mut self, code: u32) -> bool {
        let bits = &mut self.0[code as usize / 64 % 16];
        let bit = 1 << (code % 64);
        let was = *bits & bit != 0;
        *bits |= bit;
        was
    }
}
