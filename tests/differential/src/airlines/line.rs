//! A line that is neither form: what sets it apart from the forms.

use crate::common::list_texts::{airline, form};
use reference::table::{LEFT, RIGHT};

/// The forms, a `?` for each digit of a code.
pub const FORMS: [&str; 4] = [
    "(airline (code ???) left)",
    "(airline (code ???) right)",
    "(others left)",
    "(others right)",
];

/// What such a line is, first things first.
pub enum Unlike {
    Empty,
    /// A form but for carriage returns.
    Return,
    /// A form but for blanks.
    Blanks,
    /// An airline's line with a code of so many digits.
    Digits(usize),
    /// A form, as in `FORMS`, with another byte at one place.
    Byte(usize, usize),
    Other,
}

/// What a line is that is neither form.
pub fn unlike(line: &[u8]) -> Unlike {
    let digits: String = line
        .iter()
        .filter(|byte| byte.is_ascii_digit())
        .map(|&byte| char::from(byte))
        .collect();
    let has_code = |side| airline(&digits, side).as_bytes() == line;
    if line.is_empty() {
        Unlike::Empty
    } else if form(&without(line, b'\r')).is_some() {
        Unlike::Return
    } else if FORMS.iter().any(|text| {
        let text = without(text.as_bytes(), b' ');
        others(&text, &without(line, b' ')).is_some_and(|places| places.is_empty())
    }) {
        Unlike::Blanks
    } else if [LEFT, RIGHT].into_iter().any(has_code) {
        Unlike::Digits(digits.len())
    } else {
        let changed = FORMS.iter().enumerate().find_map(|(number, text)| {
            match others(text.as_bytes(), line)?[..] {
                [place] => Some(Unlike::Byte(number, place)),
                _ => None,
            }
        });
        changed.unwrap_or(Unlike::Other)
    }
}

/// The line without these bytes.
fn without(line: &[u8], byte: u8) -> Vec<u8> {
    let others = line.iter().copied().filter(|&other| other != byte);
    others.collect()
}

/// The places at which a line of the same length is not as a text says, in which a `?` stands for any digit.
fn others(text: &[u8], line: &[u8]) -> Option<Vec<usize>> {
    let fits = |place: &usize| match text[*place] {
        b'?' => line[*place].is_ascii_digit(),
        byte => line[*place] == byte,
    };
    (text.len() == line.len()).then(|| (0..text.len()).filter(|place| !fits(place)).collect())
}
