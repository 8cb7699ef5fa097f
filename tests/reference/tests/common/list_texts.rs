//! Airline lists: what they say, found by cutting them into lines and writing each line anew; and lists to try, accepted
//! ones and ones with every fault at every place.

use super::random::Random;
use reference::table::{LEFT, RIGHT};

/// Most lines of a list.
pub const MOST: usize = 64;

/// An end as a line names it.
pub fn end(side: u32) -> &'static str {
    match side {
        LEFT => "left",
        _ => "right",
    }
}

/// An airline's line without its line feed; any text may stand for the code.
pub fn airline(code: &str, side: u32) -> String {
    format!("(airline (code {code}) {})", end(side))
}

/// A closing line without its line feed.
pub fn others(side: u32) -> String {
    format!("(others {})", end(side))
}

/// What an accepted list says.
#[derive(Clone, Debug, PartialEq, Eq)]
pub struct Ends {
    /// By code, for those that a line names.
    pub named: Vec<(u32, u32)>,
    pub others: u32,
}

impl Ends {
    /// The side for a tag, by the second to fourth of its ten digits.
    pub fn of(&self, tag: u64) -> u32 {
        let digits = format!("{tag:010}");
        let code: u32 = digits[1..4].parse().expect("three digits");
        let line = self.named.iter().find(|(named, _)| *named == code);
        line.map_or(self.others, |&(_, side)| side)
    }
}

/// A line of one of the two forms: the code and the side, or the side.
#[derive(Clone, Copy)]
pub enum Form {
    Airline(u32, u32),
    Others(u32),
}

/// The form whose text a line is.
pub fn form(line: &[u8]) -> Option<Form> {
    let line = std::str::from_utf8(line).ok()?;
    let digits: String = line.chars().filter(char::is_ascii_digit).collect();
    [LEFT, RIGHT]
        .into_iter()
        .find_map(|side| match digits.len() {
            0 if line == others(side) => Some(Form::Others(side)),
            3 if line == airline(&digits, side) => Some(Form::Airline(digits.parse().ok()?, side)),
            _ => None,
        })
}

/// The lines of a list; a line feed at the very end opens none.
pub fn cut(list: &[u8]) -> Vec<&[u8]> {
    let mut lines: Vec<&[u8]> = list.split(|&byte| byte == b'\n').collect();
    if lines.last().is_some_and(|last| last.is_empty()) {
        lines.pop();
    }
    lines
}

/// What a list says, or the number and the line of its first fault. Every fault of every line is looked for.
pub fn read(list: &[u8]) -> Result<Ends, (u32, u32)> {
    let lines = cut(list);
    if lines.is_empty() {
        return Err((27, 1));
    }
    let mut ends = Ends {
        named: Vec::new(),
        others: LEFT,
    };
    let mut faults = Vec::new();
    for (place, line) in lines.iter().enumerate() {
        let mut fault = |number: u32| faults.push((place as u32 + 1, number));
        let is_last = place + 1 == lines.len();
        let form = form(line);
        if form.is_none() || place >= MOST {
            fault(27);
        }
        if let Some(Form::Airline(code, side)) = form {
            if ends.named.iter().any(|&(named, _)| named == code) {
                fault(28);
            }
            ends.named.push((code, side));
        }
        let closes = matches!(form, Some(Form::Others(_)));
        if closes != is_last {
            fault(29);
        }
        if let Some(Form::Others(side)) = form {
            ends.others = side;
        }
    }
    match faults.iter().min() {
        None => Ok(ends),
        Some(&(line, number)) => Err((number, line)),
    }
}

/// The lines of an accepted list with so many of them, in any order; a code of few digits is as likely as another.
pub fn lines(random: &mut Random, count: usize) -> Vec<String> {
    let mut codes = Vec::new();
    while codes.len() + 1 < count {
        let most = random.pick(&[100, 1000]);
        let code = random.below(most);
        if !codes.contains(&code) {
            codes.push(code);
        }
    }
    let airlines = codes
        .iter()
        .map(|code| airline(&format!("{code:03}"), random.below(2)));
    let mut lines: Vec<String> = airlines.collect();
    lines.push(others(random.below(2)));
    lines
}

/// The bytes of lines that each end with a line feed.
pub fn text(lines: &[String]) -> Vec<u8> {
    let ended = lines.iter().map(|line| format!("{line}\n"));
    ended.collect::<String>().into_bytes()
}

/// Lists of every count of lines up to 70, accepted up to 64; with and without the line feed at the very end, and with
/// one more.
pub fn of_every_length(random: &mut Random, mut show: impl FnMut(&[u8])) {
    show(b"");
    for count in 1..=70 {
        let list = text(&lines(random, count));
        show(&list);
        show(&list[..list.len() - 1]);
        show(&[&list[..], b"\n"].concat());
        show(&[&list[..], b"\n\n"].concat());
        show(&vec![b'\n'; count]);
    }
}

/// Two short lists that have each form at each end: every byte with every other in its place, left out, doubled, and with
/// another before it.
pub fn with_other_bytes(random: &mut Random, mut show: impl FnMut(&[u8])) {
    for closing in [LEFT, RIGHT] {
        let one = random.below(1000);
        let other = (one + 1 + random.below(999)) % 1000;
        let [one, other] = [one, other].map(|code| format!("{code:03}"));
        let lines = [airline(&one, LEFT), airline(&other, RIGHT), others(closing)];
        with_other_bytes_of(&text(&lines), &mut show);
    }
}

fn with_other_bytes_of(list: &[u8], show: &mut impl FnMut(&[u8])) {
    for at in 0..list.len() {
        let (before, from) = list.split_at(at);
        for byte in 0..=u8::MAX {
            show(&[before, &[byte], &from[1..]].concat());
        }
        show(&[before, &from[1..]].concat());
        for byte in [from[0], b' ', b'\r', b'\n', b'\t', b'0', b')', 0] {
            show(&[before, &[byte], from].concat());
        }
        show(before);
        show(from);
    }
    for byte in [b' ', b'\r', b'\n', b')', 0] {
        show(&[list, &[byte]].concat());
    }
}

/// Lines that are neither form.
pub fn bad_lines() -> Vec<String> {
    let mut lines: Vec<String> = [
        "",
        " ",
        "(airline)",
        "(others)",
        "(others )",
        "(others)right",
        "others right",
        "(others  right)",
        "(others right left)",
        "(Others right)",
        "(others RIGHT)",
        "(others righ)",
        "(others rightt)",
        "(others middle)",
        "(airline 125 left)",
        "(airline (code 125))",
        "(airline (code 125)left)",
        "(airline(code 125) left)",
        "(airline  (code 125) left)",
        "(airline (code  125) left)",
        "(airline (code 125 ) left)",
        "(airline (code 125)  left)",
        "(airline (code 125) left )",
        "(airline (code 125) lef)",
        "(airline (code 125) lefft)",
        "(airline (code 125) rleft)",
        "(airline (code 125) leftright)",
        "(airline (code 125) left) ; north",
        "(airline (code 125) left)(others right)",
        "(lane)",
    ]
    .map(String::from)
    .to_vec();
    for code in [
        "",
        "1",
        "12",
        "1234",
        "0125",
        "+12",
        "-12",
        "12a",
        "a12",
        "1 2",
        "1.5",
        "12/",
        ":12",
        "0000000125",
        "\u{661}",
    ] {
        lines.extend([LEFT, RIGHT].map(|side| airline(code, side)));
    }
    for good in [airline("125", LEFT), airline("125", RIGHT)] {
        lines.extend(around(&good));
    }
    for good in [others(LEFT), others(RIGHT)] {
        lines.extend(around(&good));
    }
    lines
}

/// A line with something before or after it.
fn around(line: &str) -> Vec<String> {
    let after = [" ", "\r", "\t", ")", "\0", "\u{b}"].map(|more| format!("{line}{more}"));
    let before = [" ", "\r", "\t", "(", "\0", "\u{feff}"].map(|more| format!("{more}{line}"));
    [after, before].concat()
}

/// A line that is neither form in every place of lists of few lines, and about the 64th of long ones.
pub fn with_bad_lines(random: &mut Random, mut show: impl FnMut(&[u8])) {
    for bad in bad_lines() {
        for (count, place) in places(&[1, 2, 3, 64, 65]) {
            let mut list = lines(random, count);
            list[place].clone_from(&bad);
            show_ended(&list, &mut show);
        }
    }
}

/// Lines ended as in another system: all of them, or one.
pub fn with_carriage_returns(random: &mut Random, mut show: impl FnMut(&[u8])) {
    for count in [1, 2, 3, 64] {
        let list = lines(random, count);
        show_ended(&[format!("{}\r", list.join("\r\n"))], &mut show);
        show_ended(&[list.join("\r")], &mut show);
        for place in 0..count {
            let mut list = list.clone();
            list[place].push('\r');
            show_ended(&list, &mut show);
        }
    }
}

/// A code that two lines have, for every two places of lists of few and of 64 lines, at the same end or not; the later
/// one may be the last line. Of longer lists it is about the 64th.
pub fn with_doubled_codes(random: &mut Random, mut show: impl FnMut(&[u8])) {
    for count in [2, 3, 4, 5, 64, 65, 66] {
        let first = if count > MOST { MOST - 2 } else { 1 };
        for later in first..count {
            for earlier in 0..later {
                let mut list = lines(random, count);
                let code = list[earlier][15..18].to_string();
                list[later] = airline(&code, random.below(2));
                show_ended(&list, &mut show);
            }
        }
    }
}

/// Closing lines in every place but the last, with one at the end or an airline's line there.
pub fn with_closing_lines(random: &mut Random, mut show: impl FnMut(&[u8])) {
    for count in [1, 2, 3, 4, 16, 63, 64, 65, 66] {
        let closed = lines(random, count);
        let open = lines(random, count + 1)[..count].to_vec();
        for list in [closed, open] {
            show_ended(&list, &mut show);
            for place in 0..count {
                let mut list = list.clone();
                list[place] = others(random.below(2));
                show_ended(&list, &mut show);
                list.insert(place, others(random.below(2)));
                show_ended(&list, &mut show);
            }
        }
    }
}

/// A list of any lines, mostly few, with any faults or none.
pub fn any(random: &mut Random) -> Vec<u8> {
    let count = match random.below(8) {
        0 => 60 + random.below(11),
        1 => 1 + random.below(70),
        _ => 1 + random.below(8),
    };
    let mut list = lines(random, count as usize);
    for _ in 0..random.pick(&[0, 0, 1, 1, 2, 3]) {
        let place = random.below(list.len() as u32) as usize;
        let other = random.below(list.len() as u32) as usize;
        let code = format!("{:03}", random.below(1000));
        match random.below(9) {
            0 => {
                let mut bad = bad_lines();
                list[place] = bad.swap_remove(random.below(bad.len() as u32) as usize);
            }
            1 => list[place] = list[other].clone(),
            2 => list[place] = others(random.below(2)),
            3 => list[place] = airline(&code, random.below(2)),
            4 => list.swap(place, other),
            5 => list.insert(place, list[other].clone()),
            6 => list[place].push('\r'),
            7 if list.len() > 1 => drop(list.remove(place)),
            _ => drop(list[place].pop()),
        }
    }
    let mut bytes = text(&list);
    if random.once_in(3) {
        bytes.pop();
    }
    if random.once_in(8) && !bytes.is_empty() {
        let at = random.below(bytes.len() as u32) as usize;
        bytes[at] = random.next() as u8;
    }
    if random.once_in(16) {
        bytes.push(random.pick(b"\n\n\r ("));
    }
    bytes
}

/// Every place of short lists, and those from the 62nd line on of long ones.
fn places(counts: &[usize]) -> Vec<(usize, usize)> {
    let all = counts
        .iter()
        .flat_map(|&count| (0..count).map(move |place| (count, place)));
    all.filter(|&(count, place)| count < MOST || !(2..=60).contains(&place))
        .collect()
}

/// The list with and without the line feed at its very end.
fn show_ended(lines: &[String], show: &mut impl FnMut(&[u8])) {
    let list = text(lines);
    show(&list);
    show(&list[..list.len() - 1]);
}
