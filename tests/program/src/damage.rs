//! Damage to lines: bytes deleted, doubled, changed and inserted, words exchanged, numbers near and past every limit.

use crate::common::random::Random;

/// Bytes that a reader might treat in a way of its own.
const BYTES: &[u8] = b"()() \t\r\n\0\x0b\x0c\x1a\x7f\x80\xa0\xff0123456789/:+-._,;'\"aAlLxX";
/// Every word of the forms, and some that are none.
const WORDS: [&[u8]; 17] = [
    b"start", b"begin", b"tick", b"lane", b"slots", b"tasks", b"growth", b"push", b"pop", b"add",
    b"remove", b"left", b"right", b"run", b"read", b"", b"lanes",
];

/// The same lines with one to three edits in every so many.
pub fn damaged(random: &mut Random, input: &[u8], every: u32) -> Vec<u8> {
    let mut output = Vec::new();
    for line in input.split_inclusive(|&byte| byte == b'\n') {
        let mut line = line.to_vec();
        if random.once_in(every) {
            for _ in 0..1 + random.below(3) {
                edit(random, &mut line);
            }
        }
        output.extend(line);
    }
    output
}

/// One edit, at any place of the line and its line feed.
fn edit(random: &mut Random, line: &mut Vec<u8>) {
    if line.is_empty() {
        return;
    }
    let at = random.below(line.len() as u32) as usize;
    let near = |random: &mut Random| random.pick(BYTES);
    let any = |random: &mut Random| random.next() as u8;
    match random.below(12) {
        0 => drop(line.remove(at)),
        1 => line.insert(at, line[at]),
        2 => line[at] = any(random),
        3 => line[at] = near(random),
        4 => line.insert(at, any(random)),
        5 => line.insert(at, near(random)),
        6 => line[at] ^= 0x20, // the other case of a letter
        7 => line.swap(at, at.saturating_sub(1)),
        8 => line.truncate(at),
        9 => replace(random, line, u8::is_ascii_alphabetic, |random, _| {
            random.pick(&WORDS).to_vec()
        }),
        _ => replace(random, line, u8::is_ascii_digit, number),
    }
}

/// Puts another text in the place of one run of bytes of a kind.
fn replace(
    random: &mut Random,
    line: &mut Vec<u8>,
    of_kind: fn(&u8) -> bool,
    other: fn(&mut Random, &[u8]) -> Vec<u8>,
) {
    let starts: Vec<usize> = (0..line.len())
        .filter(|&at| of_kind(&line[at]) && (at == 0 || !of_kind(&line[at - 1])))
        .collect();
    if starts.is_empty() {
        return;
    }
    let from = random.pick(&starts);
    let length = line[from..].iter().take_while(|byte| of_kind(byte)).count();
    let text = other(random, &line[from..from + length]);
    line.splice(from..from + length, text);
}

/// Another number in the place of one: equal, near a limit, equal to it in 32 or 64 bits, or about as wide as a tag.
fn number(random: &mut Random, digits: &[u8]) -> Vec<u8> {
    let value = String::from_utf8_lossy(digits).parse::<u64>().unwrap_or(0);
    let value = u128::from(value);
    let few = u128::from(random.below(3));
    let zeros = random.pick(&[1, 2, 30, 1000, 5000, 70_000]);
    let text = match random.below(15) {
        0 => format!("{}{value}", "0".repeat(zeros)),
        1 => format!("{value}{}", "0".repeat(1 + random.below(25) as usize)),
        2 => format!("{}", (1 << 32) - 2 + few),
        3 => format!("{}", (1 << 32) + value),
        4 => format!("{}", (1 << 33) + value),
        5 => format!("{}", (1 << 64) - 2 + few),
        6 => format!("{}", (1 << 64) + value),
        7 => format!("{}{}", "0".repeat(zeros), (1 << 64) + value),
        8 => format!("{}", few),
        9 => format!("{}", 999 + few),
        10 => format!("{}", 999_999_998 + few),
        11 => format!("{}", 9_999_999_998 + few),
        12 => format!("{:0width$}", value, width = 9 + random.below(3) as usize),
        13 => format!("{:010}", few << 32),
        _ => format!("{}", random.word()),
    };
    text.into_bytes()
}

/// Bytes from anywhere: all values, or the few that forms are made of, with a form here and there.
pub fn noise(random: &mut Random, length: usize) -> Vec<u8> {
    let all = random.once_in(2);
    let mut output = b"(start (slots 5) (tasks 1) (growth 0))\n".to_vec();
    while output.len() < length {
        match random.below(40) {
            0 => output.push(b'\n'),
            1 => output.extend(random.pick(&WORDS)),
            2 => output.extend(b"\n(lane)\n"),
            3 => {
                let tag = u64::from(1 + random.below(9)) << (4 * random.below(9));
                let lines = format!("\n(begin 0 (push left {tag:010}))\n(tick 0 0 9)\n");
                output.extend(lines.as_bytes());
            }
            _ if all => output.push(random.next() as u8),
            _ => output.push(random.pick(BYTES)),
        }
    }
    output
}
