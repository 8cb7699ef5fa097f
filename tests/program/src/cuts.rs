//! Lines cut by the end of a read, at every place.

use crate::common::random::Random;
use crate::damage;
use crate::session::Session;
use crate::trials::{Trials, Verdict};

/// Every form, read and unread, with leading zeros, numbers past the limits and tags of every width.
const LINES: &str = "\
(start (slots 14) (tasks 03) (growth 2))
(begin 2 (push right 999999999))
(begin 2 (push right 09999999999))
(begin 2 (push right 9999999999))
(begin 0 (push left 0000000000))
(tick 2 013 1000)

(begin 001 (add left 12))
(tick 1 4294967295 1)
(tick 4294967296 0 1)
(begin 0 (add right 18446744073709551667))
(begin 0 (remove left 0))
(tick 0 0 1001)
(tick 1 0 20)
(lane )
(begin 2 (pop left 0))
(lane)
(tick 2 9 4)
(lane)
";
/// Reads of a file end at multiples of the program's buffer, a power of two up to this.
const LARGEST_BUFFER: usize = 65_536;

/// The same lines again and again, each time cut at another place.
pub fn at_every_place(trials: &mut Trials) -> Verdict {
    let lines = LINES.as_bytes();
    let pieces: Vec<&[u8]> = (0..lines.len())
        .flat_map(|at| [&lines[..at], &lines[at..]])
        .collect();
    trials.in_pieces("cut at every place", &pieces)
}

/// A file in which the end of a read falls on every place of the same lines.
pub fn at_ends_of_buffers(trials: &mut Trials) -> Verdict {
    let lines = LINES.as_bytes();
    let mut input = Vec::new();
    for at in 0..=lines.len() {
        let end = (input.len() + lines.len()).next_multiple_of(LARGEST_BUFFER);
        // A line of one kind of byte, so that the lines begin as far before the end as they are to be cut.
        input.resize(end - at - 1, b'0');
        input.push(b'\n');
        input.extend(lines);
    }
    trials.by_file("cut by the end of a buffer", &input)
}

/// A random session in pieces of one size.
pub fn in_sizes(random: &mut Random, trials: &mut Trials) -> Verdict {
    for size in [1, 2, 3, 7, 4095, 4096, 4097, 65_535, 65_536, 65_537] {
        let mut input = Vec::new();
        let wanted = size * if size < 10 { 1500 } else { 4 };
        while input.len() < wanted {
            let session = Session::random(random, 400);
            input.extend(damage::damaged(random, &session.input, 8));
        }
        input.truncate(wanted);
        let pieces: Vec<&[u8]> = input.chunks(size).collect();
        trials.in_pieces("in pieces of one size", &pieces)?;
    }
    Ok(())
}

/// Lines in pieces of random sizes.
pub fn anywhere(random: &mut Random, trials: &mut Trials, input: &[u8]) -> Verdict {
    let mut pieces = Vec::new();
    let mut rest = input;
    while !rest.is_empty() {
        let limit = random.pick(&[2, 30, 1000, 70_000]);
        let length = rest.len().min(1 + random.below(limit) as usize);
        let (piece, after) = rest.split_at(length);
        pieces.push(piece);
        rest = after;
    }
    trials.in_pieces("in pieces of any size", &pieces)
}
