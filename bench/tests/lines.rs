//! The fast line program against the plain one: the same answer to every line, and to lines that come in pieces.

use std::io::{self, Read};

use reference::lines;

/// A deterministic generator, so that a failure can be run again.
struct Random(u64);

impl Random {
    /// A number below the bound.
    fn below(&mut self, bound: u64) -> u64 {
        self.0 = self
            .0
            .wrapping_mul(6_364_136_223_846_793_005)
            .wrapping_add(1);
        (self.0 >> 33) % bound
    }
}

/// A line that can be read, more often than not with numbers that are accepted.
fn line(random: &mut Random) -> String {
    let task = random.below(5);
    let side = ["left", "right"][random.below(2) as usize];
    match random.below(40) {
        0 => format!(
            "(start (slots {}) (tasks 4) (growth {}))",
            random.below(90),
            random.below(66)
        ),
        1..=8 => format!(
            "(begin {task} (push {side} {:010}))",
            random.below(60) * 170_000_001
        ),
        9..=13 => format!("(begin {task} (pop {side} 0))"),
        14 => format!("(begin {task} (add {side} {}))", random.below(8)),
        15 => format!("(begin {task} (remove {side} {}))", random.below(8)),
        16..=18 => String::from("(lane)"),
        _ => format!(
            "(tick {task} {} {})",
            random.below(20),
            1 + random.below(12).pow(3)
        ),
    }
}

/// Lines after a start, some of them with a byte exchanged or cut short.
fn talk(random: &mut Random) -> Vec<u8> {
    let mut talk = b"(start (slots 20) (tasks 4) (growth 1))\n".to_vec();
    for _ in 0..400 {
        let mut line = line(random).into_bytes();
        let at = random.below(line.len() as u64) as usize;
        match random.below(30) {
            0 => line[at] = random.below(256) as u8,
            1 => line.truncate(at),
            _ => {}
        }
        line.retain(|&byte| byte != b'\n');
        talk.extend(line);
        talk.push(b'\n');
    }
    if random.below(2) == 0 {
        talk.pop();
    }
    talk
}

/// Gives its bytes in short pieces, and now and then is interrupted.
struct Pieces<'a>(&'a [u8], Random);

impl Read for Pieces<'_> {
    fn read(&mut self, out: &mut [u8]) -> io::Result<usize> {
        if self.1.below(9) == 0 {
            return Err(io::ErrorKind::Interrupted.into());
        }
        let length = (1 + self.1.below(97) as usize)
            .min(self.0.len())
            .min(out.len());
        let (piece, rest) = self.0.split_at(length);
        out[..length].copy_from_slice(piece);
        self.0 = rest;
        Ok(length)
    }
}

/// What both programs say of an input.
fn both(input: &[u8], random: Random) -> [Vec<u8>; 2] {
    let mut answers = [Vec::new(), Vec::new()];
    fast_lines::serve(Pieces(input, random), &mut answers[0]).expect("no error");
    lines::serve(input, &mut answers[1]).expect("no error");
    answers
}

#[test]
fn both_programs_give_the_same_bytes() {
    let mut random = Random(1);
    let mut said = String::new();
    for seed in 0..60 {
        let [fast, plain] = both(&talk(&mut random), Random(seed));
        assert!(fast == plain, "the programs differ in talk {seed}");
        said.push_str(&String::from_utf8_lossy(&plain));
    }
    for answer in [
        "ok", "going", "pushed", "bag 0", "empty", "full", "yes", "no", "refused", "unread",
        "lane 0",
    ] {
        assert!(
            said.contains(&format!("({answer}")),
            "no answer ({answer} was given"
        );
    }
}

#[test]
fn a_line_longer_than_a_read_is_unread() {
    let mut input = vec![b'('; 200_000];
    input.extend(b"\n(lane)");
    let [fast, plain] = both(&input, Random(1));
    assert_eq!(fast, b"(unread)\n(refused 3)\n");
    assert_eq!(fast, plain);
}
