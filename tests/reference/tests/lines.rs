//! The line program's reader and printer.

mod common;

use common::random::Random;
use reference::lines::{serve, Program};

fn output(input: &[u8]) -> String {
    let mut output = Vec::new();
    serve(input, &mut output).expect("serve");
    String::from_utf8(output).expect("text")
}

/// Answers of lines, each ended by a line feed.
fn answers(lines: &[&str]) -> Vec<String> {
    let input: String = lines.iter().map(|line| format!("{line}\n")).collect();
    let output = output(input.as_bytes());
    assert!(output.is_empty() || output.ends_with('\n'));
    output.lines().map(String::from).collect()
}

const START: &str = "(start (slots 4) (tasks 2) (growth 0))";

#[test]
fn lines_that_are_no_form() {
    for line in [
        "",
        " ",
        "()",
        "(",
        ")",
        "lane",
        "(lane",
        "lane)",
        "(lane) ",
        " (lane)",
        "( lane)",
        "(lane )",
        "((lane))",
        "(lane)(lane)",
        "(lane) (lane)",
        "(lane 0)",
        "(Lane)",
        "(LANE)",
        "(lane)\r",
        "(lane)\t",
        "(lane)\0",
        "(read)",
        "(run 0 0)",
        "(ok)",
        "(unread)",
        "51",
        "(start)",
        "(start 4 1 0)",
        "(start (slots 4) (tasks 1))",
        "(start (slots 4) (tasks 1) (growth 0)",
        "(start (slots 4) (tasks 1) (growth 0)))",
        "(start (slots 4)(tasks 1)(growth 0))",
        "(start (slots 4)  (tasks 1) (growth 0))",
        "(start  (slots 4) (tasks 1) (growth 0))",
        "(start (tasks 1) (slots 4) (growth 0))",
        "(start (slots  4) (tasks 1) (growth 0))",
        "(start (slots 4 ) (tasks 1) (growth 0))",
        "(start (slots ) (tasks 1) (growth 0))",
        "(start (slots) (tasks 1) (growth 0))",
        "(start (slots 4) (tasks 1) (growth 0) (more 0))",
        "(Start (slots 4) (tasks 1) (growth 0))",
        "(begin 0)",
        "(begin 0 push right 0000000051)",
        "(begin 0 (push right))",
        "(begin 0 (push right 0000000051)",
        "(begin 0 (push right 0000000051)))",
        "(begin 0 (push right 0000000051) )",
        "(begin 0 (push right 0000000051 ))",
        "(begin 0 (push  right 0000000051))",
        "(begin 0 (push right  0000000051))",
        "(begin 0 (push right 0000000051 0000000052))",
        "(begin 0 (pushright 0000000051))",
        "(begin 0 (push 1 0000000051))",
        "(begin 0 (1 right 0000000051))",
        "(begin 0 (push up 0000000051))",
        "(begin 0 (Push right 0000000051))",
        "(begin 0 (peek right 0))",
        "(begin 0 (pop left))",
        "(begin (push right 0000000051))",
        "(begin x (push right 0000000051))",
        "(begin 0(push right 0000000051))",
        "(begin 0 (push right -000000051))",
        "(begin 0 (push right +000000051))",
        "(begin 0 (push right 00000 0051))",
        "(begin 0 (push right 0,000,000,051))",
        "(begin 0 (push right 00000000_51))",
        "(begin 0 (push right 0x00000033))",
        "(begin 0 (push right 0000000051.0))",
        "(begin 0 (push right 00000000\u{0665}\u{0661}))",
        "(tick)",
        "(tick 0)",
        "(tick 0 0)",
        "(tick 0 0 )",
        "(tick 0 0 1 1)",
        "(tick 0 0 1) ",
        "(tick  0 0 1)",
        "(tick 0\t0 1)",
        "(tick -0 0 1)",
        "(tick 0 0 -1)",
        "(tick(0 0 1))",
    ] {
        let mut program = Program::default();
        assert_eq!(program.answer(line.as_bytes()), "(unread)", "{line:?}");
        // An unread line changes nothing later.
        assert_eq!(program.answer(START.as_bytes()), "(ok)");
        assert_eq!(program.answer(line.as_bytes()), "(unread)", "{line:?}");
        assert_eq!(program.answer(b"(lane)"), "(lane)");
    }
}

#[test]
fn bytes_that_are_no_text() {
    let mut program = Program::default();
    for byte in 0..=255u8 {
        for line in [
            vec![byte],
            [b"(lane)", &[byte][..]].concat(),
            [b"(tick 0 0 1", &[byte][..], b")"].concat(),
        ] {
            let digits = line.starts_with(b"(tick") && byte.is_ascii_digit();
            if byte != b'\n' && !digits {
                assert_eq!(program.answer(&line), "(unread)", "{byte}");
            }
        }
    }
    assert_eq!(output(b"\xff\xfe\n(lane)\n"), "(unread)\n(refused 3)\n");
}

#[test]
fn numbers() {
    assert_eq!(
        answers(&[
            "(start (slots 0004) (tasks 01) (growth 00))",
            "(begin 000 (push right 0000000051))",
            "(tick 00 03 0011)",
            "(lane)",
            "(start (slots 4294967295) (tasks 1) (growth 0))",
            "(start (slots 4294967296) (tasks 1) (growth 0))",
            "(start (slots 4) (tasks 4294967296) (growth 0))",
            "(start (slots 4) (tasks 1) (growth 4294967296))",
            "(begin 4294967295 (push right 0000000052))",
            "(begin 4294967296 (push right 0000000052))",
            "(begin 0 (add right 00000000000064))",
            "(tick 0 0 1000)",
            "(begin 0 (add right 4294967295))",
            "(begin 0 (remove right 4294967296))",
            "(begin 0 (pop right 00000000000))",
            "(tick 0 0 1)",
            "(begin 0 (pop right 99999999999999999999999999999999999999999))",
            "(begin 0 (add right 18446744073709551617))",
            "(tick 4294967295 0 1)",
            "(tick 4294967296 0 1)",
            "(tick 0 4294967295 1)",
            "(tick 0 4294967296 1)",
            "(tick 0 0 4294967296)",
            "(lane)",
        ]),
        [
            "(ok)",
            "(ok)",
            "(pushed)",
            "(lane 0000000051)",
            "(refused 1)",
            "(unread)",
            "(unread)",
            "(unread)",
            "(refused 5)",
            "(unread)",
            "(ok)",
            "(yes)",
            "(refused 7)",
            "(unread)",
            "(ok)",
            "(going)",
            "(unread)",
            "(unread)",
            "(refused 5)",
            "(unread)",
            "(refused 9)",
            "(unread)",
            "(unread)",
            "(lane 0000000051)",
        ]
    );
}

/// A tag has ten digits: another width is unread before anything else, and the top of other numbers does not bind it.
#[test]
fn tags() {
    assert_eq!(
        answers(&[
            "(begin 0 (push right 51))",
            "(begin 0 (push right 0000000051))",
            START,
            "(begin 0 (push right 0))",
            "(begin 0 (push right 51))",
            "(begin 0 (push right 999999999))",
            "(begin 9 (push right 999999999))",
            "(begin 0 (push right 00000000051))",
            "(begin 0 (push right 99999999999))",
            "(begin 0 (push right 10000000000))",
            "(begin 0 (push right 18446744073709551667))",
            "(begin 0 (push right 0000000000))",
            "(begin 9 (push right 0000000000))",
            "(begin 0 (push right 9999999999))",
            "(tick 0 0 1000)",
            "(begin 0 (push right 4294967296))",
            "(begin 1 (push right 4294967296))",
            "(tick 0 0 1000)",
            "(lane)",
            "(begin 0 (pop right 0))",
            "(tick 0 0 1000)",
            "(begin 0 (push right 1000000000))",
            "(tick 0 0 1000)",
            "(lane)",
            "(begin 0 (pop right 0))",
            "(tick 0 0 1000)",
            "(begin 0 (pop left 0))",
            "(tick 0 0 1000)",
        ]),
        [
            "(unread)",
            "(refused 3)",
            "(ok)",
            "(unread)",
            "(unread)",
            "(unread)",
            "(unread)",
            "(unread)",
            "(unread)",
            "(unread)",
            "(unread)",
            "(refused 7)",
            "(refused 5)",
            "(ok)",
            "(pushed)",
            "(ok)",
            "(refused 16)",
            "(pushed)",
            "(lane 9999999999 4294967296)",
            "(ok)",
            "(bag 4294967296)",
            "(ok)",
            "(pushed)",
            "(lane 9999999999 1000000000)",
            "(ok)",
            "(bag 1000000000)",
            "(ok)",
            "(bag 9999999999)",
        ]
    );
}

#[test]
fn times() {
    assert_eq!(
        answers(&[
            START,
            "(begin 0 (push left 0000000051))",
            "(tick 0 0 0)",
            "(tick 0 0 1001)",
            "(tick 0 0 4294967295)",
            "(tick 9 9 1001)",
            "(tick 0 0 10)",
            "(tick 0 0 1000)",
            "(tick 0 0 1000)",
        ]),
        [
            "(ok)",
            "(ok)",
            "(unread)",
            "(unread)",
            "(unread)",
            "(unread)",
            "(going)",
            "(pushed)",
            "(refused 10)",
        ]
    );
}

#[test]
fn before_an_accepted_start() {
    assert_eq!(
        answers(&[
            "(lane)",
            "(begin 0 (push right 0000000051))",
            "(begin 99 (push right 0000000000))",
            "(tick 0 0 1)",
            "(tick 0 0 1001)",
            "(start (slots 1) (tasks 1) (growth 0))",
            "(lane)",
            "(start (slots 2) (tasks 0) (growth 0))",
            "(tick 0 0 1)",
            "(start (slots 2) (tasks 1) (growth 65))",
            "(begin 0 (pop left 0))",
            "(start (slots 2) (tasks 1) (growth 64))",
            "(lane)",
        ]),
        [
            "(refused 3)",
            "(refused 3)",
            "(refused 3)",
            "(refused 3)",
            "(unread)",
            "(refused 1)",
            "(refused 3)",
            "(refused 1)",
            "(refused 3)",
            "(refused 1)",
            "(refused 3)",
            "(ok)",
            "(lane)",
        ]
    );
}

#[test]
fn a_start_that_is_refused_keeps_the_table() {
    assert_eq!(
        answers(&[
            START,
            "(begin 1 (push left 0000000007))",
            "(tick 1 0 1000)",
            "(start (slots 1025) (tasks 1) (growth 0))",
            "(lane)",
            "(start (slots 3) (tasks 1) (growth 0))",
            "(lane)",
            "(begin 1 (push left 0000000007))",
        ]),
        [
            "(ok)",
            "(ok)",
            "(pushed)",
            "(refused 1)",
            "(lane 0000000007)",
            "(ok)",
            "(lane)",
            "(refused 5)",
        ]
    );
}

#[test]
fn a_push_of_a_tag_that_is_there() {
    assert_eq!(
        answers(&[
            START,
            "(begin 0 (push right 0000000051))",
            "(begin 1 (push left 0000000051))",
            "(begin 0 (push right 0000000051))",
            "(begin 0 (push right 1000000051))",
            "(begin 1 (push left 0000000000))",
            "(tick 0 0 1000)",
            "(begin 1 (push left 0000000051))",
            "(begin 1 (add left 51))",
            "(begin 0 (pop left 0))",
            "(tick 0 0 3)",
            "(begin 0 (push right 0000000051))",
            "(tick 0 0 1)",
            "(begin 0 (push right 0000000051))",
            "(tick 1 0 1000)",
            "(begin 1 (push right 2000000051))",
        ]),
        [
            "(ok)",
            "(ok)",
            "(refused 16)",
            "(refused 16)",
            "(refused 8)",
            "(refused 7)",
            "(pushed)",
            "(refused 16)",
            "(ok)",
            "(ok)",
            "(going)",
            "(refused 16)",
            "(bag 0000000051)",
            "(ok)",
            "(yes)",
            "(ok)",
        ]
    );
}

#[test]
fn every_answer_is_printed() {
    assert_eq!(
        answers(&[
            "(start (slots 4) (tasks 1) (growth 2))",
            "(begin 0 (push left 0000000001))",
            "(tick 0 0 1000)",
            "(begin 0 (push right 9999999999))",
            "(tick 0 0 1000)",
            "(lane)",
            "(begin 0 (add left 64))",
            "(begin 0 (add left 64))",
            "(tick 0 0 1000)",
            "(begin 0 (push right 0000000002))",
            "(tick 0 0 1000)",
            "(begin 0 (pop right 0))",
            "(tick 0 0 1000)",
            "(begin 0 (pop left 0))",
            "(tick 0 3 3)",
            "(tick 0 3 1)",
            "(begin 0 (pop right 0))",
            "(tick 0 4 1)",
            "(tick 0 0 4)",
            "(begin 0 (remove right 1023))",
            "(tick 0 0 1000)",
            "(begin 0 (remove right 1024))",
            "(begin 0 (add right 65))",
            "(begin 0 (pop right 1))",
        ]),
        [
            "(ok)",
            "(ok)",
            "(pushed)",
            "(ok)",
            "(full)",
            "(lane 0000000001)",
            "(ok)",
            "(refused 8)",
            "(no)",
            "(ok)",
            "(full)",
            "(ok)",
            "(bag 0000000001)",
            "(ok)",
            "(going)",
            "(empty)",
            "(ok)",
            "(refused 9)",
            "(empty)",
            "(ok)",
            "(yes)",
            "(refused 7)",
            "(refused 7)",
            "(refused 7)",
        ]
    );
}

#[test]
fn where_lines_end() {
    assert_eq!(output(b""), "");
    assert_eq!(output(b"\n"), "(unread)\n");
    assert_eq!(output(b"\n\n"), "(unread)\n(unread)\n");
    assert_eq!(output(b"(lane)"), "(refused 3)\n");
    assert_eq!(output(b"(lane)\n"), "(refused 3)\n");
    assert_eq!(output(b"(lane)\n\n"), "(refused 3)\n(unread)\n");
    assert_eq!(output(b"(lane)\n(lane"), "(refused 3)\n(unread)\n");
    assert_eq!(output(b"(lane)\r\n(lane)\r"), "(unread)\n(unread)\n");
    assert_eq!(output(b"(lane)\r(lane)\n"), "(unread)\n");
    assert_eq!(output(b"\r\n"), "(unread)\n");
}

#[test]
fn very_long_lines() {
    let zeros = "0".repeat(1_000_000);
    let nines = "9".repeat(1_000_000);
    let spaces = " ".repeat(1_000_000);
    let brackets = "(".repeat(1_000_000);
    assert_eq!(
        answers(&[
            START,
            &format!("(begin {zeros} (push right {zeros}51))"),
            &format!("(begin {zeros} (push right 0000000051))"),
            &format!("(tick {zeros} {zeros}3 {zeros}1000)"),
            &format!("(tick {nines} 0 1)"),
            &format!("(tick 0 0 {zeros}1001)"),
            &format!("(lane){spaces}"),
            &format!("{spaces}(lane)"),
            &brackets,
            "(lane)",
        ]),
        [
            "(ok)",
            "(unread)",
            "(ok)",
            "(pushed)",
            "(unread)",
            "(unread)",
            "(unread)",
            "(unread)",
            "(unread)",
            "(lane 0000000051)",
        ]
    );
}

#[test]
fn a_long_deque() {
    let mut program = Program::default();
    let start = b"(start (slots 1024) (tasks 1) (growth 64))";
    assert_eq!(program.answer(start), "(ok)");
    let mut wanted = String::from("(lane");
    // All nodes but one sentinel at each end carry a tag.
    for tag in 9_999_998_978u64..=9_999_999_999 {
        let begin = format!("(begin 0 (push right {tag}))");
        assert_eq!(program.answer(begin.as_bytes()), "(ok)");
        assert_eq!(program.answer(b"(tick 0 0 1000)"), "(pushed)");
        wanted.push_str(&format!(" {tag}"));
    }
    wanted.push(')');
    assert_eq!(program.answer(b"(lane)"), wanted);
    assert_eq!(program.answer(b"(begin 0 (push right 0000000051))"), "(ok)");
    assert_eq!(program.answer(b"(tick 0 0 1000)"), "(full)");
    assert_eq!(program.answer(b"(lane)"), wanted);
}

/// What the reader should take, said another way: with every run of digits as
/// one sign the line is one of a few, its numbers are in range and its tag is ten digits wide.
fn readable(line: &[u8]) -> bool {
    let mut shape = Vec::new();
    let mut runs: Vec<String> = Vec::new();
    for &byte in line {
        if byte.is_ascii_digit() {
            if shape.last() != Some(&b'#') {
                shape.push(b'#');
                runs.push(String::new());
            }
            runs.last_mut().expect("a run").push(byte.into());
        } else if byte == b'#' {
            return false;
        } else {
            shape.push(byte);
        }
    }
    let mut known = vec![
        String::from("(start (slots #) (tasks #) (growth #))"),
        String::from("(tick # # #)"),
        String::from("(lane)"),
    ];
    for operation in ["push", "pop", "add", "remove"] {
        for side in ["left", "right"] {
            known.push(format!("(begin # ({operation} {side} #))"));
        }
    }
    let is_push = shape.starts_with(b"(begin # (push");
    let tag = is_push.then(|| runs.pop()).flatten();
    // A number too long for this one is too large.
    let numbers: Vec<u64> = runs
        .iter()
        .map(|run| run.parse().unwrap_or(u64::MAX))
        .collect();
    let times = shape.starts_with(b"(tick").then(|| numbers.last());
    known.iter().any(|known| known.as_bytes() == shape)
        && numbers.iter().all(|&number| number <= 4_294_967_295)
        && tag.is_none_or(|tag| tag.len() == 10)
        && times
            .flatten()
            .is_none_or(|times| (1..=1000).contains(times))
}

#[test]
fn spoilt_lines() {
    let mut random = Random::new(31);
    let good = [
        START,
        "(begin 0 (push right 0000000051))",
        "(begin 1 (push left 9999999999))",
        "(begin 1 (remove left 2))",
        "(begin 1 (pop left 0))",
        "(begin 0 (add right 64))",
        "(tick 0 0 10)",
        "(tick 1 3 1000)",
        "(tick 4294967295 4294967295 1)",
        "(lane)",
    ];
    let mut program = Program::default();
    let mut counts = [0; 2];
    for _ in 0..20_000 {
        let mut line = random.pick(&good).as_bytes().to_vec();
        for _ in 0..random.below(3) {
            let at = random.below(line.len() as u32) as usize;
            match random.below(5) {
                0 => line[at] = random.below(256) as u8,
                1 => line[at] = b'0' + random.below(10) as u8,
                2 => {
                    line.remove(at);
                }
                3 => line.insert(at, line[at]),
                _ => line.insert(at, b'0' + random.below(10) as u8),
            }
        }
        let read = program.answer(&line) != "(unread)";
        let text = String::from_utf8_lossy(&line);
        assert_eq!(read, readable(&line), "{text}");
        counts[usize::from(read)] += 1;
    }
    assert!(counts[0] > 2000 && counts[1] > 2000, "{counts:?}");
}
