//! The worked example of the paper, byte for byte.

use std::io::{BufRead, BufReader, Write};
use std::process::{Command, Stdio};

use reference::lines::serve;

const INPUT: &str = "\
(start (slots 4) (tasks 1) (growth 0))
(begin 0 (push right 0000000051))
(tick 0 0 10)
(tick 0 0 1)
(lane)
(begin 0 (pop left 0))
(tick 0 0 4)
(begin 0 (pop right 0))
(tick 0 0 4)
(tick 0 0 1)
";

const OUTPUT: &str = "\
(ok)
(ok)
(going)
(pushed)
(lane 0000000051)
(ok)
(bag 0000000051)
(ok)
(empty)
(refused 10)
";

#[test]
fn through_the_library() {
    let mut output = Vec::new();
    serve(INPUT.as_bytes(), &mut output).expect("serve");
    assert_eq!(output, OUTPUT.as_bytes());
}

#[test]
fn through_the_program() {
    let mut child = program();
    let mut input = child.stdin.take().expect("input");
    input.write_all(INPUT.as_bytes()).expect("write");
    drop(input);
    let output = child.wait_with_output().expect("output");
    assert!(output.status.success());
    assert_eq!(output.stdout, OUTPUT.as_bytes());
    assert_eq!(output.stderr, b"");
}

/// Each answer comes before the next line is typed.
#[test]
fn line_by_line() {
    let mut child = program();
    let mut input = child.stdin.take().expect("input");
    let mut output = BufReader::new(child.stdout.take().expect("output"));
    for (line, wanted) in INPUT.lines().zip(OUTPUT.lines()) {
        writeln!(input, "{line}").expect("write");
        input.flush().expect("flush");
        let mut answer = String::new();
        output.read_line(&mut answer).expect("read");
        assert_eq!(answer.trim_end_matches('\n'), wanted);
    }
    drop(input);
    assert!(child.wait().expect("end").success());
}

fn program() -> std::process::Child {
    Command::new(env!("CARGO_BIN_EXE_lane"))
        .stdin(Stdio::piped())
        .stdout(Stdio::piped())
        .stderr(Stdio::piped())
        .spawn()
        .expect("the program starts")
}
