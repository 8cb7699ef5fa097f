//! The line program of the second program in its fastest form: one buffer in, one out, and many ticks with one test of
//! the table. `reference::lines`, which makes single ticks as the order puts it, serves the tests.

#![forbid(unsafe_code)]
#![warn(missing_docs)]

use std::io::{self, ErrorKind, Read, Write};

use reference::form::{self, Form};
use reference::sheet::ten_digits;
use reference::table::{digit, low_part, Sizes};
use reference::Answer;

/// The program starts one lane, and all calls are on it.
const LANES: u32 = 1;
/// That lane.
const LANE: u32 = 0;
/// Bytes of a read, and of the answers that are written at once.
const BYTES: usize = 65_536;

/// Answers every line of the input, and flushes the answers before a read that may have to wait.
pub fn serve(mut input: impl Read, mut output: impl Write) -> io::Result<()> {
    let mut program = Program::default();
    let mut answers = Vec::with_capacity(2 * BYTES);
    let mut lines = vec![0; BYTES];
    let mut end = 0;
    loop {
        let mut begun = 0;
        while let Some(length) = lines[begun..end].iter().position(|&byte| byte == b'\n') {
            program.answer(&lines[begun..begun + length], &mut answers);
            begun += length + 1;
            if answers.len() >= BYTES {
                output.write_all(&answers)?;
                answers.clear();
            }
        }
        output.write_all(&answers)?;
        output.flush()?;
        answers.clear();
        // What is left is the beginning of a line; a long one gets more room.
        lines.copy_within(begun..end, 0);
        end -= begun;
        if end == lines.len() {
            lines.resize(2 * end, 0);
        }
        match input.read(&mut lines[end..]) {
            Ok(0) => break,
            Ok(length) => end += length,
            Err(error) if error.kind() == ErrorKind::Interrupted => {}
            Err(error) => return Err(error),
        }
    }
    if end > 0 {
        program.answer(&lines[..end], &mut answers);
    }
    output.write_all(&answers)?;
    output.flush()
}

/// The table between lines; empty, and so refused, until a start is accepted.
pub struct Program {
    table: Vec<u32>,
    /// Where a lane is read to.
    tags: Vec<u32>,
}

impl Default for Program {
    fn default() -> Program {
        Program {
            table: Vec::new(),
            tags: vec![0; 2 * Sizes::MAX_NODES],
        }
    }
}

impl Program {
    /// Adds the answer to one line, which has no line feed, and a line feed.
    pub fn answer(&mut self, line: &[u8], out: &mut Vec<u8>) {
        let answered = match form::parse(line) {
            Some(form) => self.call(form, out),
            None => {
                out.extend_from_slice(b"(unread)");
                Ok(())
            }
        };
        if let Err(number) = answered {
            out.extend_from_slice(format!("(refused {number})").as_bytes());
        }
        out.push(b'\n');
    }

    fn call(&mut self, form: Form, out: &mut Vec<u8>) -> Result<(), u32> {
        match form {
            Form::Start {
                nodes,
                tasks,
                growth,
            } => {
                let words = Sizes::new(nodes, tasks, growth, LANES).map_or(0, Sizes::words);
                let mut table = vec![0; words];
                reference::start(&mut table, nodes, tasks, growth, LANES)?;
                self.table = table;
                out.extend_from_slice(b"(ok)");
            }
            Form::Begin {
                task,
                operation,
                side,
                digit,
                argument,
            } => {
                let table = &mut self.table;
                reference::begin(table, task, LANE, operation, side, digit, argument)?;
                out.extend_from_slice(b"(ok)");
            }
            Form::Tick { task, hint, times } => {
                let answer = reference::ticks(&mut self.table, task, hint, times)?;
                print(answer, out);
            }
            Form::Read => self.read(out)?,
        }
        Ok(())
    }

    fn read(&mut self, out: &mut Vec<u8>) -> Result<(), u32> {
        let count = reference::read(&self.table, LANE, &mut self.tags)? as usize;
        out.extend_from_slice(b"(lane");
        for tag in self.tags.chunks_exact(2).take(count) {
            let mut text = [b' '; 11];
            text[1..].copy_from_slice(&ten_digits([tag[1], tag[0]]));
            out.extend_from_slice(&text);
        }
        out.push(b')');
        Ok(())
    }
}

fn print(answer: Answer, out: &mut Vec<u8>) {
    let text: &[u8] = match answer {
        Answer::Going => b"(going)",
        Answer::Pushed => b"(pushed)",
        Answer::Bag(_) => b"(bag ",
        Answer::Empty => b"(empty)",
        Answer::Full => b"(full)",
        Answer::Yes => b"(yes)",
        Answer::No => b"(no)",
    };
    out.extend_from_slice(text);
    if let Answer::Bag(tag) = answer {
        out.extend_from_slice(&ten_digits([low_part(tag), digit(tag)]));
        out.push(b')');
    }
}
