//! The line program: one form a line in, one answer a line out.

use std::io::{self, BufRead, BufReader, Read, Write};

use crate::answer::Answer;
use crate::calls;
use crate::form::{self, Form};
use crate::table::{self, Sizes};

/// The program starts one lane, and all calls are on it.
const LANES: u32 = 1;
/// That lane.
const LANE: u32 = 0;
/// Bytes of a read.
const READ: usize = 65_536;

/// Answers every line of the input, and flushes the answers before a read that may have to wait.
pub fn serve(input: impl Read, mut output: impl Write) -> io::Result<()> {
    let mut input = BufReader::with_capacity(READ, input);
    let mut program = Program::default();
    let mut line = Vec::new();
    while input.read_until(b'\n', &mut line)? > 0 {
        if line.last() == Some(&b'\n') {
            line.pop();
        }
        writeln!(output, "{}", program.answer(&line))?;
        if !input.buffer().contains(&b'\n') {
            output.flush()?;
        }
        line.clear();
    }
    Ok(())
}

/// The table between lines; empty, and so refused, until a start is accepted.
#[derive(Default)]
pub struct Program {
    table: Vec<u32>,
}

impl Program {
    /// The answer to one line, both without a line feed.
    pub fn answer(&mut self, line: &[u8]) -> String {
        match form::parse(line) {
            Some(form) => self
                .call(form)
                .unwrap_or_else(|number| format!("(refused {number})")),
            None => String::from("(unread)"),
        }
    }

    fn call(&mut self, form: Form) -> Result<String, u32> {
        match form {
            Form::Start {
                nodes,
                tasks,
                growth,
            } => self.start(nodes, tasks, growth),
            Form::Begin {
                task,
                operation,
                side,
                digit,
                argument,
            } => {
                let table = &mut self.table;
                calls::begin(table, task, LANE, operation, side, digit, argument)?;
                Ok(String::from("(ok)"))
            }
            Form::Tick { task, hint, times } => self.tick(task, hint, times),
            Form::Read => self.read(),
        }
    }

    /// A refused start keeps the table that was there.
    fn start(&mut self, nodes: u32, tasks: u32, growth: u32) -> Result<String, u32> {
        let words = Sizes::new(nodes, tasks, growth, LANES).map_or(0, Sizes::words);
        let mut table = vec![0; words];
        calls::start(&mut table, nodes, tasks, growth, LANES)?;
        self.table = table;
        Ok(String::from("(ok)"))
    }

    fn tick(&mut self, task: u32, hint: u32, times: u32) -> Result<String, u32> {
        let mut answer = Answer::Going;
        for _ in 0..times {
            answer = calls::tick(&mut self.table, task, hint)?;
            if answer != Answer::Going {
                break;
            }
        }
        Ok(print(answer))
    }

    fn read(&self) -> Result<String, u32> {
        let mut words = [0; 2 * Sizes::MAX_NODES];
        let count = calls::read(&self.table, LANE, &mut words)?;
        let mut text = String::from("(lane");
        for pair in words.chunks_exact(2).take(count as usize) {
            text.push_str(&format!(" {:010}", table::tag(pair[0], pair[1])));
        }
        text.push(')');
        Ok(text)
    }
}

fn print(answer: Answer) -> String {
    match answer {
        Answer::Going => String::from("(going)"),
        Answer::Pushed => String::from("(pushed)"),
        Answer::Bag(tag) => format!("(bag {tag:010})"),
        Answer::Empty => String::from("(empty)"),
        Answer::Full => String::from("(full)"),
        Answer::Yes => String::from("(yes)"),
        Answer::No => String::from("(no)"),
    }
}
