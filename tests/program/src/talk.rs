//! A person at a terminal: the answer to a line is read before the next line is written.

use std::io::{BufRead, BufReader, Write};
use std::process::{Child, ChildStdin, Command, Stdio};
use std::sync::mpsc::{self, Receiver};
use std::thread;
use std::time::Duration;

use reference::lines::Program;

use crate::child;
use crate::common::random::Random;
use crate::damage;
use crate::session::{self, Session};
use crate::trials::{shown, Trials, Verdict};

const KIND: &str = "line by line, as at a terminal";

/// A few hundred lines, some damaged and some long; one in two parts; one after the program was stopped and continued.
pub fn line_by_line(random: &mut Random, trials: &mut Trials) -> Verdict {
    let mut input = Session::random(random, 300).input;
    let other = Session::random(random, 300).input;
    input.extend(damage::damaged(random, &other, 3));
    input.extend([b"(tick ", "0".repeat(100_000).as_bytes(), b" 0 1)\n"].concat());
    let full = session::full_lane(random);
    input.extend(
        full.split_inclusive(|&byte| byte == b'\n')
            .take(500)
            .flatten(),
    );
    input.extend(b"\n(lane)\n");
    let mut talk = Talk::begin(trials.command())?;
    let answers = talk.all(&input);
    let end = talk.end();
    let answers = answers.map_err(|fault| format!("{KIND}: {fault}"))?;
    end.map_err(|fault| format!("{KIND}, at the end: {fault}"))?;
    trials.note(KIND, &input, &answers);
    Ok(())
}

/// A program that is talked to, and the second program.
struct Talk {
    child: Child,
    input: Option<ChildStdin>,
    answers: Receiver<Vec<u8>>,
    second: Program,
}

impl Talk {
    fn begin(mut command: Command) -> Result<Talk, String> {
        command.stdin(Stdio::piped()).stdout(Stdio::piped());
        let mut child = command.spawn().map_err(child::cannot_run)?;
        let input = child.stdin.take();
        let mut output = BufReader::new(child.stdout.take().expect("a pipe"));
        let (sender, answers) = mpsc::channel();
        thread::spawn(move || {
            let mut line = Vec::new();
            while output
                .read_until(b'\n', &mut line)
                .is_ok_and(|length| length > 0)
            {
                if sender.send(std::mem::take(&mut line)).is_err() {
                    break;
                }
            }
        });
        Ok(Talk {
            child,
            input,
            answers,
            second: Program::default(),
        })
    }

    /// Every line with its answer; gives all answers.
    fn all(&mut self, input: &[u8]) -> Result<Vec<u8>, String> {
        let mut answers = Vec::new();
        for (number, line) in input.split_inclusive(|&byte| byte == b'\n').enumerate() {
            if number % 100 == 50 {
                self.signal("STOP")?;
                self.signal("CONT")?;
            }
            if number % 10 == 5 {
                let (first, rest) = line.split_at(line.len() / 2);
                self.write(first)?;
                thread::sleep(Duration::from_millis(2));
                self.write(rest)?;
            } else {
                self.write(line)?;
            }
            answers.extend(self.answer(line)?);
        }
        Ok(answers)
    }

    fn write(&mut self, bytes: &[u8]) -> Result<(), String> {
        let input = self.input.as_mut().expect("an open pipe");
        let written = input.write_all(bytes);
        written.map_err(|error| format!("it takes no more input: {error}"))
    }

    /// The answer to a line just written, held to the second program's.
    fn answer(&mut self, line: &[u8]) -> Result<Vec<u8>, String> {
        let text = line.strip_suffix(b"\n").unwrap_or(line);
        let wanted = format!("{}\n", self.second.answer(text)).into_bytes();
        let line = shown(Some(line));
        match self.answers.recv_timeout(child::PATIENCE) {
            Ok(answer) if answer == wanted => Ok(answer),
            Ok(answer) => {
                let [wanted, answer] = [wanted, answer].map(|bytes| shown(Some(&bytes)));
                Err(format!("to {line} it answers {answer}, not {wanted}"))
            }
            Err(error) => Err(format!("to {line} there is no answer: {error}")),
        }
    }

    fn signal(&self, name: &str) -> Result<(), String> {
        let id = self.child.id().to_string();
        let status = Command::new("kill").args(["-s", name, &id]).status();
        match status {
            Ok(status) if status.success() => Ok(()),
            other => Err(format!("kill -s {name}: {other:?}")),
        }
    }

    /// Closes the input: the program is to end with nothing more to say.
    fn end(mut self) -> Verdict {
        self.input = None;
        let status = child::ended(&mut self.child)?;
        let more: Vec<u8> = self.answers.iter().flatten().collect();
        if status.success() && more.is_empty() {
            Ok(())
        } else {
            Err(format!("{status}, after {}", shown(Some(&more))))
        }
    }
}
