//! Inputs given to both programs, and the first line at which their outputs differ.

use std::collections::BTreeMap;
use std::fs;
use std::path::{Path, PathBuf};
use std::process::Command;

use reference::lines;

use crate::child::{self, Pace};
use crate::counts::Counts;

/// Nothing, or what is wrong with the program.
pub type Verdict = Result<(), String>;

/// Where the input of a difference is left.
const DIFFERING: &str = "target/differing-input";

/// The program under test, and what was tried so far.
pub struct Trials {
    program: PathBuf,
    /// Outcomes seen.
    pub counts: Counts,
    /// By kind of input: inputs, lines and bytes.
    kinds: BTreeMap<&'static str, [usize; 3]>,
}

impl Trials {
    pub fn new(program: PathBuf) -> Trials {
        Trials {
            program,
            counts: Counts::new(),
            kinds: BTreeMap::new(),
        }
    }

    pub fn path(&self) -> &Path {
        &self.program
    }

    pub fn command(&self) -> Command {
        Command::new(&self.program)
    }

    /// Through a pipe, as fast as it goes.
    pub fn piped(&mut self, kind: &'static str, input: &[u8]) -> Verdict {
        let given = child::piped(self.command(), &[input], Pace::AtOnce);
        self.hold(kind, input, given)
    }

    /// Through a pipe, every piece a read of its own.
    pub fn in_pieces(&mut self, kind: &'static str, pieces: &[&[u8]]) -> Verdict {
        let given = child::piped(self.command(), pieces, Pace::OneByOne);
        self.hold(kind, &pieces.concat(), given)
    }

    /// From a file, whose reads are as long as the program's buffer.
    pub fn by_file(&mut self, kind: &'static str, input: &[u8]) -> Verdict {
        let given = child::from_file(self.command(), input);
        self.hold(kind, input, given)
    }

    /// Holds what the program gave to what the second program gives for the same input, byte for byte.
    pub fn hold(
        &mut self,
        kind: &'static str,
        input: &[u8],
        given: Result<Vec<u8>, String>,
    ) -> Verdict {
        let mut wanted = Vec::new();
        lines::serve(input, &mut wanted).expect("a vector takes every byte");
        let fault = match given {
            Ok(given) if given == wanted => {
                self.note(kind, input, &wanted);
                return Ok(());
            }
            Ok(given) => difference(input, &wanted, &given),
            Err(fault) => fault,
        };
        let folder = Path::new(DIFFERING)
            .parent()
            .map_or(Ok(()), fs::create_dir_all);
        let kept = match folder.and_then(|()| fs::write(DIFFERING, input)) {
            Ok(()) => format!("the whole input is in {DIFFERING}"),
            Err(error) => format!("the input could not be written to {DIFFERING}: {error}"),
        };
        Err(format!("{kind}: {fault}\n{kept}"))
    }

    /// Notes an input whose answers were as wanted.
    pub fn note(&mut self, kind: &'static str, input: &[u8], answers: &[u8]) {
        let before = self.counts.lines();
        self.counts.add(input, answers);
        let [inputs, lines, bytes] = self.kinds.entry(kind).or_default();
        *inputs += 1;
        *lines += self.counts.lines() - before;
        *bytes += input.len();
    }

    /// Prints what was tried.
    pub fn report(&self) {
        println!("{:44} {:>7} {:>9} {:>11}", "", "inputs", "lines", "bytes");
        for (kind, [inputs, lines, bytes]) in &self.kinds {
            println!("{kind:44} {inputs:>7} {lines:>9} {bytes:>11}");
        }
    }
}

/// The first line whose answers differ.
fn difference(input: &[u8], wanted: &[u8], given: &[u8]) -> String {
    let mut lines =
        [input, wanted, given].map(|bytes| bytes.split_inclusive(|&byte| byte == b'\n'));
    let mut number = 0;
    loop {
        number += 1;
        let [line, wanted, given] = lines.each_mut().map(Iterator::next);
        if wanted != given || line.is_none() {
            return format!(
                "the answers to line {number} differ\n  the line:           {}\n  the second program: {}\n  \
                 the program:        {}",
                shown(line),
                shown(wanted),
                shown(given)
            );
        }
    }
}

/// A line as text, the middle of a long one left out.
pub fn shown(line: Option<&[u8]>) -> String {
    const END: usize = 60;
    match line {
        None => String::from("nothing"),
        Some(line) if line.len() > 3 * END => {
            let (first, last) = (&line[..END], &line[line.len() - END..]);
            let length = line.len();
            format!(
                "\"{} .. {}\" ({length} bytes)",
                first.escape_ascii(),
                last.escape_ascii()
            )
        }
        Some(line) => format!("\"{}\"", line.escape_ascii()),
    }
}
