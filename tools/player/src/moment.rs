//! What is kept of a run: its lines, and a moment for each tick and for each line without one.

use lane::Answer;

use crate::figure::Looked;
use crate::row::Change;

/// A run as far as it is kept.
#[derive(Default)]
pub struct Run {
    /// The lines read, up to the last one that has a moment.
    pub lines: Vec<Line>,
    /// The moments, in order.
    pub moments: Vec<Moment>,
    /// What came after the last moment kept.
    pub cut: Cut,
    numbers: usize,
}

/// A line, and what was printed for it.
pub struct Line {
    /// As it was read; long ones are cut.
    pub text: String,
    /// What was printed, without its line feed.
    pub printed: String,
}

/// What is not kept.
#[derive(Clone, Copy, Debug, Default, PartialEq, Eq)]
pub struct Cut {
    /// Ticks made after the last moment kept.
    pub ticks: u64,
    /// Lines of which no moment is kept.
    pub lines: u64,
}

/// What was seen at a moment.
pub struct Moment {
    /// The number of its line, from 0.
    pub line: usize,
    /// What happened.
    pub event: Event,
    /// The words that it wrote: places and what is there now. A start writes all of them.
    pub wrote: Vec<(usize, u32)>,
    /// What it did to the row.
    pub row: Option<Change>,
}

/// What happened at a moment.
#[derive(Debug)]
#[allow(missing_docs)]
pub enum Event {
    Start,
    Begin {
        task: u32,
    },
    Tick(Tick),
    /// Every task is idle.
    Idle,
    Lane {
        lane: u32,
    },
    Refused {
        number: u32,
    },
    Unread,
}

/// A tick that was made.
pub struct Tick {
    /// The task.
    pub task: u32,
    /// The step at which the task stood: the line of the figure.
    pub step: u32,
    /// Where the search for a free slot would begin.
    pub hint: u32,
    /// Whether the dispatcher chose the task.
    pub dispatched: bool,
    /// The words that it looked at, with what it compared them with.
    pub looked: Vec<Looked>,
    /// The slot that it took.
    pub took: Option<u32>,
    /// Whether it lost its swap, as the library's window counts it.
    pub lost: bool,
    /// What it answered.
    pub answer: Answer,
}

impl std::fmt::Debug for Tick {
    fn fmt(&self, formatter: &mut std::fmt::Formatter<'_>) -> std::fmt::Result {
        write!(
            formatter,
            "task {} at {}: {}",
            self.task, self.step, self.answer
        )
    }
}

/// The most moments of a page, and the most words written in them: more would make it slow to open.
pub const MOST_MOMENTS: usize = 4_000;
const MOST_NUMBERS: usize = 300_000;
/// The most bytes of a line that are shown.
const MOST_BYTES: usize = 120;

impl Run {
    /// Whether nothing more is kept.
    pub fn is_full(&self) -> bool {
        self.moments.len() >= MOST_MOMENTS || self.numbers >= MOST_NUMBERS
    }

    /// Keeps a moment, unless the run is full.
    pub fn keep(&mut self, moment: impl FnOnce() -> Moment) {
        if !self.is_full() {
            let moment = moment();
            self.numbers += moment.wrote.len();
            self.moments.push(moment);
        }
    }

    /// Keeps a line with what was printed for it, if it has a moment.
    pub fn keep_line(&mut self, line: &[u8], printed: &str) {
        if self.moments.last().map_or(0, |last| last.line + 1) <= self.lines.len() {
            self.cut.lines += 1;
            return;
        }
        let shown = &line[..line.len().min(MOST_BYTES)];
        let mut text = String::from_utf8_lossy(shown).into_owned();
        if shown.len() < line.len() {
            text += &format!(" … ({} bytes)", line.len());
        }
        self.lines.push(Line {
            text,
            printed: printed.to_owned(),
        });
    }
}
