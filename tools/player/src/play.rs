//! Makes every call of the lines with the library, on a table that is owned here, and keeps what was seen.

use lane::{ffi, Answer, Dispatched, Lanes, Refusal, Tag, Window};

use crate::figure::{self, Looked};
use crate::form::{self, Form, Lines};
use crate::moment::{Event, Moment, Run, Tick};
use crate::places::{self, Record, Register};
use crate::row::{Note, Row};

/// What a run came to.
pub struct Played {
    /// What the lane program prints for these lines.
    pub printed: String,
    /// What was seen.
    pub run: Run,
}

/// Plays the lines of an input: a line ends at a line feed or at the end.
pub fn play(input: &[u8], lines: Lines) -> Played {
    let mut player = Player::new();
    let mut printed = String::new();
    let pieces = input.split_inclusive(|&byte| byte == b'\n');
    for (number, piece) in pieces.enumerate() {
        let line = piece.strip_suffix(b"\n").unwrap_or(piece);
        player.line = number;
        let said = player.answer(form::parse(line, lines));
        player.run.keep_line(line, &said);
        printed += &said;
        printed.push('\n');
    }
    Played {
        printed,
        run: player.run,
    }
}

struct Player {
    /// No words before an accepted start.
    table: Vec<u32>,
    /// Looks back on one tick: whether that one lost its swap.
    window: Window<Vec<u32>>,
    row: Row,
    /// The number of the line that is answered.
    line: usize,
    run: Run,
}

impl Player {
    fn new() -> Player {
        Player {
            table: Vec::new(),
            window: fresh_window(),
            row: Row::default(),
            line: 0,
            run: Run::default(),
        }
    }

    /// Does what a line says, and gives what is printed.
    fn answer(&mut self, form: Option<Form>) -> String {
        match form {
            None => {
                self.seen(Event::Unread);
                "(unread)".to_owned()
            }
            Some(Form::Start {
                slots,
                tasks,
                growth,
                lanes,
            }) => self.start([slots, tasks, growth, lanes]),
            Some(Form::Begin {
                task,
                lane,
                operation,
                side,
                digit,
                argument,
            }) => {
                let before = self.table.clone();
                let table = &mut self.table[..];
                match ffi::begin(table, task, lane, operation, side, digit, argument) {
                    0 => {
                        let tag = Tag::from_words([digit, argument]).filter(|_| operation == 1);
                        self.row.begin(task, Note { lane, side, tag });
                        self.wrote(&before, Event::Begin { task });
                        "(ok)".to_owned()
                    }
                    number => self.refused(number),
                }
            }
            Some(Form::Tick { task, hint, times }) => {
                self.ticks(times, |player| player.tick(task, hint))
            }
            Some(Form::Dispatch { hint, times }) => {
                self.ticks(times, |player| player.dispatch(hint))
            }
            Some(Form::Lane(lane)) => match Lanes::over(&self.table).bags(lane) {
                Ok(bags) => {
                    let tags: String = bags.map(|tag| format!(" {tag}")).collect();
                    self.seen(Event::Lane { lane });
                    format!("(lane{tags})")
                }
                Err(refusal) => self.refused(refusal.number()),
            },
        }
    }

    fn start(&mut self, [slots, tasks, growth, lanes]: [u32; 4]) -> String {
        // Larger sizes are refused before the length is looked at.
        let fits = slots <= lane::MAX_SLOTS && tasks <= lane::MAX_TASKS;
        let mut table = vec![0; if fits { lane::words(slots, tasks) } else { 0 }];
        match ffi::start(&mut table, slots, tasks, growth, lanes) {
            0 => {
                self.table = table;
                self.window = fresh_window();
                self.row = Row::start(lanes, tasks);
                let (line, words) = (self.line, &self.table);
                self.run.keep(|| Moment {
                    line,
                    event: Event::Start,
                    wrote: words.iter().copied().enumerate().collect(),
                    row: None,
                });
                "(ok)".to_owned()
            }
            number => self.refused(number),
        }
    }

    /// Ticks until one does not say "going", or so many; what is printed for the last.
    fn ticks(
        &mut self,
        times: u32,
        tick: impl Fn(&mut Player) -> Result<Dispatched, Refusal>,
    ) -> String {
        for made in 1..=times {
            match tick(self) {
                Ok(Dispatched::Ticked(Answer::Going)) if made < times => {}
                Ok(Dispatched::Ticked(answer)) => return format!("({answer})"),
                Ok(_) => {
                    self.seen(Event::Idle);
                    return "(idle)".to_owned();
                }
                Err(refusal) => return self.refused(refusal.number()),
            }
        }
        unreachable!("the last tick has returned")
    }

    fn tick(&mut self, task: u32, hint: u32) -> Result<Dispatched, Refusal> {
        let before = self.table.clone();
        let answer = Lanes::over(&mut self.table).tick(task, hint)?;
        self.ticked(&before, task, hint, false, answer);
        Ok(Dispatched::Ticked(answer))
    }

    fn dispatch(&mut self, hint: u32) -> Result<Dispatched, Refusal> {
        let before = self.table.clone();
        let dispatched = Lanes::over(&mut self.table).dispatch(hint)?;
        if let Dispatched::Ticked(answer) = dispatched {
            self.ticked(&before, self.table[places::DISPATCHED], hint, true, answer);
        }
        Ok(dispatched)
    }

    /// A tick was made.
    fn ticked(&mut self, before: &[u32], task: u32, hint: u32, dispatched: bool, answer: Answer) {
        let (then, now) = (Record::of(before, task), Record::of(&self.table, task));
        let fed = self
            .window
            .feed(self.table[places::TICKS], then.step(), now.step());
        let chain = now.register(Register::D);
        let takes = [28, 31].contains(&then.step())
            && chain != places::NONE
            && chain != then.register(Register::D);
        let row = self.row.answer(task, answer);
        if self.run.is_full() {
            self.run.cut.ticks += 1;
            return;
        }
        self.compare_rows();
        let tick = Tick {
            task,
            step: then.step(),
            hint,
            dispatched,
            looked: figure::looked(before, task),
            took: takes.then_some(chain),
            lost: fed == Ok(1),
            answer,
        };
        let (line, wrote) = (self.line, difference(before, &self.table));
        self.run.keep(|| Moment {
            line,
            event: Event::Tick(tick),
            wrote,
            row,
        });
    }

    /// The lane in the table is the row: the library's promise, looked at here once more.
    fn compare_rows(&self) {
        let lanes = Lanes::over(&self.table);
        for lane in 0..self.table[places::LANES] {
            let bags = lanes
                .bags(lane)
                .expect("a lane that start began can be read");
            assert!(bags.eq(self.row.bags(lane)), "lane {lane} is not the row");
        }
    }

    fn refused(&mut self, number: u32) -> String {
        self.seen(Event::Refused { number });
        format!("(refused {number})")
    }

    /// Something that wrote no word.
    fn seen(&mut self, event: Event) {
        let line = self.line;
        self.run.keep(|| Moment {
            line,
            event,
            wrote: Vec::new(),
            row: None,
        });
    }

    /// Something that left the row as it was.
    fn wrote(&mut self, before: &[u32], event: Event) {
        let (line, table) = (self.line, &self.table);
        self.run.keep(|| Moment {
            line,
            event,
            wrote: difference(before, table),
            row: None,
        });
    }
}

fn fresh_window() -> Window<Vec<u32>> {
    Window::start(vec![0; lane::window_words(1)], 1).expect("a width of 1")
}

/// The words of a table that are not what they were.
fn difference(before: &[u32], now: &[u32]) -> Vec<(usize, u32)> {
    let pairs = before.iter().zip(now).enumerate();
    pairs
        .filter(|(_, (old, new))| old != new)
        .map(|(place, (_, &new))| (place, new))
        .collect()
}

/// Whether a word that was looked at had what was wanted there; so does one that was only read.
pub fn matched(table: &[u32], looked: &Looked) -> bool {
    table[looked.place..].starts_with(&looked.wanted)
}
