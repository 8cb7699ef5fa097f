//! Reads one line of the line program as a form.

use crate::table;

/// A call written as a line.
#[derive(Clone, Copy, Debug, PartialEq, Eq)]
pub enum Form {
    /// Start with these sizes.
    Start {
        /// Number of nodes.
        nodes: u32,
        /// Number of tasks.
        tasks: u32,
        /// Goal of the allocation made by a push.
        growth: u32,
    },
    /// Begin an operation.
    Begin {
        /// The task.
        task: u32,
        /// The operation.
        operation: u32,
        /// Its side.
        side: u32,
        /// The leading digit of its argument.
        digit: u32,
        /// Its argument, of a tag the low part.
        argument: u32,
    },
    /// Make ticks.
    Tick {
        /// The task.
        task: u32,
        /// Where the search for a node begins.
        hint: u32,
        /// How many at most, 1 to 1,000.
        times: u32,
    },
    /// Read the deque.
    Read,
}

/// The form on a line without its line feed; none if it cannot be read.
pub fn parse(line: &[u8]) -> Option<Form> {
    let mut rest = Rest(line);
    let form = rest.form()?;
    rest.0.is_empty().then_some(form)
}

/// What is left of the line.
struct Rest<'a>(&'a [u8]);

impl Rest<'_> {
    fn form(&mut self) -> Option<Form> {
        if self.skip("(start ") {
            self.start()
        } else if self.skip("(begin ") {
            self.begin()
        } else if self.skip("(tick ") {
            self.tick()
        } else {
            self.expect("(lane)")?;
            Some(Form::Read)
        }
    }

    fn start(&mut self) -> Option<Form> {
        self.expect("(slots ")?;
        let nodes = self.number()?;
        self.expect(") (tasks ")?;
        let tasks = self.number()?;
        self.expect(") (growth ")?;
        let growth = self.number()?;
        self.expect("))")?;
        Some(Form::Start {
            nodes,
            tasks,
            growth,
        })
    }

    fn begin(&mut self) -> Option<Form> {
        let task = self.number()?;
        self.expect(" (")?;
        let operation = self.word(&[
            ("push ", table::PUSH),
            ("pop ", table::POP),
            ("add ", table::ADD),
            ("remove ", table::REMOVE),
        ])?;
        let side = self.word(&[("left ", table::LEFT), ("right ", table::RIGHT)])?;
        let (digit, argument) = match operation {
            table::PUSH => self.tag()?,
            _ => (0, self.number()?),
        };
        self.expect("))")?;
        Some(Form::Begin {
            task,
            operation,
            side,
            digit,
            argument,
        })
    }

    fn tick(&mut self) -> Option<Form> {
        let task = self.number()?;
        self.expect(" ")?;
        let hint = self.number()?;
        self.expect(" ")?;
        let times = self.number()?;
        self.expect(")")?;
        (1..=1000)
            .contains(&times)
            .then_some(Form::Tick { task, hint, times })
    }

    /// Set into its callers, where the length is known, it compares words and not bytes.
    #[inline(always)]
    fn skip(&mut self, text: &str) -> bool {
        match self.0.strip_prefix(text.as_bytes()) {
            Some(rest) => {
                self.0 = rest;
                true
            }
            None => false,
        }
    }

    #[inline(always)]
    fn expect(&mut self, text: &str) -> Option<()> {
        self.skip(text).then_some(())
    }

    fn word(&mut self, words: &[(&str, u32)]) -> Option<u32> {
        words
            .iter()
            .find(|(text, _)| self.skip(text))
            .map(|&(_, number)| number)
    }

    /// A leading digit and the nine below: a tag is written with its zeros.
    fn tag(&mut self) -> Option<(u32, u32)> {
        match self.digits() {
            [leading, below @ ..] if below.len() == 9 => {
                Some((u32::from(leading - b'0'), number(below)?))
            }
            _ => None,
        }
    }

    /// One digit or more; leading zeros are digits like others.
    fn number(&mut self) -> Option<u32> {
        match self.digits() {
            [] => None,
            digits => number(digits),
        }
    }

    /// The digits up to the next byte that is none.
    fn digits(&mut self) -> &[u8] {
        let length = self.0.iter().take_while(|c| c.is_ascii_digit()).count();
        let (digits, rest) = self.0.split_at(length);
        self.0 = rest;
        digits
    }
}

/// The number that digits write, if it is a word.
fn number(digits: &[u8]) -> Option<u32> {
    digits.iter().try_fold(0u32, |number, digit| {
        number.checked_mul(10)?.checked_add(u32::from(digit - b'0'))
    })
}
