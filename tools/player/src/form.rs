//! Reads one line as the lane program does; and, where several lanes are asked for, the lines that it has not.

/// A call written as a line.
#[derive(Clone, Copy, Debug, PartialEq, Eq)]
pub enum Form {
    /// Start with these sizes.
    Start {
        /// The number of slots.
        slots: u32,
        /// The number of tasks.
        tasks: u32,
        /// How many spare slots a push adds beyond the one it needs.
        growth: u32,
        /// The number of lanes.
        lanes: u32,
    },
    /// Give a task a call; operation and side as the library numbers them.
    Begin {
        /// The task.
        task: u32,
        /// The lane.
        lane: u32,
        /// 1 push, 2 pop, 3 add, 4 remove.
        operation: u32,
        /// 0 left, 1 right.
        side: u32,
        /// The leading digit of a push's tag, else 0.
        digit: u32,
        /// The nine digits below it, or the number.
        argument: u32,
    },
    /// Make ticks of a task, at most `times`, which is in range.
    Tick {
        /// The task.
        task: u32,
        /// Where the search for a free slot begins.
        hint: u32,
        /// The most ticks.
        times: u32,
    },
    /// Make dispatches, at most `times`, which is in range.
    Dispatch {
        /// Where the search for a free slot begins.
        hint: u32,
        /// The most dispatches.
        times: u32,
    },
    /// Read a lane.
    Lane(u32),
}

/// Which lines are read.
#[derive(Clone, Copy, Debug, PartialEq, Eq)]
pub enum Lines {
    /// Those of the lane program, which has one lane.
    Belt,
    /// These too: `(start (slots S) (tasks T) (growth g) (lanes L))`, `(begin task (lane k) (push right tag))`,
    /// `(lane k)`, and `(dispatch hint times)`, dispatches until one does not say "going".
    SeveralLanes,
}

/// The form on a line without its line feed; none if it cannot be read.
pub fn parse(line: &[u8], lines: Lines) -> Option<Form> {
    let mut rest = Rest { line, lines };
    let form = rest.form()?;
    rest.line.is_empty().then_some(form)
}

/// What is left of the line.
struct Rest<'a> {
    line: &'a [u8],
    lines: Lines,
}

impl Rest<'_> {
    fn form(&mut self) -> Option<Form> {
        if self.skip("(start ") {
            self.start()
        } else if self.skip("(begin ") {
            self.begin()
        } else if self.skip("(tick ") {
            let task = self.number()?;
            self.expect(" ")?;
            let (hint, times) = self.hint_and_times()?;
            Some(Form::Tick { task, hint, times })
        } else if self.skip_with_lanes("(dispatch ") {
            let (hint, times) = self.hint_and_times()?;
            Some(Form::Dispatch { hint, times })
        } else if self.skip_with_lanes("(lane ") {
            let lane = self.number()?;
            self.expect(")")?;
            Some(Form::Lane(lane))
        } else {
            self.expect("(lane)")?;
            Some(Form::Lane(0))
        }
    }

    fn start(&mut self) -> Option<Form> {
        self.expect("(slots ")?;
        let slots = self.number()?;
        self.expect(") (tasks ")?;
        let tasks = self.number()?;
        self.expect(") (growth ")?;
        let growth = self.number()?;
        let lanes = if self.skip_with_lanes(") (lanes ") {
            self.number()?
        } else {
            1
        };
        self.expect("))")?;
        Some(Form::Start {
            slots,
            tasks,
            growth,
            lanes,
        })
    }

    fn begin(&mut self) -> Option<Form> {
        let task = self.number()?;
        let lane = if self.skip_with_lanes(" (lane ") {
            let lane = self.number()?;
            self.expect(")")?;
            lane
        } else {
            0
        };
        self.expect(" (")?;
        let operation = self.word(&["push ", "pop ", "add ", "remove "])? + 1;
        let side = self.word(&["left ", "right "])?;
        let (digit, argument) = match operation {
            1 => self.tag()?,
            _ => (0, self.number()?),
        };
        self.expect("))")?;
        Some(Form::Begin {
            task,
            lane,
            operation,
            side,
            digit,
            argument,
        })
    }

    /// The end of a line that ticks.
    fn hint_and_times(&mut self) -> Option<(u32, u32)> {
        let hint = self.number()?;
        self.expect(" ")?;
        let times = self.number()?;
        self.expect(")")?;
        (1..=1000).contains(&times).then_some((hint, times))
    }

    fn skip(&mut self, text: &str) -> bool {
        match self.line.strip_prefix(text.as_bytes()) {
            Some(rest) => {
                self.line = rest;
                true
            }
            None => false,
        }
    }

    /// The same of what only lines with several lanes have.
    fn skip_with_lanes(&mut self, text: &str) -> bool {
        self.lines == Lines::SeveralLanes && self.skip(text)
    }

    fn expect(&mut self, text: &str) -> Option<()> {
        self.skip(text).then_some(())
    }

    /// The place of the word that stands here.
    fn word(&mut self, words: &[&str]) -> Option<u32> {
        (0..)
            .zip(words)
            .find(|(_, word)| self.skip(word))
            .map(|(place, _)| place)
    }

    /// A leading digit and the nine below: a tag is written with its zeros.
    fn tag(&mut self) -> Option<(u32, u32)> {
        match self.digits() {
            [leading, below @ ..] if below.len() == 9 => {
                Some((u32::from(leading - b'0'), number(below)?))
            }
            _ => None,
        }
    }

    /// One digit or more; leading zeros are digits like others.
    fn number(&mut self) -> Option<u32> {
        match self.digits() {
            [] => None,
            digits => number(digits),
        }
    }

    /// The digits up to the next byte that is none.
    fn digits(&mut self) -> &[u8] {
        let length = self
            .line
            .iter()
            .take_while(|byte| byte.is_ascii_digit())
            .count();
        let (digits, rest) = self.line.split_at(length);
        self.line = rest;
        digits
    }
}

/// The number that digits write, if it is a word.
fn number(digits: &[u8]) -> Option<u32> {
    digits.iter().try_fold(0u32, |number, digit| {
        number.checked_mul(10)?.checked_add(u32::from(digit - b'0'))
    })
}
