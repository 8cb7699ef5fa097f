//! Random sessions of well-formed lines, steered by the second program's answers so that calls come to an end.

use reference::lines::Program;
use reference::table::{low_part, tag, MAX_TAG};

use crate::common::random::Random;

const OPERATIONS: [&str; 4] = ["push", "pop", "add", "remove"];
const SIDES: [&str; 2] = ["left", "right"];
/// Operations in the shares in which a session begins them: to fill the lane, to change it, to empty it.
const STYLES: [&[usize]; 3] = [
    &[0, 0, 0, 0, 0, 0, 0, 1, 2, 3],
    &[0, 0, 0, 1, 1, 1, 2, 3],
    &[0, 1, 1, 1, 1, 1, 3],
];
/// How many of the tags begun may come again.
const REPEATED: usize = 20;
/// Lines until a session takes another style.
const STYLE_LINES: u32 = 300;

/// A session as it grows.
pub struct Session {
    /// Its lines, each ended by a line feed.
    pub input: Vec<u8>,
    program: Program,
    nodes: u32,
    /// By task; empty before an accepted start.
    busy: Vec<bool>,
    /// The tags of the pushes begun.
    tags: Vec<u64>,
}

impl Session {
    /// No lines yet.
    pub fn new() -> Session {
        Session {
            input: Vec::new(),
            program: Program::default(),
            nodes: 0,
            busy: Vec::new(),
            tags: Vec::new(),
        }
    }

    /// A session of so many lines on tables of any size, some of them before the first start.
    pub fn random(random: &mut Random, lines: u32) -> Session {
        let mut session = Session::new();
        for _ in 0..random.below(4) {
            session.other(random);
        }
        let sizes = any_sizes(random);
        session.start(sizes);
        session.play(random, lines);
        session
    }

    /// Adds a line; gives its answer.
    pub fn line(&mut self, line: &str) -> String {
        self.input.extend(line.as_bytes());
        self.input.push(b'\n');
        self.program.answer(line.as_bytes())
    }

    /// Starts with S, T and growth.
    pub fn start(&mut self, (nodes, tasks, growth): (u32, u32, u32)) {
        let line = format!("(start (slots {nodes}) (tasks {tasks}) (growth {growth}))");
        if self.line(&line) == "(ok)" {
            self.nodes = nodes;
            self.busy = vec![false; tasks as usize];
        }
    }

    /// So many lines, in one style after another.
    pub fn play(&mut self, random: &mut Random, lines: u32) {
        let mut style = STYLES[0];
        for line in 0..lines {
            if line % STYLE_LINES == STYLE_LINES - 1 {
                style = random.pick(&STYLES);
            }
            match random.below(60) {
                0..=3 => {
                    self.line("(lane)");
                }
                4..=5 => self.other(random),
                6 if random.once_in(20) => self.start(any_sizes(random)),
                _ => self.call(random, style),
            }
        }
    }

    /// A begin for an idle task, ticks for a busy one.
    fn call(&mut self, random: &mut Random, style: &[usize]) {
        let task = random.below(self.busy.len() as u32);
        if !self.busy[task as usize] {
            let operation = random.pick(style);
            let argument = match operation {
                0 => self.tag(random),
                1 => 0,
                2 => random.below(65).into(),
                _ => random.below(1024).min(random.below(1024)).into(),
            };
            self.begin(task, operation, random.below(2), argument);
        } else {
            let limit = random.pick(&[1, 2, 5, 40, 1000, 1000]);
            let times = 1 + random.below(limit);
            let hint = random.below(self.nodes);
            self.tick(task, hint, times);
        }
    }

    /// Mostly any tag, sometimes one of the last begun, or one of them with another digit.
    fn tag(&self, random: &mut Random) -> u64 {
        let last = &self.tags[self.tags.len().saturating_sub(REPEATED)..];
        if last.is_empty() || !random.once_in(5) {
            return any_tag(random);
        }
        let known = random.pick(last);
        match random.below(2) {
            0 => known,
            _ => tag(random.below(10), low_part(known)).max(1),
        }
    }

    /// A begin with these numbers; the operation and the side by their places in the lists. A tag has ten digits.
    pub fn begin(&mut self, task: u32, operation: usize, side: u32, argument: u64) {
        let width = if operation == 0 { 10 } else { 1 };
        self.begin_wide(task, operation, side, (argument, width));
    }

    /// The same with the argument in so many digits, or more if it needs more.
    fn begin_wide(&mut self, task: u32, operation: usize, side: u32, argument: (u64, usize)) {
        let (name, side) = (OPERATIONS[operation], SIDES[side as usize]);
        let (argument, width) = argument;
        let line = format!("(begin {task} ({name} {side} {argument:0width$}))");
        if self.line(&line) == "(ok)" {
            self.busy[task as usize] = true;
            if operation == 0 {
                self.tags.push(argument);
            }
        }
    }

    /// Ticks with these numbers.
    pub fn tick(&mut self, task: u32, hint: u32, times: u32) {
        let answer = self.line(&format!("(tick {task} {hint} {times})"));
        if answer != "(going)" && !answer.starts_with("(refused") {
            self.busy[task as usize] = false;
        }
    }

    /// A well-formed line with numbers from anywhere, most of them refused; a start so that it is refused.
    fn other(&mut self, random: &mut Random) {
        let (task, word) = (random.below(18), random.word());
        match random.below(5) {
            0 => {
                let (operation, side) = (random.below(4) as usize, random.below(2));
                self.begin(task, operation, side, word.into());
            }
            1 => self.tick(task, word, 1 + random.below(1000)),
            2 => self.tick(task, random.below(12), 1),
            3 => {
                let any = any_tag(random);
                let argument = random.pick(&[0, word.into(), any]);
                let width = 8 + random.below(5) as usize;
                self.begin_wide(task, 0, random.below(2), (argument, width));
            }
            _ => self.start(random.pick(&[
                (word, 17, 0),
                (1025, 1, 0),
                (1, 1, 0),
                (2, 0, 0),
                (2, 1, 65),
            ])),
        }
    }
}

/// A lane as long as lanes get, read again and again: the longest lines of output, with short ones between them so that
/// they come at many places of a buffer.
pub fn full_lane(random: &mut Random) -> Vec<u8> {
    let mut session = Session::new();
    session.start((1024, 2, 0));
    for number in 0..1022 {
        session.begin(0, 0, random.below(2), MAX_TAG - number);
        session.tick(0, random.below(1024), 1000);
    }
    for _ in 0..40 {
        for _ in 0..random.below(1200) {
            session.line("");
        }
        for _ in 0..1 + random.below(7) {
            session.line("(lane)");
        }
        // One of these tags, at any place of the lane.
        let again = MAX_TAG - u64::from(random.below(1022));
        session.begin(1, 0, random.below(2), again);
        session.call(random, STYLES[1]);
    }
    session.input
}

fn any_sizes(random: &mut Random) -> (u32, u32, u32) {
    let nodes = match random.below(8) {
        0 => 1024,
        1 => 1013 + random.below(12),
        2..=3 => 2 + random.below(200),
        _ => 2 + random.below(12),
    };
    let any = random.below(65);
    let growth = random.pick(&[0, 0, 1, 2, 64, any]);
    let many = 1 + random.below(16);
    (nodes, random.pick(&[1, 2, 3, many]), growth)
}

/// A tag with up to nine zeros before its first other digit.
fn any_tag(random: &mut Random) -> u64 {
    let digits = 1 + random.below(10);
    1 + random.next() % (10u64.pow(digits) - 1)
}
