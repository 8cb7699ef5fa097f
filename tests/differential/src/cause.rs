//! Which outcome a tick has, by the words before it and never from inside a program.

use reference::table::{
    content, goal, header, is_tag, mark, mirror, node, record, Content, Sizes, LN, LX, LY, NONE,
    PUSH, RN, RX, RY,
};

use crate::outcomes::OUTCOMES;
use record::{A, B, C, D};

/// The place in `OUTCOMES` of a tick of a busy task, by the table before it. Whether a search at 28 or 31 found a node
/// is not seen there: `taken` says so.
pub fn outcome(before: &[u32], sizes: Sizes, task: u32, taken: bool) -> usize {
    let view = View::new(before, sizes, task);
    let cause = view.cause(taken);
    let (step, operation) = (view.field(record::STEP), view.field(record::OPERATION));
    OUTCOMES
        .iter()
        .position(|known| {
            known.step == step && known.cause == cause && known.operations.contains(&operation)
        })
        .unwrap_or_else(|| {
            panic!("step {step} of operation {operation} with {cause} is not listed")
        })
}

/// The words as the ticking task's side sees them, the left side's mirrored.
struct View<'a> {
    table: &'a [u32],
    sizes: Sizes,
    record: usize,
    left: bool,
}

impl View<'_> {
    fn new(table: &[u32], sizes: Sizes, task: u32) -> View<'_> {
        let record = sizes.record(task);
        let left = table[record + record::SIDE] == 0;
        View {
            table,
            sizes,
            record,
            left,
        }
    }

    fn cause(&self, taken: bool) -> &'static str {
        let step = self.field(record::STEP);
        self.missing(step)
            .unwrap_or_else(|| match (step, self.field(record::OPERATION)) {
                (28 | 31, _) => self.searched(step, taken),
                (_, PUSH) if self.field(D) == NONE => self.without_chain(step),
                _ => self.found(step),
            })
    }

    /// A register that is none and that the step goes through, or would set a hat to.
    fn missing(&self, step: u32) -> Option<&'static str> {
        let through: &[(usize, &str)] = match step {
            3 | 8 | 68 | 69 | 17 | 18 | 25 | 40 => &[(A, "A none")],
            56 | 58 | 60 | 64 | 79 | 81 | 82 => &[(A, "A none")],
            42 | 48 | 51 | 70 | 74 | 77 | 78 => &[(B, "B none")],
            5 | 62 => &[(A, "A none"), (B, "B none")],
            24 => &[(A, "A none"), (D, "D none")],
            72 => &[(C, "C none")],
            31 => &[(D, "D none")],
            _ => &[],
        };
        through
            .iter()
            .find(|&&(register, _)| self.field(register) == NONE)
            .map(|&(_, name)| name)
    }

    fn searched(&self, step: u32, taken: bool) -> &'static str {
        match step {
            _ if !taken => "none free",
            28 => either(self.goal() == 0, "taken, goal 0", "taken"),
            _ => either(self.last(), "taken, goal reached", "taken"),
        }
    }

    /// A push without a chain goes back to 2, where others go to 15.
    fn without_chain(&self, step: u32) -> &'static str {
        match (step, self.found(step)) {
            (68, "A.V is not RY") => "A.V is not RY, no chain",
            (70, "B.R none") => "B.R none, no chain",
            (72, "equal") => "equal, no chain",
            (72, _) => "hat differs, no chain",
            (_, found) => found,
        }
    }

    fn found(&self, step: u32) -> &'static str {
        let hat = self.hat() == self.field(A);
        match step {
            3 | 18 | 24 | 60 => either(self.outward(A) == NONE, "A.R none", "A.R a slot"),
            5 => both(hat, "hat differs", self.has(A, RN), "A.V differs"),
            8 | 56 => either(self.has(A, RX), "A.V is RX", "A.V is not RX"),
            68 => either(self.has(A, RY), "A.V is RY", "A.V is not RY"),
            70 | 74 => either(self.outward(B) == NONE, "B.R none", "B.R a slot"),
            72 => either(hat, "equal", "hat differs"),
            17 => name(self.seen(self.node_content(A))),
            25 => {
                let link = self.outward(A) == self.field(B);
                both(link, "A.R differs", self.has(A, RX), "A.V differs")
            }
            40 => either(self.inward(A) == NONE, "A.L none", "A.L a slot"),
            42 | 77 => name(self.seen(self.node_content(B))),
            48 | 51 => both(hat, "hat differs", self.as_read(), self.difference()),
            54 => either(self.goal() == 0, "goal 0", "goal above 0"),
            58 if self.outward(A) == NONE => "A.R none",
            58 => either(self.last(), "goal reached", "goal not reached"),
            62 => {
                let first = self.has(A, RN);
                both(first, "A.V differs", self.has(B, RN), "B.V differs")
            }
            64 => either(self.outward(A) == self.field(B), "equal", "A.R differs"),
            78 => either(self.as_read(), "equal", self.difference()),
            81 => match (self.outward(A), self.seen(self.value_read()) == mark(RX)) {
                (NONE, true) => "A.R none, value RX",
                (NONE, false) => "A.R none, value not RX",
                (_, true) => "A.R a slot, value RX",
                (_, false) => "A.R a slot, value not RX",
            },
            _ => "always",
        }
    }

    fn field(&self, field: usize) -> u32 {
        self.table[self.record + field]
    }

    /// A mark of the left side is seen as its mirror.
    fn seen(&self, content: Content) -> Content {
        match content {
            [value, digit] if self.left => [mirror(value), digit],
            content => content,
        }
    }

    /// That of its lane and side.
    fn hat(&self) -> u32 {
        let side = self.field(record::SIDE);
        self.table[header::hat(self.field(record::LANE), side)]
    }

    fn word(&self, register: usize, fields: [usize; 2]) -> u32 {
        let node = self.sizes.node(self.field(register));
        self.table[node + fields[usize::from(self.left)]]
    }

    fn outward(&self, register: usize) -> u32 {
        self.word(register, [node::RIGHT, node::LEFT])
    }

    fn inward(&self, register: usize) -> u32 {
        self.word(register, [node::LEFT, node::RIGHT])
    }

    fn node_content(&self, register: usize) -> Content {
        let node = self.sizes.node(self.field(register));
        content(self.table, node + node::VALUE)
    }

    fn value_read(&self) -> Content {
        content(self.table, self.record + record::VALUE)
    }

    fn has(&self, register: usize, wanted: u32) -> bool {
        self.seen(self.node_content(register)) == mark(wanted)
    }

    /// Whether B still holds the value read.
    fn as_read(&self) -> bool {
        self.node_content(B) == self.value_read()
    }

    /// In what B differs from the value read.
    fn difference(&self) -> &'static str {
        let same = self.node_content(B)[0] == self.value_read()[0];
        either(same, "B's digit alone differs", "B.V differs")
    }

    fn goal(&self) -> u32 {
        let (operation, argument) = (self.field(record::OPERATION), self.field(record::ARGUMENT));
        goal(operation, argument, self.sizes.growth)
    }

    /// Whether one more node reaches the goal.
    fn last(&self) -> bool {
        self.field(record::COUNTED) + 1 == self.goal()
    }
}

fn either(condition: bool, yes: &'static str, no: &'static str) -> &'static str {
    if condition {
        yes
    } else {
        no
    }
}

/// Two compares, and the names of those that can fail.
fn both(one: bool, no_one: &'static str, two: bool, no_two: &'static str) -> &'static str {
    match (one, two) {
        (true, true) => "equal",
        (false, true) => no_one,
        (true, false) => no_two,
        (false, false) => "both differ",
    }
}

fn name(content: Content) -> &'static str {
    match content {
        [0, _] if is_tag(content) => "a tag, V 0",
        _ if is_tag(content) => "a tag",
        [LN, _] => "LN",
        [LX, _] => "LX",
        [LY, _] => "LY",
        [RN, _] => "RN",
        [RX, _] => "RX",
        [RY, _] => "RY",
        _ => "never used",
    }
}
