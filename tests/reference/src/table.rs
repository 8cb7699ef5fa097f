//! Where every word of the table lies and which values it may hold.

use std::ops::Range;

/// No node: the value of an absent link or an unset register.
pub const NONE: u32 = 65_535;

/// The largest leading digit of a tag.
pub const MAX_DIGIT: u32 = 9;
/// The largest low part, the nine digits below the leading one.
pub const MAX_LOW: u32 = 999_999_999;
/// What the leading digit counts.
const LEADING: u64 = 1_000_000_000;
/// The largest tag a deque may carry; the smallest is 1.
pub const MAX_TAG: u64 = 9_999_999_999;

/// V and its digit as they stand in the table, which are compared and written as one.
pub type Content = [u32; 2];

/// The content of a node that was never used.
pub const NEVER_USED: Content = [0, 0];

/// Left null: a spare node or sentinel on the left.
pub const LN: u32 = 1_000_000_001;
/// Left terminator.
pub const LX: u32 = 1_000_000_002;
/// A node cut off from the left.
pub const LY: u32 = 1_000_000_003;
/// Right null: a spare node or sentinel on the right.
pub const RN: u32 = 1_000_000_004;
/// Right terminator.
pub const RX: u32 = 1_000_000_005;
/// A node cut off from the right.
pub const RY: u32 = 1_000_000_006;

/// No operation.
pub const IDLE: u32 = 0;
/// Put a value at an end.
pub const PUSH: u32 = 1;
/// Take the value from an end.
pub const POP: u32 = 2;
/// Add spare nodes.
pub const ADD: u32 = 3;
/// Remove spare nodes.
pub const REMOVE: u32 = 4;

/// The left side, as calls and records name it.
pub const LEFT: u32 = 0;
/// The right side.
pub const RIGHT: u32 = 1;

/// Word indices in the header.
pub mod header {
    /// Length of the header.
    pub const WORDS: usize = 16;
    /// Number of nodes.
    pub const NODES: usize = 0;
    /// Number of tasks.
    pub const TASKS: usize = 1;
    /// Spare nodes a push asks for beyond the terminator.
    pub const GROWTH: usize = 2;
    /// Number of lanes.
    pub const LANES: usize = 3;
    /// Ticks made.
    pub const TICKS: usize = 4;
    /// The task last dispatched.
    pub const DISPATCHED: usize = 5;
    /// The first of the hats, which are the sentinels: a pair for each lane there may be, the left one first.
    pub const HATS: usize = 6;
    /// The words that are always 0.
    pub const ZEROS: [usize; 2] = [14, 15];

    /// The hat of a lane and a side.
    pub const fn hat(lane: u32, side: u32) -> usize {
        HATS + 2 * lane as usize + side as usize
    }
}

/// Word offsets in a node.
pub mod node {
    /// Length of a node.
    pub const WORDS: usize = 4;
    /// Link to the left.
    pub const LEFT: usize = 0;
    /// Link to the right.
    pub const RIGHT: usize = 1;
    /// Low part of a tag, or a mark; its digit follows.
    pub const VALUE: usize = 2;
    /// Leading digit of a tag, else 0.
    pub const DIGIT: usize = 3;
}

/// Word offsets in a task's record.
pub mod record {
    use super::NONE;

    /// Length of a record.
    pub const WORDS: usize = 13;
    /// What the task is doing.
    pub const OPERATION: usize = 0;
    /// Line of the figure that is next.
    pub const STEP: usize = 1;
    /// 0 left, 1 right.
    pub const SIDE: usize = 2;
    /// The operation's argument, of a tag the low part; its digit follows.
    pub const ARGUMENT: usize = 3;
    /// The argument's leading digit.
    pub const ARGUMENT_DIGIT: usize = 4;
    /// Nodes chained or passed so far.
    pub const COUNTED: usize = 5;
    /// Value read; its digit follows.
    pub const VALUE: usize = 6;
    /// The value's leading digit.
    pub const VALUE_DIGIT: usize = 7;
    /// Register A, the first of four.
    pub const A: usize = 8;
    /// Register B.
    pub const B: usize = 9;
    /// Register C.
    pub const C: usize = 10;
    /// Register D.
    pub const D: usize = 11;
    /// The lane of the operation.
    pub const LANE: usize = 12;
    /// The record of an idle task.
    pub const FRESH: [u32; WORDS] = [0, 0, 0, 0, 0, 0, 0, 0, NONE, NONE, NONE, NONE, 0];
}

/// The sizes of a table, known to be in range.
#[derive(Clone, Copy, Debug, PartialEq, Eq)]
pub struct Sizes {
    /// Number of nodes.
    pub nodes: u32,
    /// Number of tasks.
    pub tasks: u32,
    /// Goal of the allocation made by a push.
    pub growth: u32,
    /// Number of lanes, each a deque over the same nodes.
    pub lanes: u32,
}

impl Sizes {
    /// Most nodes a table may have.
    pub const MAX_NODES: usize = 1024;
    /// Most lanes a table may have.
    pub const MAX_LANES: u32 = 4;
    /// The shortest table: two nodes and one task.
    pub const MIN_WORDS: usize = header::WORDS + 2 * node::WORDS + record::WORDS;

    /// The sizes, if all are in range; each lane starts with two nodes of its own.
    pub fn new(nodes: u32, tasks: u32, growth: u32, lanes: u32) -> Option<Sizes> {
        let fits = Sizes::are_lanes(lanes)
            && (2 * lanes..=Sizes::MAX_NODES as u32).contains(&nodes)
            && (1..=16).contains(&tasks)
            && growth <= 64;
        fits.then_some(Sizes {
            nodes,
            tasks,
            growth,
            lanes,
        })
    }

    /// Whether a table may have so many lanes.
    pub fn are_lanes(lanes: u32) -> bool {
        (1..=Sizes::MAX_LANES).contains(&lanes)
    }

    /// Length of the table.
    pub fn words(self) -> usize {
        self.record(self.tasks)
    }

    /// The header, the nodes' words and the records; in a snapshot the columns stand in the nodes' place.
    pub fn parts(self, words: &[u32]) -> (&[u32], &[u32], &[u32]) {
        let (head, rest) = words.split_at(header::WORDS);
        let (nodes, records) = rest.split_at(node::WORDS * self.nodes as usize);
        (head, nodes, records)
    }

    /// The records of a table in three parts, a lent one in its task's place; where there is no such task, they are the
    /// table's.
    pub fn records_with<'a>(
        self,
        table: &'a [u32],
        task: u32,
        record: &'a [u32; record::WORDS],
    ) -> [&'a [u32]; 3] {
        let (_, _, records) = self.parts(table);
        if task >= self.tasks {
            return [records, &[], &[]];
        }
        let (before, rest) = records.split_at(record::WORDS * task as usize);
        [before, record, &rest[record::WORDS..]]
    }

    /// The columns of a snapshot, which stand in the nodes' place: every L, every R, every V, every leading digit.
    pub fn columns(self, words: &[u32]) -> [&[u32]; node::WORDS] {
        let length = self.nodes as usize;
        std::array::from_fn(|column| &words[column * length..][..length])
    }

    /// Indices of the hats of its lanes.
    pub fn hats(self) -> Range<usize> {
        header::HATS..header::hat(self.lanes, LEFT)
    }

    /// Index of a node's first word.
    pub fn node(self, number: u32) -> usize {
        header::WORDS + node::WORDS * number as usize
    }

    /// Index of a record's first word.
    pub fn record(self, task: u32) -> usize {
        self.node(self.nodes) + record::WORDS * task as usize
    }
}

/// The tag of a leading digit and a low part.
pub fn tag(digit: u32, low: u32) -> u64 {
    u64::from(digit) * LEADING + u64::from(low)
}

/// The leading digit of a number; one of a number above the largest tag is no digit.
pub fn digit(number: u64) -> u32 {
    (number.min(MAX_TAG + 1) / LEADING) as u32
}

/// The low part of a number.
pub fn low_part(number: u64) -> u32 {
    (number % LEADING) as u32
}

/// The content whose two words begin at an index.
pub fn content(words: &[u32], at: usize) -> Content {
    [words[at], words[at + 1]]
}

/// A mark as a content.
pub const fn mark(word: u32) -> Content {
    [word, 0]
}

/// Whether a content is a tag, neither a mark nor never used.
pub fn is_tag(content: Content) -> bool {
    let [low, digit] = content;
    low <= MAX_LOW && digit <= MAX_DIGIT && content != NEVER_USED
}

/// Whether a node may hold this content: a tag, a mark, or never used.
pub fn is_content([value, digit]: Content) -> bool {
    are_content(value, digit)
}

/// The same of the two words.
pub fn are_content(value: u32, digit: u32) -> bool {
    (value <= MAX_LOW) & (digit <= MAX_DIGIT) | (LN..=RY).contains(&value) & (digit == 0)
}

/// The same mark seen from the other side; other words are their own mirror.
pub const fn mirror(word: u32) -> u32 {
    match word {
        LN => RN,
        LX => RX,
        LY => RY,
        RN => LN,
        RX => LX,
        RY => LY,
        other => other,
    }
}

/// Whether the argument is in the operation's range.
pub fn argument_fits(operation: u32, argument: Content) -> bool {
    let [number, digit] = argument;
    match operation {
        PUSH => is_tag(argument),
        POP => argument == [0, 0],
        ADD => number <= 64 && digit == 0,
        REMOVE => number <= 1023 && digit == 0,
        _ => false,
    }
}

/// How many nodes the operation chains or passes.
pub fn goal(operation: u32, argument: u32, growth: u32) -> u32 {
    match operation {
        PUSH => growth,
        ADD | REMOVE => argument,
        _ => 0,
    }
}

/// The step an operation begins with.
pub fn first_step(operation: u32) -> u32 {
    match operation {
        PUSH => 2,
        POP => 39,
        ADD => 28,
        _ => 54,
    }
}

/// Whether the step is one of the operation's.
pub const fn step_belongs(operation: u32, step: u32) -> bool {
    match step {
        2 | 3 | 5 | 8 => operation == PUSH,
        28 | 31 | 15 | 17 | 18 | 24 | 25 | 67..=70 | 72 => matches!(operation, PUSH | ADD),
        39 | 40 | 42 | 48 | 51 => operation == POP,
        54 | 56 | 58 | 60 | 62 | 64 | 74 | 77 | 78 | 79 | 81 | 82 => operation == REMOVE,
        _ => false,
    }
}
