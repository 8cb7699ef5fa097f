//! The words of the table as the ticking task sees them, from its side.

use crate::alloc;
use crate::refusal;
use crate::side::Side;
use crate::table::record::{self, A, COUNTED, D};
use crate::table::{self, content, header, node, Content, Sizes, NONE, PUSH};

/// A task of a table whose shape holds.
pub struct Machine<'a> {
    table: &'a mut [u32],
    sizes: Sizes,
    record: usize,
    /// Index of the hat of the task's lane and side.
    hat: usize,
    /// The side of the task's operation.
    pub side: &'static Side,
}

/// One part of a compare and swap, by the index of its first word: a word alone, or a content.
pub struct Swap<const N: usize> {
    at: usize,
    old: [u32; N],
    new: [u32; N],
}

/// The swap of a hat or a link.
pub fn swap_word(at: usize, old: u32, new: u32) -> Swap<1> {
    let (old, new) = ([old], [new]);
    Swap { at, old, new }
}

/// The swap of a content.
pub fn swap(at: usize, old: Content, new: Content) -> Swap<2> {
    Swap { at, old, new }
}

impl<'a> Machine<'a> {
    /// The view of a task below the number of tasks.
    pub fn new(table: &'a mut [u32], sizes: Sizes, task: u32) -> Machine<'a> {
        let record = sizes.record(task);
        let side = table[record + record::SIDE];
        let hat = header::hat(table[record + record::LANE], side);
        Machine {
            table,
            sizes,
            record,
            hat,
            side: Side::numbered(side),
        }
    }

    /// A field of the task's record.
    pub fn get(&self, field: usize) -> u32 {
        self.table[self.record + field]
    }

    /// Sets a field of the task's record.
    pub fn set(&mut self, field: usize, word: u32) {
        self.table[self.record + field] = word;
    }

    /// A content of the task's record.
    pub fn get_content(&self, field: usize) -> Content {
        content(self.table, self.record + field)
    }

    /// Makes the task idle.
    pub fn clear(&mut self) {
        self.table[self.record..self.record + record::WORDS].copy_from_slice(&record::FRESH);
    }

    /// Counts the tick.
    pub fn count_tick(&mut self) {
        let ticks = &mut self.table[header::TICKS];
        *ticks = ticks.wrapping_add(1);
    }

    /// The hat of the task's lane and side.
    pub fn hat(&self) -> u32 {
        self.table[self.hat]
    }

    /// How many nodes the operation chains or passes.
    pub fn goal(&self) -> u32 {
        table::goal(
            self.get(record::OPERATION),
            self.get(record::ARGUMENT),
            self.sizes.growth,
        )
    }

    /// Counts one node and says whether the goal is reached.
    pub fn count_node(&mut self) -> bool {
        let counted = self.get(COUNTED) + 1;
        self.set(COUNTED, counted);
        counted == self.goal()
    }

    /// Whether the operation is a push, not an add.
    pub fn is_push(&self) -> bool {
        self.get(record::OPERATION) == PUSH
    }

    /// Where an unspur returns to: its push, or the add that holds a chain.
    pub fn back(&self) -> u32 {
        if self.is_push() && self.get(D) == NONE {
            2
        } else {
            15
        }
    }

    /// Index of a node's first word.
    pub fn node(&self, number: u32) -> usize {
        self.sizes.node(number)
    }

    /// Index of a word of the node in a register.
    pub fn at(&self, register: usize, field: usize) -> Result<usize, u32> {
        match self.get(register) {
            NONE => Err(refusal::NO_NODE),
            number => Ok(self.node(number) + field),
        }
    }

    /// The content of the node in a register.
    pub fn load(&self, register: usize) -> Result<Content, u32> {
        Ok(content(self.table, self.at(register, node::VALUE)?))
    }

    /// Reads the content of the node in a register into the task's record.
    pub fn read(&mut self, register: usize) -> Result<Content, u32> {
        let content = self.load(register)?;
        let [value, digit] = content;
        self.set(record::VALUE, value);
        self.set(record::VALUE_DIGIT, digit);
        Ok(content)
    }

    /// Writes a word by its index.
    pub fn store(&mut self, at: usize, word: u32) {
        self.table[at] = word;
    }

    /// Reads a link of the node in one register into another.
    pub fn follow(&mut self, from: usize, link: usize, into: usize) -> Result<u32, u32> {
        let next = self.table[self.at(from, link)?];
        self.set(into, next);
        Ok(next)
    }

    /// The swap of the hat from A to a register; a hat never becomes none.
    pub fn move_hat(&self, to: usize) -> Result<Swap<1>, u32> {
        match self.get(to) {
            NONE => Err(refusal::NO_NODE),
            new => Ok(swap_word(self.hat, self.get(A), new)),
        }
    }

    /// Compares a part and writes it if equal.
    pub fn cas<const N: usize>(&mut self, one: Swap<N>) -> bool {
        let equal = self.matches(&one);
        if equal {
            self.write(one);
        }
        equal
    }

    /// Compares both parts before it writes either; should both be one content,
    /// the second write stands.
    pub fn dcas<const N: usize>(&mut self, first: Swap<N>, second: Swap<2>) -> bool {
        let equal = self.matches(&first) && self.matches(&second);
        if equal {
            self.write(first);
            self.write(second);
        }
        equal
    }

    fn matches<const N: usize>(&self, part: &Swap<N>) -> bool {
        self.table[part.at..part.at + N] == part.old
    }

    fn write<const N: usize>(&mut self, part: Swap<N>) {
        self.table[part.at..part.at + N].copy_from_slice(&part.new);
    }

    /// Takes a free node, without links, if there is one.
    pub fn allocate(&mut self, hint: u32, mark: Content) -> Option<u32> {
        let number = alloc::first_free(self.table, self.sizes, hint)?;
        let at = self.node(number);
        let [value, digit] = mark;
        self.table[at..at + node::WORDS].copy_from_slice(&[NONE, NONE, value, digit]);
        Some(number)
    }
}
