//! Where each word of the table stands, as `docs/table.svg` draws it. The tests hold these places to the library.

/// Header: the number of slots.
pub const SLOTS: usize = 0;
/// Header: the number of tasks.
pub const TASKS: usize = 1;
/// Header: the number of lanes.
pub const LANES: usize = 3;
/// Header: the ticks made since the start.
pub const TICKS: usize = 4;
/// Header: the task last dispatched.
pub const DISPATCHED: usize = 5;
/// No slot.
pub const NONE: u32 = 65_535;

const HATS: usize = 6;
const HEADER: usize = 16;
const SLOT: usize = 4;
const RECORD: usize = 13;

/// A task's register.
#[derive(Clone, Copy, Debug, PartialEq, Eq)]
#[allow(missing_docs)]
pub enum Register {
    A,
    B,
    C,
    D,
}

/// The registers in their order.
pub const REGISTERS: [Register; 4] = [Register::A, Register::B, Register::C, Register::D];

/// The place of a lane's hat on a side.
pub fn hat(lane: u32, side: u32) -> usize {
    HATS + 2 * lane as usize + side as usize
}

/// The place of a slot's link to a side.
pub fn link(slot: u32, side: u32) -> usize {
    HEADER + SLOT * slot as usize + side as usize
}

/// The place of a slot's value; its leading digit is the word after.
pub fn value(slot: u32) -> usize {
    HEADER + SLOT * slot as usize + 2
}

/// A task's words.
#[derive(Clone, Copy)]
pub struct Record<'a>(&'a [u32]);

impl<'a> Record<'a> {
    /// Those of a task that the table has.
    pub fn of(table: &'a [u32], task: u32) -> Record<'a> {
        let at = HEADER + SLOT * table[SLOTS] as usize + RECORD * task as usize;
        Record(&table[at..at + RECORD])
    }

    /// The line of the figure at which it stands; 0 for an idle one.
    pub fn step(self) -> u32 {
        self.0[1]
    }

    /// 0 left, 1 right.
    pub fn side(self) -> u32 {
        self.0[2]
    }

    /// The value that it has read, with its leading digit.
    pub fn value_read(self) -> [u32; 2] {
        [self.0[6], self.0[7]]
    }

    /// The slot in a register, or [`NONE`].
    pub fn register(self, register: Register) -> u32 {
        self.0[8 + register as usize]
    }

    /// The lane of its call.
    pub fn lane(self) -> u32 {
        self.0[12]
    }
}
