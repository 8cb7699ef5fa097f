//! The words in which the two sides differ, so that the steps are written once.

use crate::table::{self, mark, node, Content};

/// What a step needs to know of its side.
pub struct Side {
    /// Link towards the values.
    pub inward: usize,
    /// Link towards the terminator.
    pub outward: usize,
    /// This side's null mark.
    pub null: Content,
    /// This side's terminator mark.
    pub terminator: Content,
    /// This side's mark for a node cut off.
    pub spur: Content,
    /// The other side's null mark.
    pub far_null: Content,
    /// The other side's terminator mark.
    pub far_terminator: Content,
}

const RIGHT: Side = Side {
    inward: node::LEFT,
    outward: node::RIGHT,
    null: mark(table::RN),
    terminator: mark(table::RX),
    spur: mark(table::RY),
    far_null: mark(table::LN),
    far_terminator: mark(table::LX),
};

static SIDES: [Side; 2] = [RIGHT.mirrored(), RIGHT];

impl Side {
    /// The side by its number: 0 left, else right.
    pub fn numbered(number: u32) -> &'static Side {
        &SIDES[usize::from(number != 0)]
    }

    const fn mirrored(self) -> Side {
        Side {
            inward: self.outward,
            outward: self.inward,
            null: far(self.null),
            terminator: far(self.terminator),
            spur: far(self.spur),
            far_null: far(self.far_null),
            far_terminator: far(self.far_terminator),
        }
    }
}

/// A mark seen from the other side.
const fn far([word, digit]: Content) -> Content {
    [table::mirror(word), digit]
}
