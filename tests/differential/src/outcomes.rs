//! What a tick can come to, step by step: the cause and where it leads, as the right side sees it.

use reference::table::{ADD, POP, PUSH, REMOVE};
use Leads::{Refused, Says, To};

/// Where a tick leads.
#[derive(Clone, Copy, Debug, PartialEq, Eq)]
pub enum Leads {
    /// To a step.
    To(u32),
    /// To an answer of this kind.
    Says(u32),
    /// To refusal 11.
    Refused,
}

/// One thing that a tick at a step can come to.
pub struct Outcome {
    /// The step before the tick.
    pub step: u32,
    /// The operations that it can come to.
    pub operations: &'static [u32],
    /// What the tick found.
    pub cause: &'static str,
    /// What follows.
    pub leads: Leads,
    /// Whether a table that start and the calls reach takes it.
    pub reachable: bool,
}

const fn on(step: u32, operations: &'static [u32], cause: &'static str, leads: Leads) -> Outcome {
    Outcome {
        step,
        operations,
        cause,
        leads,
        reachable: true,
    }
}

/// An outcome of other well-shaped tables alone.
const fn off(step: u32, operations: &'static [u32], cause: &'static str, leads: Leads) -> Outcome {
    Outcome {
        reachable: false,
        ..on(step, operations, cause, leads)
    }
}

const PU: &[u32] = &[PUSH];
const AD: &[u32] = &[ADD];
const PA: &[u32] = &[PUSH, ADD];
const PO: &[u32] = &[POP];
const RE: &[u32] = &[REMOVE];

/// All outcomes. Those of no reachable table: refusal 11, a node never used, 74 at the end of its chain, 77 on a node
/// that is not spare and so 78 on another digit, 81 at the end of the chain before its RX. Where a mark is compared, no
/// well-shaped table has another digit beside it.
pub const OUTCOMES: &[Outcome] = &[
    on(2, PU, "always", To(3)),
    on(3, PU, "A.R none", To(8)),
    on(3, PU, "A.R a slot", To(5)),
    off(3, PU, "A none", Refused),
    on(5, PU, "equal", Says(1)),
    on(5, PU, "hat differs", To(8)),
    on(5, PU, "A.V differs", To(8)),
    on(5, PU, "both differ", To(8)),
    off(5, PU, "A none", Refused),
    off(5, PU, "B none", Refused),
    on(8, PU, "A.V is RX", To(28)),
    on(8, PU, "A.V is not RX", To(67)),
    off(8, PU, "A none", Refused),
    on(67, PA, "always", To(68)),
    on(68, PA, "A.V is RY", To(69)),
    on(68, PU, "A.V is not RY, no chain", To(2)),
    on(68, PA, "A.V is not RY", To(15)),
    off(68, PA, "A none", Refused),
    on(69, PA, "always", To(70)),
    off(69, PA, "A none", Refused),
    on(70, PA, "B.R a slot", To(72)),
    on(70, PU, "B.R none, no chain", To(2)),
    on(70, PA, "B.R none", To(15)),
    off(70, PA, "B none", Refused),
    on(72, PU, "equal, no chain", To(2)),
    on(72, PA, "equal", To(15)),
    on(72, PU, "hat differs, no chain", To(2)),
    on(72, PA, "hat differs", To(15)),
    off(72, PA, "C none", Refused),
    on(28, PA, "taken, goal 0", To(15)),
    on(28, PA, "taken", To(31)),
    on(28, PU, "none free", Says(4)),
    on(28, AD, "none free", Says(6)),
    on(31, PA, "taken, goal reached", To(15)),
    on(31, PA, "taken", To(31)),
    on(31, PA, "none free", To(15)),
    off(31, PA, "D none", Refused),
    on(15, PA, "always", To(17)),
    on(17, PA, "RN", To(18)),
    on(17, PA, "RY", To(67)),
    on(17, PA, "RX", To(24)),
    on(17, PA, "a tag", To(15)),
    on(17, PA, "a tag, V 0", To(15)),
    on(17, PA, "LN", To(15)),
    on(17, PA, "LX", To(15)),
    on(17, PA, "LY", To(15)),
    off(17, PA, "never used", To(15)),
    off(17, PA, "A none", Refused),
    on(18, PA, "A.R none", To(15)),
    on(18, PA, "A.R a slot", To(17)),
    off(18, PA, "A none", Refused),
    on(24, PA, "A.R none", To(25)),
    on(24, PA, "A.R a slot", To(25)),
    off(24, PA, "A none", Refused),
    off(24, PA, "D none", Refused),
    on(25, PU, "equal", To(2)),
    on(25, AD, "equal", Says(5)),
    on(25, PA, "A.R differs", To(15)),
    on(25, PA, "A.V differs", To(15)),
    on(25, PA, "both differ", To(15)),
    off(25, PA, "A none", Refused),
    on(39, PO, "always", To(40)),
    on(40, PO, "A.L none", To(39)),
    on(40, PO, "A.L a slot", To(42)),
    off(40, PO, "A none", Refused),
    on(42, PO, "a tag", To(51)),
    on(42, PO, "a tag, V 0", To(51)),
    on(42, PO, "LN", To(48)),
    on(42, PO, "LX", To(48)),
    on(42, PO, "LY", To(39)),
    on(42, PO, "RN", To(39)),
    on(42, PO, "RX", To(39)),
    on(42, PO, "RY", To(39)),
    off(42, PO, "never used", To(39)),
    off(42, PO, "B none", Refused),
    on(48, PO, "equal", Says(3)),
    on(48, PO, "hat differs", To(39)),
    on(48, PO, "B.V differs", To(39)),
    on(48, PO, "both differ", To(39)),
    off(48, PO, "B none", Refused),
    on(51, PO, "equal", Says(2)),
    on(51, PO, "hat differs", To(39)),
    on(51, PO, "B.V differs", To(39)),
    on(51, PO, "B's digit alone differs", To(39)),
    on(51, PO, "both differ", To(39)),
    off(51, PO, "B none", Refused),
    on(54, RE, "goal 0", To(60)),
    on(54, RE, "goal above 0", To(56)),
    on(56, RE, "A.V is RX", Says(5)),
    on(56, RE, "A.V is not RX", To(58)),
    off(56, RE, "A none", Refused),
    on(58, RE, "A.R none", Says(5)),
    on(58, RE, "goal reached", To(60)),
    on(58, RE, "goal not reached", To(56)),
    off(58, RE, "A none", Refused),
    on(60, RE, "A.R none", Says(5)),
    on(60, RE, "A.R a slot", To(62)),
    off(60, RE, "A none", Refused),
    on(62, RE, "equal", To(64)),
    on(62, RE, "A.V differs", Says(6)),
    on(62, RE, "B.V differs", Says(6)),
    on(62, RE, "both differ", Says(6)),
    off(62, RE, "A none", Refused),
    off(62, RE, "B none", Refused),
    on(64, RE, "equal", To(74)),
    on(64, RE, "A.R differs", To(74)),
    off(64, RE, "A none", Refused),
    off(74, RE, "B.R none", To(82)),
    on(74, RE, "B.R a slot", To(77)),
    off(74, RE, "B none", Refused),
    on(77, RE, "RN", To(78)),
    on(77, RE, "RX", To(78)),
    off(77, RE, "RY", To(78)),
    off(77, RE, "a tag", To(78)),
    off(77, RE, "a tag, V 0", To(78)),
    off(77, RE, "LN", To(78)),
    off(77, RE, "LX", To(78)),
    off(77, RE, "LY", To(78)),
    off(77, RE, "never used", To(78)),
    off(77, RE, "B none", Refused),
    on(78, RE, "equal", To(79)),
    on(78, RE, "B.V differs", To(77)),
    off(78, RE, "B's digit alone differs", To(77)),
    off(78, RE, "B none", Refused),
    on(79, RE, "always", To(81)),
    off(79, RE, "A none", Refused),
    on(81, RE, "A.R none, value RX", To(82)),
    on(81, RE, "A.R a slot, value RX", To(82)),
    off(81, RE, "A.R none, value not RX", To(82)),
    on(81, RE, "A.R a slot, value not RX", To(77)),
    off(81, RE, "A none", Refused),
    on(82, RE, "always", Says(5)),
    off(82, RE, "A none", Refused),
];
