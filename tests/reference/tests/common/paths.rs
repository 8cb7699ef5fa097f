//! Which registers a path of steps may still use, from the paper's list of steps alone.

use reference::table::record::{A, B, C, D};

/// A next step, and the registers that the tick sets on its way there.
type Way = (u32, &'static [usize]);

/// Each step with the registers that it reads, stores, compares or tests for none before it sets them, and its ways
/// on. A tick that answers has no way on: the record is then fresh.
#[rustfmt::skip]
pub const STEPS: [(u32, &[usize], &[Way]); 33] = [
    (2, &[], &[(3, &[A])]),
    (3, &[A], &[(8, &[B]), (5, &[B])]),
    (5, &[A, B], &[(8, &[])]),
    (8, &[A], &[(28, &[]), (67, &[])]),
    // Back is 2 or 15, and D tells which.
    (67, &[], &[(68, &[A])]),
    (68, &[A, D], &[(69, &[]), (2, &[]), (15, &[])]),
    (69, &[A], &[(70, &[B])]),
    (70, &[B, D], &[(72, &[C]), (2, &[C]), (15, &[C])]),
    (72, &[A, C, D], &[(2, &[]), (15, &[])]),
    (28, &[], &[(15, &[D]), (31, &[D])]),
    (31, &[D], &[(15, &[D]), (31, &[D]), (15, &[])]),
    (15, &[], &[(17, &[A])]),
    (17, &[A], &[(18, &[]), (67, &[]), (24, &[]), (15, &[])]),
    (18, &[A], &[(15, &[A]), (17, &[A])]),
    (24, &[A, D], &[(25, &[B])]),
    (25, &[A, B, D], &[(15, &[]), (2, &[D])]),
    (39, &[], &[(40, &[A])]),
    (40, &[A], &[(39, &[B]), (42, &[B])]),
    (42, &[B], &[(51, &[]), (48, &[]), (39, &[])]),
    (48, &[A, B], &[(39, &[])]),
    (51, &[A, B], &[(39, &[])]),
    (54, &[], &[(60, &[A]), (56, &[A])]),
    (56, &[A], &[(58, &[])]),
    (58, &[A], &[(60, &[A]), (56, &[A])]),
    (60, &[A], &[(62, &[B])]),
    (62, &[A, B], &[(64, &[])]),
    (64, &[A, B], &[(74, &[])]),
    (74, &[B], &[(82, &[A, B]), (77, &[A, B])]),
    (77, &[B], &[(78, &[])]),
    (78, &[B], &[(77, &[]), (79, &[])]),
    (79, &[A, B], &[(81, &[A])]),
    (81, &[A], &[(82, &[B]), (77, &[B])]),
    (82, &[A], &[]),
];

/// Step and register, wherever a path of steps uses the register before it sets it.
pub struct Needed(Vec<(u32, usize)>);

impl Needed {
    /// The least such set: from the uses back along the ways until nothing is added.
    pub fn new() -> Needed {
        let mut needed = Needed(Vec::new());
        for (step, uses, _) in STEPS {
            needed
                .0
                .extend(uses.iter().map(|&register| (step, register)));
        }
        while let Some(more) = needed.behind() {
            needed.0.push(more);
        }
        needed
    }

    /// Whether the register holds its node at the step, by 2026-06.
    pub fn holds(&self, step: u32, register: usize) -> bool {
        self.0.contains(&(step, register))
    }

    /// A step that leads to a need which it does not set, and that is not yet known.
    fn behind(&self) -> Option<(u32, usize)> {
        let ways = STEPS
            .iter()
            .flat_map(|(step, _, ways)| ways.iter().map(move |way| (*step, way)));
        ways.flat_map(|(step, (next, sets))| {
            let kept = [A, B, C, D].into_iter().filter(|r| !sets.contains(r));
            kept.filter(|&register| self.holds(*next, register))
                .map(move |register| (step, register))
        })
        .find(|&(step, register)| !self.holds(step, register))
    }
}
