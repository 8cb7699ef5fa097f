//! The machine's limits, as `include/lane.h` has them for C.

/// The fewest slots of a table; with several lanes twice as many as they are.
pub const MIN_SLOTS: u32 = 2;
/// The most slots of a table.
pub const MAX_SLOTS: u32 = 1024;
/// The fewest tasks of a table.
pub const MIN_TASKS: u32 = 1;
/// The most tasks of a table.
pub const MAX_TASKS: u32 = 16;
/// The most spare slots that a push adds beyond the one it needs.
pub const MAX_GROWTH: u32 = 64;
/// The fewest lanes of a table.
pub const MIN_LANES: u32 = 1;
/// The most lanes of a table.
pub const MAX_LANES: u32 = 4;
/// The greatest leading digit of a [`Tag`](crate::Tag).
pub const MAX_DIGIT: u32 = 9;
/// The greatest low part of a [`Tag`](crate::Tag), the nine digits below the leading one.
pub const MAX_LOW: u32 = 999_999_999;
/// The greatest argument of an add.
pub const MAX_ADD: u32 = 64;
/// The greatest argument of a remove.
pub const MAX_REMOVE: u32 = 1023;
/// The most ticks of one run.
pub const MAX_TICKS: usize = 4096;
/// The most ticks of one list of the maintenance panel.
pub const MAX_PANEL_TICKS: usize = 32;
/// The bytes of a tag in a tag list: packed decimal, two digits to a byte.
pub const TAG_BYTES: usize = 5;
/// The most tags of a tag list.
pub const LIST_TAGS: usize = 1024;
/// The most lines of an airline list, with the closing one.
pub const LIST_LINES: usize = 64;
/// The most bytes of an airline list that is accepted.
pub const LIST_BYTES: usize = 1716;
/// The pages of the shift sheet, for any lane.
pub const PAGES: u32 = 3;
/// The most tags of a [`Page`](crate::Page).
pub const PAGE_TAGS: usize = 413;
/// The lines of a [`Page`](crate::Page), the heading with them.
pub const PAGE_LINES: usize = 60;
/// The bytes of a line of a [`Page`](crate::Page), without its line feed.
pub const PAGE_COLUMNS: usize = 80;
/// The bytes of a [`Page`](crate::Page).
pub const PAGE_BYTES: usize = 4860;

/// The most ticks that a [`Window`](crate::Window) looks back on; the fewest are 1.
pub const MAX_WIDTH: u32 = 4096;

/// The words of a table, whatever its lanes: 16 for the header, 4 a slot, 13 a task.
///
/// ```
/// assert_eq!(lane::words(4, 1), 45);
/// ```
#[must_use]
pub const fn words(slots: u32, tasks: u32) -> usize {
    16 + 4 * slots as usize + 13 * tasks as usize
}

/// The words of a [`Window`](crate::Window) that looks back on so many ticks.
///
/// ```
/// assert_eq!(lane::window_words(64), 68);
/// ```
#[must_use]
pub const fn window_words(width: u32) -> usize {
    width as usize + 4
}

/// Within so many of its own ticks a call answers while no other task is ticked, on a table that start began.
///
/// ```
/// assert_eq!(lane::max_ticks_alone(lane::MAX_SLOTS), 4250);
/// ```
#[must_use]
pub const fn max_ticks_alone(slots: u32) -> u32 {
    slots.saturating_mul(4).saturating_add(154)
}
