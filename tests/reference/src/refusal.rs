//! The refusal numbers, in the order in which they are tested.

/// Start: the number of lanes is out of range.
pub const LANES: u32 = 25;
/// Start: another size is out of range, or there are too few nodes for the lanes.
pub const START_SIZES: u32 = 1;
/// Start: the slice does not have the length the sizes ask for.
pub const START_LENGTH: u32 = 2;
/// The header's sizes are out of range or do not match the slice.
pub const SIZES: u32 = 3;
/// Some word holds a value it may not hold.
pub const SHAPE: u32 = 4;
/// No such lane.
pub const LANE: u32 = 26;
/// No such task.
pub const TASK: u32 = 5;
/// No such operation or side.
pub const OPERATION: u32 = 6;
/// The argument is out of its operation's range.
pub const ARGUMENT: u32 = 7;
/// Begin of a push: the tag is in a lane, or on its way there.
pub const TWICE: u32 = 16;
/// The task is in the middle of an operation.
pub const BUSY: u32 = 8;
/// The hint names no node.
pub const HINT: u32 = 9;
/// The task has nothing to do.
pub const IDLE: u32 = 10;
/// A link or register that is needed is none, or the deque has no end.
pub const NO_NODE: u32 = 11;
/// The out slice is shorter than the deque.
pub const OUT_LENGTH: u32 = 12;
/// There is no such page of the shift sheet.
pub const PAGE: u32 = 20;
/// The out slice does not have the length of a page.
pub const PAGE_LENGTH: u32 = 21;
/// The schedule has an odd length or is too long.
pub const SCHEDULE: u32 = 13;
/// The panel's schedule is too long.
pub const PANEL_SCHEDULE: u32 = 15;
/// The answer slice is too short for the schedule.
pub const ANSWERS: u32 = 14;
/// A tag list's length is not one of whole tags, or of too many.
pub const TAGS_LENGTH: u32 = 17;
/// A place of a tag list holds no tag.
pub const NO_TAG: u32 = 18;
/// The out slice is too short for the tag list.
pub const TAGS_OUT: u32 = 19;
/// The snapshot and the table differ in length.
pub const SNAPSHOT_LENGTH: u32 = 22;
/// The words are no window.
pub const WINDOW: u32 = 23;
/// The count fed to a window does not follow the last one.
pub const COUNT: u32 = 24;
/// A line of an airline list is neither form, is one too many, or is missing.
pub const LIST_LINE: u32 = 27;
/// An earlier line of an airline list has the code.
pub const LIST_CODE: u32 = 28;
/// A line of an airline list closes it before its end, or does not close it at its end.
pub const LIST_CLOSING: u32 = 29;
