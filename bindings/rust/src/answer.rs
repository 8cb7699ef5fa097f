//! What the machine answers: its numbers as enums, and back.

use core::fmt;

use crate::{shown, Tag};

/// The answer of a tick that was made. Later versions may add some.
///
/// ```
/// use lane::{Answer, Tag};
///
/// assert_eq!(Answer::Bag(Tag::MIN).to_string(), "bag 0000000001");
/// assert_eq!(Answer::Empty.to_string(), "empty");
/// assert_eq!(format!("{:>8}|{:<8}|", Answer::No, Answer::Yes), "      no|yes     |");
/// ```
#[derive(Clone, Copy, Debug, PartialEq, Eq, Hash)]
#[must_use = "a call may have failed, or not be finished"]
#[non_exhaustive]
pub enum Answer {
    /// The call is not finished.
    Going,
    /// A push put its bag in its lane.
    Pushed,
    /// A pop took the bag with this tag.
    Bag(Tag),
    /// A pop found its lane empty.
    Empty,
    /// A push found no free slot.
    Full,
    /// An add added as many slots as were free, one at least; a remove has nothing more to do.
    Yes,
    /// An add found no free slot; a remove gave back nothing.
    No,
}

impl Answer {
    /// The answer of three words as a run writes them; none for words that no run writes.
    ///
    /// ```
    /// use lane::{Answer, Tag};
    ///
    /// assert_eq!(Answer::from_words([2, 0, 1]), Some(Answer::Bag(Tag::MIN)));
    /// assert_eq!(Answer::from_words([2, 0, 0]), None);
    /// ```
    #[must_use]
    pub const fn from_words(words: [u32; 3]) -> Option<Answer> {
        Some(match words {
            [0, 0, 0] => Answer::Going,
            [1, 0, 0] => Answer::Pushed,
            [2, digit, low] => match Tag::from_words([digit, low]) {
                Some(tag) => Answer::Bag(tag),
                None => return None,
            },
            [3, 0, 0] => Answer::Empty,
            [4, 0, 0] => Answer::Full,
            [5, 0, 0] => Answer::Yes,
            [6, 0, 0] => Answer::No,
            _ => return None,
        })
    }

    /// The three words that a run writes for it: the kind, then the tag's leading digit and low part, or zeros.
    ///
    /// ```
    /// assert_eq!(lane::Answer::Bag(lane::Tag::MIN).words(), [2, 0, 1]);
    /// ```
    #[must_use]
    pub const fn words(self) -> [u32; 3] {
        match self {
            Answer::Going => [0, 0, 0],
            Answer::Pushed => [1, 0, 0],
            Answer::Bag(tag) => {
                let [digit, low] = tag.words();
                [2, digit, low]
            }
            Answer::Empty => [3, 0, 0],
            Answer::Full => [4, 0, 0],
            Answer::Yes => [5, 0, 0],
            Answer::No => [6, 0, 0],
        }
    }
}

impl fmt::Display for Answer {
    fn fmt(&self, formatter: &mut fmt::Formatter<'_>) -> fmt::Result {
        formatter.pad(match self {
            Answer::Going => "going",
            Answer::Pushed => "pushed",
            Answer::Bag(tag) => return shown::pad(formatter, format_args!("bag {tag}")),
            Answer::Empty => "empty",
            Answer::Full => "full",
            Answer::Yes => "yes",
            Answer::No => "no",
        })
    }
}

/// Why a call was refused. A refused call has changed nothing. Later versions may add some.
///
/// ```
/// use lane::Refusal;
///
/// assert_eq!(Refusal::Idle.to_string(), "refused 10: the task is idle");
/// ```
#[derive(Clone, Copy, Debug, PartialEq, Eq, Hash)]
#[non_exhaustive]
#[repr(u32)]
pub enum Refusal {
    /// Start: slots, tasks or growth out of range, or fewer than two slots a lane.
    Sizes = 1,
    /// Start: not as many words as the sizes ask for.
    Length = 2,
    /// The words are no table: too few, or the header does not match their number.
    Table = 3,
    /// The table's shape is broken.
    Shape = 4,
    /// No such task.
    Task = 5,
    /// No such operation or side. This crate's enums keep it out.
    Operation = 6,
    /// The argument is out of the operation's range: that of an add or a remove, for a [`Tag`] is always in it.
    Argument = 7,
    /// Begin: the task is in the middle of a call.
    Busy = 8,
    /// The hint is not the number of a slot.
    Hint = 9,
    /// Tick: the task has no call.
    Idle = 10,
    /// A link or register that is needed is none, or a lane has no end; never on a table begun by start and written by
    /// these calls alone.
    NoSlot = 11,
    /// Read: the out slice is too short for the tags.
    Out = 12,
    /// Run, panel: more than 4,096 ticks.
    List = 13,
    /// Run, panel: fewer places for answers than ticks.
    Answers = 14,
    /// Panel: more than 32 ticks.
    Panel = 15,
    /// Begin of a push: the tag is in a lane or in a busy push.
    Twice = 16,
    /// Tag list: not a whole number of tags, or more than 1,024.
    Tags = 17,
    /// Tag list: a place holds no tag. [`RefusedTags`](crate::RefusedTags) has the first one.
    NoTag = 18,
    /// Tag list: the out slice is too short for it.
    TagsOut = 19,
    /// Sheet: page above 2.
    Page = 20,
    /// Sheet: the out slice is not as long as a page. A [`Page`](crate::Page) is always so long.
    PageOut = 21,
    /// Take, put: the snapshot and the table differ in length.
    Snapshot = 22,
    /// Window: its width is out of range, it is not so long, or a word is not as feeds leave it.
    Window = 23,
    /// Window: a count that is not the one after the last.
    Count = 24,
    /// Start: not one to four lanes. A [`Lane`](crate::Lane) has one.
    Lanes = 25,
    /// Begin, push by list, read, sheet: no such lane. A [`Lane`](crate::Lane) asks for none.
    Lane = 26,
    /// Airline list: a line that is neither form, a 65th line, or no line. [`ListFault`](crate::ListFault) has the
    /// line, also of the next two.
    Line = 27,
    /// Airline list: a code that an earlier line has.
    Code = 28,
    /// Airline list: a closing line with a line after it, or a last line that is none.
    Closing = 29,
}

impl Refusal {
    const ALL: [Refusal; 29] = [
        Refusal::Sizes,
        Refusal::Length,
        Refusal::Table,
        Refusal::Shape,
        Refusal::Task,
        Refusal::Operation,
        Refusal::Argument,
        Refusal::Busy,
        Refusal::Hint,
        Refusal::Idle,
        Refusal::NoSlot,
        Refusal::Out,
        Refusal::List,
        Refusal::Answers,
        Refusal::Panel,
        Refusal::Twice,
        Refusal::Tags,
        Refusal::NoTag,
        Refusal::TagsOut,
        Refusal::Page,
        Refusal::PageOut,
        Refusal::Snapshot,
        Refusal::Window,
        Refusal::Count,
        Refusal::Lanes,
        Refusal::Lane,
        Refusal::Line,
        Refusal::Code,
        Refusal::Closing,
    ];

    /// The refusal of a number; none for a number that no call gives.
    ///
    /// ```
    /// assert_eq!(lane::Refusal::from_number(10), Some(lane::Refusal::Idle));
    /// ```
    #[must_use]
    pub const fn from_number(number: u32) -> Option<Refusal> {
        let mut place = 0;
        while place < Refusal::ALL.len() {
            if Refusal::ALL[place].number() == number {
                return Some(Refusal::ALL[place]);
            }
            place += 1;
        }
        None
    }

    /// Its number.
    ///
    /// ```
    /// assert_eq!(lane::Refusal::Idle.number(), 10);
    /// ```
    #[must_use]
    pub const fn number(self) -> u32 {
        self as u32
    }
}

impl fmt::Display for Refusal {
    fn fmt(&self, formatter: &mut fmt::Formatter<'_>) -> fmt::Result {
        let reason = match self {
            Refusal::Sizes => "slots, tasks or growth out of range, or fewer than two slots a lane",
            Refusal::Length => "not as many words as the sizes ask for",
            Refusal::Table => "the words are no table",
            Refusal::Shape => "the table's shape is broken",
            Refusal::Task => "no such task",
            Refusal::Operation => "no such operation or side",
            Refusal::Argument => "argument out of range",
            Refusal::Busy => "the task is busy",
            Refusal::Hint => "the hint is not the number of a slot",
            Refusal::Idle => "the task is idle",
            Refusal::NoSlot => "a link or register that is needed is none, or a lane has no end",
            Refusal::Out => "the out slice is too short for the tags",
            Refusal::List => "a run takes at most 4,096 ticks",
            Refusal::Answers => "fewer places for answers than ticks",
            Refusal::Panel => "a panel's list of more than 32 ticks",
            Refusal::Twice => "the tag is in a lane or in a busy push",
            Refusal::Tags => "not a whole number of tags, or more than 1,024",
            Refusal::NoTag => "a place of the tag list holds no tag",
            Refusal::TagsOut => "the out slice is too short for the tag list",
            Refusal::Page => "no such page of the sheet",
            Refusal::PageOut => "the out slice is not as long as a page",
            Refusal::Snapshot => "the snapshot and the table differ in length",
            Refusal::Window => "the words are no window",
            Refusal::Count => "the count does not follow the last one fed",
            Refusal::Lanes => "not one to four lanes",
            Refusal::Lane => "no such lane",
            Refusal::Line => {
                "a line of the airline list is neither form, is one too many, or is missing"
            }
            Refusal::Code => "an earlier line of the airline list has the code",
            Refusal::Closing => "the airline list closes before its end, or not at its end",
        };
        let number = self.number();
        shown::pad(formatter, format_args!("refused {number}: {reason}"))
    }
}

impl core::error::Error for Refusal {}

/// A start, of a table or of a window, that was refused, with the words as they were. `?` makes a [`Refusal`] of it.
///
/// ```
/// use lane::{Lane, Refusal};
///
/// fn start(words: &mut [u32]) -> Result<Lane<&mut [u32]>, Refusal> {
///     Ok(Lane::start(words, 4, 1, 0)?)
/// }
/// assert_eq!(start(&mut [0; 9]), Err(Refusal::Length));
///
/// let refused = Lane::start([7; 9], 4, 1, 0).unwrap_err();
/// assert_eq!(refused.to_string(), "refused 2: not as many words as the sizes ask for");
/// assert_eq!(refused.words, [7; 9]);
/// ```
#[derive(Clone, Copy, PartialEq, Eq)]
#[non_exhaustive]
pub struct NotStarted<W> {
    /// Why.
    pub refusal: Refusal,
    /// The words, given back.
    pub words: W,
}

impl<W> From<NotStarted<W>> for Refusal {
    fn from(refused: NotStarted<W>) -> Refusal {
        refused.refusal
    }
}

impl<W> fmt::Display for NotStarted<W> {
    fn fmt(&self, formatter: &mut fmt::Formatter<'_>) -> fmt::Result {
        self.refusal.fmt(formatter)
    }
}

impl<W> fmt::Debug for NotStarted<W> {
    fn fmt(&self, formatter: &mut fmt::Formatter<'_>) -> fmt::Result {
        formatter
            .debug_struct("NotStarted")
            .field("refusal", &self.refusal)
            .finish_non_exhaustive()
    }
}

impl<W> core::error::Error for NotStarted<W> {}

/// What a run did.
///
/// ```
/// use lane::{Answer, Lane, Operation, Side};
///
/// let mut lane = Lane::start([0; lane::words(4, 1)], 4, 1, 0)?;
/// lane.begin(0, Operation::Pop, Side::Left)?;
/// let mut answers = [[0; 3]; 2];
/// let ran = lane.run(&[[0, 0]; 2], &mut answers);
/// assert_eq!((ran.made(), ran.refusal()), (2, None));
/// assert!(ran.answers().all(|answer| answer == Answer::Going));
/// # Ok::<(), lane::Refusal>(())
/// ```
#[derive(Clone, Copy, Debug)]
#[must_use = "a run may stop at a refused tick"]
pub struct Ran<'a> {
    words: &'a [[u32; 3]],
    refusal: Option<Refusal>,
}

impl<'a> Ran<'a> {
    pub(crate) fn new(words: &'a [[u32; 3]], refusal: Option<Refusal>) -> Ran<'a> {
        Ran { words, refusal }
    }

    /// The ticks made.
    #[must_use]
    pub fn made(&self) -> usize {
        self.words.len()
    }

    /// What stopped the run, if it did not come to its end: a refusal of the whole run, with no tick made, or of the
    /// tick after those made, which stay made.
    #[must_use]
    pub fn refusal(&self) -> Option<Refusal> {
        self.refusal
    }

    /// The answers of the ticks made, in order.
    pub fn answers(&self) -> impl Iterator<Item = Answer> + 'a {
        self.words
            .iter()
            .map(|&words| crate::known(Answer::from_words(words)))
    }
}

#[cfg(test)]
mod tests {
    use super::*;

    #[test]
    fn every_kind_is_decoded_once_and_back() {
        for kind in 0..=8 {
            for digit in [0, 1, 9, 10, u32::MAX] {
                for low in [0, 1, 51, 999_999_999, 1_000_000_000, u32::MAX] {
                    let words = [kind, digit, low];
                    let written = match kind {
                        2 => digit < 10 && low < 1_000_000_000 && [digit, low] != [0, 0],
                        _ => kind <= 6 && [digit, low] == [0, 0],
                    };
                    assert_eq!(Answer::from_words(words).is_some(), written, "{words:?}");
                    if let Some(answer) = Answer::from_words(words) {
                        assert_eq!(answer.words(), words);
                    }
                }
            }
        }
        assert_eq!(Answer::from_words([u32::MAX, 0, 0]), None);
    }

    /// A width, a fill and a precision are kept to by every text.
    #[test]
    fn every_text_is_shown_as_wide_as_asked() {
        extern crate std;
        use std::{format, string::ToString};

        for refusal in Refusal::ALL {
            let text = refusal.to_string();
            assert_eq!(format!("{refusal:120}|"), format!("{text:120}|"));
            assert_eq!(format!("{refusal:*>120.9}"), format!("{text:*>120.9}"));
            let refused = NotStarted { refusal, words: 7 };
            assert_eq!(format!("{refused:120}|"), format!("{text:120}|"));
        }
        for answer in [Answer::Bag(Tag::MAX), Answer::Going, Answer::No] {
            let text = answer.to_string();
            assert_eq!(format!("{answer:^20}|"), format!("{text:^20}|"));
            assert_eq!(format!("{answer:-<20.6}|"), format!("{text:-<20.6}|"));
        }
    }

    #[test]
    fn every_refusal_is_decoded_once_and_back() {
        for number in (0..=99).chain([u32::MAX]) {
            let refusal = Refusal::from_number(number);
            let given = matches!(number, 1..=29);
            assert_eq!(refusal.map(Refusal::number), given.then_some(number));
        }
    }
}
