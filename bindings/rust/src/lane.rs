//! A table with one lane: the same calls, with no lane to name.

use core::fmt;
use core::ops::{Deref, DerefMut};

use crate::{
    view, AirlineList, Answer, Bags, Begun, Lanes, NotStarted, Operation, Page, Record, Refusal,
    Side, Tag, Tags,
};

/// A table with one lane and the calls on it. The words are owned (`Vec<u32>`, `[u32; N]`) or lent (`&mut [u32]`;
/// `&[u32]` to read).
///
/// It is a [`Lanes`] with lane 0 alone: the calls that take a lane there take none here, and all others are those of
/// [`Lanes`]. A function over `&mut Lanes` takes a `&mut Lane` too.
///
/// No call trusts the words: a table that was damaged is refused with [`Refusal::Table`] or [`Refusal::Shape`].
///
/// `Debug` shows the bags, the hats and the tasks:
///
/// ```
/// use lane::{Lane, Operation, Side, Tag};
///
/// let mut lane = Lane::start([0; lane::words(4, 2)], 4, 2, 0)?;
/// lane.begin(1, Operation::Push(Tag::MAX), Side::Right)?;
/// assert_eq!(
///     format!("{lane:?}"),
///     "Lane { slots: 4, growth: 0, bags: [], left_hat: 0, right_hat: 1, ticks: 0, dispatched: 1, \
///      tasks: [Idle, Busy { operation: Push(9999999999), side: Right, step: 2 }] }"
/// );
/// assert_eq!(format!("{:?}", Lane::over([0; 37])), "Lane { refused: Table, words: 37 }");
/// # Ok::<(), lane::Refusal>(())
/// ```
#[derive(Clone, PartialEq, Eq)]
pub struct Lane<W> {
    table: Lanes<W>,
}

// Over no words, so that nobody has to say of which type they are.
impl Lane<()> {
    /// The most bags that a table of so many slots and one lane carries: all but one spare slot at each end.
    ///
    /// ```
    /// use lane::{Answer, Lane, Operation, Side, Tag};
    ///
    /// let mut lane = Lane::start([0; lane::words(4, 1)], 4, 1, 0)?;
    /// for tag in (1..=Lane::max_bags(4).into()).filter_map(Tag::new) {
    ///     assert_eq!(lane.call(0, Operation::Push(tag), Side::Right)?, Answer::Pushed);
    /// }
    /// assert_eq!(lane.call(0, Operation::Push(Tag::MAX), Side::Left)?, Answer::Full);
    /// # Ok::<(), lane::Refusal>(())
    /// ```
    #[must_use]
    pub const fn max_bags(slots: u32) -> u32 {
        Lanes::max_bags(slots, 1)
    }
}

impl<W: AsRef<[u32]> + AsMut<[u32]>> Lane<W> {
    /// Writes an empty lane over words of any content, as many as [`words`](crate::words) says: slots 2 to 1,024, tasks
    /// 1 to 16, and growth 0 to 64, the slots that a push adds beyond the one it needs. A refusal gives the words back.
    ///
    /// ```
    /// use lane::{Lane, Refusal};
    ///
    /// let lane = Lane::start([0; lane::words(4, 1)], 4, 1, 0)?;
    /// assert_eq!(lane.slots()?, 4);
    ///
    /// let refused = Lane::start(vec![7; 31], 4, 1, 0).unwrap_err();
    /// assert_eq!(refused.refusal, Refusal::Length);
    /// assert_eq!(refused.words, [7; 31]);
    /// # Ok::<(), Refusal>(())
    /// ```
    ///
    /// # Errors
    ///
    /// [`Refusal::Sizes`] and [`Refusal::Length`], tested in this order; with the words as they were.
    pub fn start(words: W, slots: u32, tasks: u32, growth: u32) -> Result<Lane<W>, NotStarted<W>> {
        Lanes::start(words, slots, tasks, growth, 1).map(|table| Lane { table })
    }

    /// Gives an idle task a call, as [`Lanes::begin`] does.
    ///
    /// ```
    /// use lane::{Lane, Operation, Refusal, Side, Tag};
    ///
    /// let mut lane = Lane::start([0; lane::words(4, 2)], 4, 2, 0)?;
    /// lane.begin(0, Operation::Push(Tag::MAX), Side::Right)?;
    /// assert_eq!(lane.begin(0, Operation::Pop, Side::Right), Err(Refusal::Busy));
    /// assert_eq!(lane.begin(1, Operation::Push(Tag::MAX), Side::Left), Err(Refusal::Twice));
    /// # Ok::<(), Refusal>(())
    /// ```
    ///
    /// # Errors
    ///
    /// Those of [`Lanes::begin`], but for [`Refusal::Lane`].
    pub fn begin(&mut self, task: u32, operation: Operation, side: Side) -> Result<(), Refusal> {
        self.table.begin(task, 0, operation, side)
    }

    /// Begins a call in a lent record, as [`Lanes::begin_record`] does.
    ///
    /// ```
    /// use lane::{Answer, Lane, Operation, Record, Side, Tag};
    ///
    /// let mut lane = Lane::start([0; lane::words(4, 2)], 4, 2, 0)?;
    /// let mut record = Record::FRESH;
    /// lane.begin_record(&mut record, 1, Operation::Push(Tag::MAX), Side::Right)?.copy();
    /// assert_eq!(lane.ticks(1, 0, u32::MAX)?, Answer::Pushed);
    /// # Ok::<(), lane::Refusal>(())
    /// ```
    ///
    /// # Errors
    ///
    /// Those of [`Lanes::begin_record`], but for [`Refusal::Lane`].
    pub fn begin_record<'a>(
        &'a mut self,
        record: &'a mut Record,
        task: u32,
        operation: Operation,
        side: Side,
    ) -> Result<Begun<'a>, Refusal> {
        self.table.begin_record(record, task, 0, operation, side)
    }

    /// Gives an idle task a push at the end that an airline list names for its tag, as [`Lanes::push_by_list`] does.
    ///
    /// ```
    /// use lane::{AirlineList, Answer, Lane, Tag};
    ///
    /// let list = AirlineList::parse("(airline (code 999) left)\n(others right)\n")?;
    /// let mut lane = Lane::start([0; lane::words(4, 1)], 4, 1, 0)?;
    /// for tag in [Tag::MIN, Tag::MAX] {
    ///     lane.push_by_list(0, tag, &list)?;
    ///     assert_eq!(lane.ticks(0, 0, u32::MAX)?, Answer::Pushed);
    /// }
    /// assert!(lane.bags()?.eq([Tag::MAX, Tag::MIN]));
    /// # Ok::<(), lane::Refusal>(())
    /// ```
    ///
    /// # Errors
    ///
    /// Those of [`Lanes::begin`], but for [`Refusal::Lane`].
    pub fn push_by_list<T: AsRef<[u8]>>(
        &mut self,
        task: u32,
        tag: Tag,
        list: &AirlineList<T>,
    ) -> Result<(), Refusal> {
        self.table.push_by_list(task, 0, tag, list)
    }

    /// Begins a call and ticks its task to the answer, as [`Lanes::call`] does.
    ///
    /// ```
    /// use lane::{Answer, Lane, Operation, Side, Tag};
    ///
    /// let mut lane = Lane::start([0; lane::words(4, 1)], 4, 1, 0)?;
    /// assert_eq!(lane.call(0, Operation::Push(Tag::MAX), Side::Right)?, Answer::Pushed);
    /// assert_eq!(lane.call(0, Operation::Pop, Side::Left)?, Answer::Bag(Tag::MAX));
    /// assert_eq!(lane.call(0, Operation::Pop, Side::Left)?, Answer::Empty);
    /// # Ok::<(), lane::Refusal>(())
    /// ```
    ///
    /// # Errors
    ///
    /// Those of [`Lanes::call`], but for [`Refusal::Lane`].
    pub fn call(&mut self, task: u32, operation: Operation, side: Side) -> Result<Answer, Refusal> {
        self.table.call(task, 0, operation, side)
    }

    /// Pushes a bag that was [`Answer::Full`] at an end, as [`Lanes::make_room`] does.
    ///
    /// ```
    /// use lane::{Answer, Lane, Operation, Side, Tag};
    ///
    /// let mut lane = Lane::start([0; lane::words(8, 1)], 8, 1, 0)?;
    /// assert_eq!(lane.call(0, Operation::Add(5), Side::Left)?, Answer::Yes); // all that were free
    /// assert_eq!(lane.call(0, Operation::Push(Tag::MAX), Side::Right)?, Answer::Full);
    /// assert_eq!(lane.make_room(0, Tag::MAX, Side::Right)?, Answer::Pushed);
    /// # Ok::<(), lane::Refusal>(())
    /// ```
    ///
    /// # Errors
    ///
    /// Those of [`Lanes::call`], but for [`Refusal::Lane`].
    pub fn make_room(&mut self, task: u32, tag: Tag, side: Side) -> Result<Answer, Refusal> {
        self.table.make_room(task, 0, tag, side)
    }
}

impl<W: AsRef<[u32]>> Lane<W> {
    /// Takes words that hold a table already. Every call tests them. Of a table with several lanes this is lane 0; its
    /// `Debug` shows them all.
    ///
    /// ```
    /// use lane::{Lane, Lanes, Operation, Refusal, Side, Tag};
    ///
    /// let table = Lane::start(vec![0; lane::words(4, 1)], 4, 1, 0)?.into_words();
    /// assert_eq!(Lane::over(&table).bags()?.next(), None);
    /// assert_eq!(Lane::over(&table[1..]).slots(), Err(Refusal::Table));
    ///
    /// let mut lanes = Lanes::start([0; lane::words(8, 1)], 8, 1, 0, 2)?;
    /// let _ = lanes.call(0, 1, Operation::Push(Tag::MAX), Side::Right)?;
    /// assert_eq!(Lane::over(lanes.words()).bags()?.next(), None);
    /// # Ok::<(), Refusal>(())
    /// ```
    pub fn over(words: W) -> Lane<W> {
        Lane {
            table: Lanes::over(words),
        }
    }

    /// Writes the tags of the lane, left end first, two words each, and gives those written. [`Lane::max_bags`] places
    /// are enough.
    ///
    /// ```
    /// use lane::{Lane, Operation, Refusal, Side, Tag};
    ///
    /// let mut lane = Lane::start([0; lane::words(4, 1)], 4, 1, 0)?;
    /// for tag in [Tag::MAX, Tag::MIN] {
    ///     let _ = lane.call(0, Operation::Push(tag), Side::Right)?;
    /// }
    /// let mut out = [[0; 2]; Lane::max_bags(4) as usize];
    /// assert!(lane.read(&mut out)?.eq([Tag::MAX, Tag::MIN]));
    /// assert_eq!(out, [[9, 999_999_999], [0, 1]]);
    /// assert_eq!(lane.read(&mut out[..1]).err(), Some(Refusal::Out));
    /// # Ok::<(), Refusal>(())
    /// ```
    ///
    /// # Errors
    ///
    /// Those of [`Lanes::read`], but for [`Refusal::Lane`].
    pub fn read<'a>(&self, out: &'a mut [[u32; 2]]) -> Result<Tags<'a>, Refusal> {
        self.table.read(0, out)
    }

    /// The tags of the lane, left end first, without a buffer.
    ///
    /// ```
    /// use lane::{Lane, Operation, Side, Tag};
    ///
    /// let mut lane = Lane::start([0; lane::words(4, 1)], 4, 1, 0)?;
    /// for tag in [Tag::MAX, Tag::MIN] {
    ///     let _ = lane.call(0, Operation::Push(tag), Side::Right)?;
    /// }
    /// assert!(lane.bags()?.eq([Tag::MAX, Tag::MIN]));
    /// # Ok::<(), lane::Refusal>(())
    /// ```
    ///
    /// # Errors
    ///
    /// Those of [`Lanes::bags`], but for [`Refusal::Lane`].
    pub fn bags(&self) -> Result<Bags<'_>, Refusal> {
        self.table.bags(0)
    }

    /// A page of the shift sheet of the lane, as [`Lanes::sheet`] gives it.
    ///
    /// ```
    /// use lane::{Lane, Operation, Side, Tag};
    ///
    /// let mut lane = Lane::start([0; lane::words(4, 1)], 4, 1, 0)?;
    /// let _ = lane.call(0, Operation::Push(Tag::MAX), Side::Right)?;
    /// let page = lane.sheet(0)?;
    /// let lines: Vec<&str> = page.lines().map(str::trim_end).take(3).collect();
    /// assert_eq!(lines, ["LANE 0001", "9999999999", ""]);
    /// # Ok::<(), lane::Refusal>(())
    /// ```
    ///
    /// # Errors
    ///
    /// Those of [`Lanes::sheet`], but for [`Refusal::Lane`].
    pub fn sheet(&self, page: u32) -> Result<Page, Refusal> {
        self.table.sheet(0, page)
    }

    /// The table, given back.
    ///
    /// ```
    /// let lane = lane::Lane::start(vec![0; lane::words(4, 1)], 4, 1, 0)?;
    /// let table: Vec<u32> = lane.into_words();
    /// assert_eq!(table.len(), lane::words(4, 1));
    /// # Ok::<(), lane::Refusal>(())
    /// ```
    pub fn into_words(self) -> W {
        self.table.into_words()
    }
}

/// What takes no lane is written once, there.
///
/// ```
/// use lane::{Lane, Lanes};
///
/// fn all_idle(table: &Lanes<Vec<u32>>) -> Result<bool, lane::Refusal> {
///     for task in 0..table.tasks()? {
///         if table.is_busy(task)? {
///             return Ok(false);
///         }
///     }
///     Ok(true)
/// }
/// let lane = Lane::start(vec![0; lane::words(4, 3)], 4, 3, 0)?;
/// assert_eq!((all_idle(&lane), lane.tasks()), (Ok(true), Ok(3)));
/// # Ok::<(), lane::Refusal>(())
/// ```
impl<W> Deref for Lane<W> {
    type Target = Lanes<W>;

    fn deref(&self) -> &Lanes<W> {
        &self.table
    }
}

impl<W> DerefMut for Lane<W> {
    fn deref_mut(&mut self) -> &mut Lanes<W> {
        &mut self.table
    }
}

impl<W: AsRef<[u32]>> fmt::Debug for Lane<W> {
    fn fmt(&self, formatter: &mut fmt::Formatter<'_>) -> fmt::Result {
        view::show("Lane", self.words(), formatter)
    }
}
