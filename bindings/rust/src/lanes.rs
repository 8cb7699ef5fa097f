//! A table with one to four lanes, and the calls on it.

use core::fmt;

use crate::view::{self, View};
use crate::{
    ffi, linked, max_ticks_alone, outcome, pair, place, reply, AirlineList, Answer, Bags, Begun,
    Dispatched, NotStarted, Operation, Page, Ran, Record, Refusal, Side, Snapshot, Tag, Tags,
};

/// A table with one to four lanes, numbered from 0, and the calls on it. The words are owned (`Vec<u32>`, `[u32; N]`)
/// or lent (`&mut [u32]`; `&[u32]` to read). [`Lane`](crate::Lane) is the same for those who have one lane.
///
/// The lanes share the slots, and a tag is in one place of all of them. Else a call changes nothing of a lane but its
/// own: each is its own row of bags.
///
/// No call trusts the words: a table that was damaged is refused with [`Refusal::Table`] or [`Refusal::Shape`].
///
/// `Debug` shows each lane's bags and hats, and the tasks:
///
/// ```
/// use lane::{Lanes, Operation, Side, Tag};
///
/// let mut lanes = Lanes::start([0; lane::words(4, 2)], 4, 2, 0, 2)?;
/// lanes.begin(1, 1, Operation::Push(Tag::MAX), Side::Right)?;
/// assert_eq!(
///     format!("{lanes:?}"),
///     "Lanes { slots: 4, growth: 0, lanes: [Lane { bags: [], left_hat: 0, right_hat: 1 }, \
///      Lane { bags: [], left_hat: 2, right_hat: 3 }], ticks: 0, dispatched: 1, \
///      tasks: [Idle, Busy { lane: 1, operation: Push(9999999999), side: Right, step: 2 }] }"
/// );
/// assert_eq!(format!("{:?}", Lanes::over([0; 37])), "Lanes { refused: Table, words: 37 }");
/// # Ok::<(), lane::Refusal>(())
/// ```
#[derive(Clone)]
pub struct Lanes<W> {
    words: W,
    /// Whether a call has accepted the words. Then they are a table for good, and what looks at a word of them need not
    /// test them all: only calls write them, and no call makes anything else of a table.
    accepted: bool,
}

impl<W: PartialEq> PartialEq for Lanes<W> {
    fn eq(&self, other: &Lanes<W>) -> bool {
        self.words == other.words
    }
}

impl<W: Eq> Eq for Lanes<W> {}

// Over no words, so that nobody has to say of which type they are.
impl Lanes<()> {
    /// The most bags that a table of so many slots and lanes carries, in all lanes together: all but one spare slot at
    /// each end.
    ///
    /// ```
    /// use lane::{Answer, Lanes, Operation, Side, Tag};
    ///
    /// let mut lanes = Lanes::start([0; lane::words(8, 1)], 8, 1, 0, 2)?;
    /// for tag in (1..=Lanes::max_bags(8, 2).into()).filter_map(Tag::new) {
    ///     let lane = tag.number() as u32 % 2;
    ///     assert_eq!(lanes.call(0, lane, Operation::Push(tag), Side::Right)?, Answer::Pushed);
    /// }
    /// assert_eq!(lanes.call(0, 1, Operation::Push(Tag::MAX), Side::Left)?, Answer::Full);
    /// # Ok::<(), lane::Refusal>(())
    /// ```
    #[must_use]
    pub const fn max_bags(slots: u32, lanes: u32) -> u32 {
        slots.saturating_sub(lanes.saturating_mul(2))
    }
}

impl<W: AsRef<[u32]> + AsMut<[u32]>> Lanes<W> {
    /// Writes empty lanes over words of any content, as many as [`words`](crate::words) says: slots 2 to 1,024, and two
    /// a lane at least, tasks 1 to 16, growth 0 to 64, the slots that a push adds beyond the one it needs, and lanes 1
    /// to 4. A refusal gives the words back.
    ///
    /// ```
    /// use lane::{Lanes, Refusal};
    ///
    /// let lanes = Lanes::start([0; lane::words(8, 1)], 8, 1, 0, 4)?;
    /// assert_eq!(lanes.lanes()?, 4);
    ///
    /// let refused = Lanes::start(vec![7; 61], 8, 1, 0, 5).unwrap_err();
    /// assert_eq!(refused.refusal, Refusal::Lanes);
    /// assert_eq!(refused.words, [7; 61]);
    /// let refused = Lanes::start([7; lane::words(7, 1)], 7, 1, 0, 4).unwrap_err();
    /// assert_eq!(refused.refusal, Refusal::Sizes);
    /// # Ok::<(), Refusal>(())
    /// ```
    ///
    /// # Errors
    ///
    /// [`Refusal::Lanes`], [`Refusal::Sizes`] and [`Refusal::Length`], tested in this order; with the words as they
    /// were.
    pub fn start(
        mut words: W,
        slots: u32,
        tasks: u32,
        growth: u32,
        lanes: u32,
    ) -> Result<Lanes<W>, NotStarted<W>> {
        linked::check();
        match reply(ffi::start(words.as_mut(), slots, tasks, growth, lanes)) {
            Ok(()) => Ok(Lanes {
                words,
                accepted: true,
            }),
            Err(refusal) => Err(NotStarted { refusal, words }),
        }
    }

    /// Gives an idle task a call on a lane. Nothing of it is done before the task's ticks, which take no lane: the task
    /// keeps it. A push of a tag that is in any lane or in a busy push is refused, on its own task too:
    /// [`Refusal::Twice`].
    ///
    /// ```
    /// use lane::{Lanes, Operation, Refusal, Side, Tag};
    ///
    /// let mut lanes = Lanes::start([0; lane::words(8, 2)], 8, 2, 0, 2)?;
    /// lanes.begin(0, 1, Operation::Push(Tag::MAX), Side::Right)?;
    /// assert_eq!(lanes.begin(0, 0, Operation::Pop, Side::Right), Err(Refusal::Busy));
    /// assert_eq!(lanes.begin(1, 0, Operation::Push(Tag::MAX), Side::Left), Err(Refusal::Twice));
    /// assert_eq!(lanes.begin(1, 2, Operation::Pop, Side::Left), Err(Refusal::Lane));
    /// # Ok::<(), Refusal>(())
    /// ```
    ///
    /// # Errors
    ///
    /// [`Refusal::Table`], [`Refusal::Shape`], [`Refusal::Lane`], [`Refusal::Task`], [`Refusal::Argument`], for a push
    /// [`Refusal::NoSlot`] and [`Refusal::Twice`], and [`Refusal::Busy`], tested in this order.
    pub fn begin(
        &mut self,
        task: u32,
        lane: u32,
        operation: Operation,
        side: Side,
    ) -> Result<(), Refusal> {
        let [digit, argument] = operation.argument();
        let (number, side) = (operation.number(), side.number());
        let words = self.words.as_mut();
        let begun = ffi::begin(words, task, lane, number, side, digit, argument);
        self.accept(reply(begun))
    }

    /// Gives an idle task a push on a lane, at the end that an airline list names for its tag; else it is such a
    /// [`Lanes::begin`].
    ///
    /// ```
    /// use lane::{AirlineList, Answer, Lanes, Refusal, Tag};
    ///
    /// let list = AirlineList::parse("(airline (code 999) left)\n(others right)\n")?;
    /// let mut lanes = Lanes::start([0; lane::words(8, 2)], 8, 2, 0, 2)?;
    /// for tag in [Tag::MIN, Tag::MAX] {
    ///     lanes.push_by_list(0, 1, tag, &list)?;
    ///     assert_eq!(lanes.ticks(0, 0, u32::MAX)?, Answer::Pushed);
    /// }
    /// assert!(lanes.bags(1)?.eq([Tag::MAX, Tag::MIN]));
    /// assert_eq!(lanes.push_by_list(1, 0, Tag::MIN, &list), Err(Refusal::Twice));
    /// # Ok::<(), Refusal>(())
    /// ```
    ///
    /// # Errors
    ///
    /// Those of [`Lanes::begin`], for a push.
    pub fn push_by_list<T: AsRef<[u8]>>(
        &mut self,
        task: u32,
        lane: u32,
        tag: Tag,
        list: &AirlineList<T>,
    ) -> Result<(), Refusal> {
        let ([digit, low], words) = (tag.words(), self.words.as_mut());
        let begun = ffi::push_by_list(list.text(), words, task, lane, digit, low);
        let (refusal, _) = pair(begun);
        self.accept(refusal.map_or(Ok(()), Err))
    }

    /// Begins a call in a lent record, as [`Lanes::begin`] does with that record in the place of its task: what stands
    /// there in the table is not looked at. The record is written, and [`Begun::copy`] copies it to the table; until then
    /// the table is as it was, and no other call can come in between. A refusal leaves the record as it was.
    ///
    /// After its answer the task is idle in the table, and the panel's own record is of the past: lend
    /// [`Record::FRESH`] next, or what [`Lanes::record`] gives.
    ///
    /// ```
    /// use lane::{Lanes, Operation, Record, Refusal, Side, Tag};
    ///
    /// let mut lanes = Lanes::start([0; lane::words(8, 2)], 8, 2, 0, 2)?;
    /// let [mut west, mut east] = [Record::FRESH; 2]; // each panel has its own
    /// lanes.begin_record(&mut west, 0, 1, Operation::Push(Tag::MAX), Side::Left)?.copy();
    /// let begun = lanes.begin_record(&mut east, 1, 0, Operation::Push(Tag::MAX), Side::Left);
    /// assert_eq!(begun.err(), Some(Refusal::Twice));
    /// assert_eq!((west.is_busy(), east.is_busy()), (true, false));
    ///
    /// drop(lanes.begin_record(&mut east, 1, 0, Operation::Pop, Side::Left)?); // not copied
    /// assert_eq!((east.is_busy(), lanes.is_busy(1)), (true, Ok(false)));
    /// # Ok::<(), Refusal>(())
    /// ```
    ///
    /// # Errors
    ///
    /// Those of [`Lanes::begin`], with [`Refusal::Shape`] of the table with the record in its place.
    pub fn begin_record<'a>(
        &'a mut self,
        record: &'a mut Record,
        task: u32,
        lane: u32,
        operation: Operation,
        side: Side,
    ) -> Result<Begun<'a>, Refusal> {
        let [digit, argument] = operation.argument();
        let (number, side) = (operation.number(), side.number());
        let (words, own) = (self.words.as_mut(), record.words_mut());
        reply(ffi::begin_record(
            own, words, task, lane, number, side, digit, argument,
        ))?;
        let at = place::record(words[place::SLOTS], task);
        Ok(Begun::new(&mut words[at..][..place::RECORD], record))
    }

    /// Makes one tick of a busy task. If the tick takes a free slot, it is the first one from `hint` (below the number
    /// of slots) upward, going round. 0 always works; the slot after the one last taken shortens the search, and
    /// docs/USE.md says how a caller keeps it.
    ///
    /// ```
    /// use lane::{Answer, Lanes, Operation, Side, Tag};
    ///
    /// let mut lanes = Lanes::start([0; lane::words(8, 1)], 8, 1, 0, 2)?;
    /// lanes.begin(0, 1, Operation::Push(Tag::MAX), Side::Right)?;
    /// let answer = loop {
    ///     match lanes.tick(0, 0)? {
    ///         Answer::Going => {}
    ///         answer => break answer,
    ///     }
    /// };
    /// assert_eq!(answer, Answer::Pushed);
    /// # Ok::<(), lane::Refusal>(())
    /// ```
    ///
    /// # Errors
    ///
    /// [`Refusal::Table`], [`Refusal::Shape`], [`Refusal::Task`], [`Refusal::Hint`], [`Refusal::Idle`] and
    /// [`Refusal::NoSlot`], tested in this order.
    pub fn tick(&mut self, task: u32, hint: u32) -> Result<Answer, Refusal> {
        let answer = outcome(ffi::tick(self.words.as_mut(), task, hint));
        self.accept(answer)
    }

    /// Makes ticks of a busy task, each with this hint, until one does not say [`Answer::Going`], or so many, and gives
    /// what [`Lanes::tick`] gives for the last. The table is tested once for all of them; with 0 of them it is not
    /// looked at, and the answer is [`Answer::Going`].
    ///
    /// A refusal of the first tick changes nothing. A later one is refused with [`Refusal::NoSlot`] alone, on a table
    /// that no start began, and the ticks before it stay made.
    ///
    /// ```
    /// use lane::{Answer, Lanes, Operation, Refusal, Side, Tag};
    ///
    /// let mut lanes = Lanes::start([0; lane::words(8, 1)], 8, 1, 0, 2)?;
    /// lanes.begin(0, 1, Operation::Push(Tag::MAX), Side::Right)?;
    /// assert_eq!(lanes.ticks(0, 0, 10)?, Answer::Going);
    /// assert_eq!(lanes.ticks(0, 0, u32::MAX)?, Answer::Pushed);
    /// assert_eq!(lanes.tick_count()?, 11);
    /// assert_eq!(lanes.ticks(0, 0, u32::MAX), Err(Refusal::Idle));
    /// # Ok::<(), Refusal>(())
    /// ```
    ///
    /// # Errors
    ///
    /// Those of [`Lanes::tick`]; none where no tick is asked for.
    pub fn ticks(&mut self, task: u32, hint: u32, times: u32) -> Result<Answer, Refusal> {
        outcome(ffi::ticks(self.words.as_mut(), task, hint, times))
    }

    /// Makes one tick, with this hint, of the next busy task after the one last dispatched, going round by task number,
    /// whatever the lanes; that one itself comes last. [`Lanes::dispatched`] then says which it was. After a start the
    /// first dispatch looks from task 0 on; [`Lanes::tick`], [`Lanes::run`] and [`Lanes::panel`] leave the turn as it
    /// is.
    ///
    /// A busy task gets its tick within as many dispatches as there are tasks, provided that none of them is refused
    /// and that neither another tick of it nor a start ends its call first.
    ///
    /// ```
    /// use lane::{Answer, Dispatched, Lanes, Operation, Side, Tag};
    ///
    /// let mut lanes = Lanes::start([0; lane::words(8, 2)], 8, 2, 0, 2)?;
    /// lanes.begin(0, 0, Operation::Push(Tag::MAX), Side::Right)?;
    /// lanes.begin(1, 1, Operation::Pop, Side::Left)?;
    /// for task in [0, 1, 0, 1] {
    ///     assert_eq!(lanes.dispatch(0)?, Dispatched::Ticked(Answer::Going));
    ///     assert_eq!(lanes.dispatched()?, task);
    /// }
    /// # Ok::<(), lane::Refusal>(())
    /// ```
    ///
    /// # Errors
    ///
    /// [`Refusal::Table`], [`Refusal::Shape`], [`Refusal::Hint`] and [`Refusal::NoSlot`], tested in this order.
    pub fn dispatch(&mut self, hint: u32) -> Result<Dispatched, Refusal> {
        let dispatched = Dispatched::of(ffi::dispatch(self.words.as_mut(), hint));
        self.accept(dispatched)
    }

    /// Makes dispatches, each with this hint, until a call ends, every task is idle, or so many are made, and gives
    /// what [`Lanes::dispatch`] gives for the last. [`Lanes::dispatched`] then says whose call ended, and
    /// [`Lanes::tick_count`] how many ticks were made. The table is tested once for all of them; with 0 of them it is
    /// not looked at, and the answer is [`Answer::Going`]. Refusals are as in [`Lanes::ticks`].
    ///
    /// With no begin in between, dispatches drain a table that start began: every call gets its answer, and then they
    /// are [`Dispatched::Idle`].
    ///
    /// ```
    /// use lane::{Answer, Dispatched, Lanes, Operation, Side, Tag};
    ///
    /// let mut lanes = Lanes::start([0; lane::words(8, 2)], 8, 2, 0, 2)?;
    /// lanes.begin(0, 0, Operation::Push(Tag::MAX), Side::Right)?;
    /// lanes.begin(1, 1, Operation::Pop, Side::Left)?;
    /// let mut ended = Vec::new();
    /// while let Dispatched::Ticked(answer) = lanes.dispatches(0, u32::MAX)? {
    ///     ended.push((lanes.dispatched()?, answer, lanes.tick_count()?));
    /// }
    /// assert_eq!(ended, [(1, Answer::Empty, 8), (0, Answer::Pushed, 15)]);
    /// # Ok::<(), lane::Refusal>(())
    /// ```
    ///
    /// # Errors
    ///
    /// Those of [`Lanes::dispatch`]; none where no dispatch is asked for.
    pub fn dispatches(&mut self, hint: u32, times: u32) -> Result<Dispatched, Refusal> {
        Dispatched::of(ffi::dispatches(self.words.as_mut(), hint, times))
    }

    /// Begins a call on a lane and ticks its task with hint 0 until it answers, while no other task gets a tick: one
    /// [`Lanes::begin`] and one [`Lanes::ticks`], each with its one test of the table.
    ///
    /// On a table that start began it is never [`Answer::Going`]. On any other it may be, after [`max_ticks_alone`]
    /// ticks without an answer, and the task is still busy.
    ///
    /// ```
    /// use lane::{Answer, Lanes, Operation, Side, Tag};
    ///
    /// let mut lanes = Lanes::start([0; lane::words(8, 1)], 8, 1, 0, 2)?;
    /// assert_eq!(lanes.call(0, 1, Operation::Push(Tag::MAX), Side::Right)?, Answer::Pushed);
    /// assert_eq!(lanes.call(0, 0, Operation::Pop, Side::Left)?, Answer::Empty);
    /// assert_eq!(lanes.call(0, 1, Operation::Pop, Side::Left)?, Answer::Bag(Tag::MAX));
    /// # Ok::<(), lane::Refusal>(())
    /// ```
    ///
    /// # Errors
    ///
    /// Those of [`Lanes::begin`]; and [`Refusal::NoSlot`] of a tick, on a table that start did not begin.
    pub fn call(
        &mut self,
        task: u32,
        lane: u32,
        operation: Operation,
        side: Side,
    ) -> Result<Answer, Refusal> {
        self.begin(task, lane, operation, side)?;
        let slots = View::accepted(self.words()).slots();
        self.ticks(task, 0, max_ticks_alone(slots))
    }

    /// Pushes a bag that was [`Answer::Full`] at an end: tries again, and as long as it is full, has one other end of the
    /// table after another give back what it can, and tries again each time. To give back, an end takes the same bag by
    /// a push, gives it out by a pop, and removes 0: whole calls of this task, which is idle. Drain the table before, by
    /// [`Lanes::dispatches`]: the answers of the other tasks are the caller's.
    ///
    /// It gives what [`Lanes::call`] gives for its last push at this end: [`Answer::Full`] with no task in a call says
    /// that no other end has place for more than one bag. On a table that start did not begin it may also stop at a call
    /// that answers what it should not, and gives that.
    ///
    /// ```
    /// use lane::{Answer, Lanes, Operation, Side, Tag};
    ///
    /// let mut lanes = Lanes::start([0; lane::words(8, 1)], 8, 1, 0, 2)?;
    /// assert_eq!(lanes.call(0, 0, Operation::Add(3), Side::Left)?, Answer::Yes); // all that were free
    /// assert_eq!(lanes.call(0, 1, Operation::Push(Tag::MAX), Side::Right)?, Answer::Full);
    /// assert_eq!(lanes.make_room(0, 1, Tag::MAX, Side::Right)?, Answer::Pushed);
    /// # Ok::<(), lane::Refusal>(())
    /// ```
    ///
    /// # Errors
    ///
    /// Those of [`Lanes::call`].
    pub fn make_room(
        &mut self,
        task: u32,
        lane: u32,
        tag: Tag,
        side: Side,
    ) -> Result<Answer, Refusal> {
        let mut answer = self.call(task, lane, Operation::Push(tag), side)?;
        let lanes = View::accepted(self.words()).lanes();
        let ends = (0..lanes).flat_map(|lane| [(lane, Side::Left), (lane, Side::Right)]);
        for (other, at) in ends.filter(|&end| end != (lane, side)) {
            if answer != Answer::Full {
                break;
            }
            match self.call(task, other, Operation::Push(tag), at)? {
                Answer::Full => continue, // nothing is spare there
                Answer::Pushed => {}
                answer => return Ok(answer),
            }
            match self.call(task, other, Operation::Pop, at)? {
                Answer::Bag(popped) if popped == tag => {}
                answer => return Ok(answer),
            }
            match self.call(task, other, Operation::Remove(0), at)? {
                Answer::Yes | Answer::No => {}
                answer => return Ok(answer),
            }
            answer = self.call(task, lane, Operation::Push(tag), side)?;
        }
        Ok(answer)
    }

    /// Makes the ticks of a list of (task, hint) pairs up to the first refused, at most
    /// [`MAX_TICKS`](crate::MAX_TICKS), and writes three words for each tick made.
    ///
    /// ```
    /// use lane::{Answer, Lanes, Operation, Refusal, Side};
    ///
    /// let mut lanes = Lanes::start([0; lane::words(8, 2)], 8, 2, 0, 2)?;
    /// lanes.begin(1, 1, Operation::Pop, Side::Left)?;
    /// let mut answers = [[0; 3]; 8];
    /// let ran = lanes.run(&[[1, 0]; 8], &mut answers);
    /// assert_eq!(ran.made(), 4);
    /// assert_eq!(ran.answers().last(), Some(Answer::Empty));
    /// assert_eq!(ran.refusal(), Some(Refusal::Idle));
    /// # Ok::<(), Refusal>(())
    /// ```
    pub fn run<'a>(&mut self, list: &[[u32; 2]], answers: &'a mut [[u32; 3]]) -> Ran<'a> {
        let (ticks, places) = (list.as_flattened(), answers.as_flattened_mut());
        let number = ffi::run(self.words.as_mut(), ticks, places);
        ran(number, answers)
    }

    /// The same from the maintenance panel, whose list has at most [`MAX_PANEL_TICKS`](crate::MAX_PANEL_TICKS): up to
    /// them it gives and writes what [`Lanes::run`] does.
    ///
    /// ```
    /// use lane::{Lanes, Operation, Refusal, Side};
    ///
    /// let mut lanes = Lanes::start([0; lane::words(8, 1)], 8, 1, 0, 2)?;
    /// lanes.begin(0, 1, Operation::Pop, Side::Left)?;
    /// let mut answers = [[0; 3]; 33];
    /// assert_eq!(lanes.panel(&[[0, 0]; 33], &mut answers).refusal(), Some(Refusal::Panel));
    /// assert_eq!(lanes.panel(&[[0, 0]; 3], &mut answers).made(), 3);
    /// # Ok::<(), Refusal>(())
    /// ```
    pub fn panel<'a>(&mut self, list: &[[u32; 2]], answers: &'a mut [[u32; 3]]) -> Ran<'a> {
        let (ticks, places) = (list.as_flattened(), answers.as_flattened_mut());
        let number = ffi::panel(self.words.as_mut(), ticks, places);
        ran(number, answers)
    }

    /// Puts a snapshot back: every word of the table is then as it was when the snapshot was taken, with the bags, the
    /// calls in the middle, the turn and the tick count. What the words are before is not looked at; slots, tasks,
    /// growth and lanes are the snapshot's.
    ///
    /// Put back only what you took, whole. A snapshot that would give no table is refused with [`Refusal::Table`] or
    /// [`Refusal::Shape`], and changes nothing; whether it was altered on its way no test can tell. What this crate
    /// says of tables that start began holds again after a snapshot that was taken of such a table and not altered;
    /// after any other nothing is said of the answers until the next start or such a snapshot.
    ///
    /// ```
    /// use lane::{Answer, Lanes, Operation, Refusal, Side, Snapshot, Tag};
    ///
    /// let mut lanes = Lanes::start([0; lane::words(8, 2)], 8, 2, 0, 2)?;
    /// lanes.begin(1, 1, Operation::Push(Tag::MAX), Side::Right)?;
    /// let mut snapshot = Snapshot::over([0; lane::words(8, 2)]);
    /// lanes.take(&mut snapshot)?;
    /// for _ in 0..2 {
    ///     assert_eq!(lanes.ticks(1, 0, u32::MAX)?, Answer::Pushed);
    ///     assert!(lanes.bags(1)?.eq([Tag::MAX]));
    ///     lanes.put(&snapshot)?; // the push is in the middle again
    ///     assert!(lanes.bags(1)?.eq([]));
    /// }
    ///
    /// let mut altered = snapshot.into_words();
    /// altered[16] = 8; // no slot
    /// assert_eq!(lanes.put(&Snapshot::over(altered)), Err(Refusal::Shape));
    /// # Ok::<(), Refusal>(())
    /// ```
    ///
    /// # Errors
    ///
    /// [`Refusal::Snapshot`], [`Refusal::Table`] and [`Refusal::Shape`], tested in this order, the last two of the
    /// table that the snapshot would give.
    pub fn put<S: AsRef<[u32]>>(&mut self, snapshot: &Snapshot<S>) -> Result<(), Refusal> {
        let put = reply(ffi::put(snapshot.words(), self.words.as_mut()));
        self.accept(put)
    }

    /// What a call gave that tests the table before all else.
    fn accept<T>(&mut self, given: Result<T, Refusal>) -> Result<T, Refusal> {
        self.accepted |= given.is_ok();
        given
    }
}

impl<W: AsRef<[u32]>> Lanes<W> {
    /// Takes words that hold a table already. Every call tests them.
    ///
    /// ```
    /// use lane::{Lanes, Refusal};
    ///
    /// let table = Lanes::start(vec![0; lane::words(8, 1)], 8, 1, 0, 2)?.into_words();
    /// assert_eq!(Lanes::over(&table).bags(1)?.next(), None);
    /// assert_eq!(Lanes::over(&table[1..]).lanes(), Err(Refusal::Table));
    /// # Ok::<(), Refusal>(())
    /// ```
    pub fn over(words: W) -> Lanes<W> {
        linked::check();
        Lanes {
            words,
            accepted: false,
        }
    }

    /// Writes the tags of a lane, left end first, two words each, and gives those written. [`Lanes::max_bags`] places
    /// are enough.
    ///
    /// ```
    /// use lane::{Lanes, Operation, Refusal, Side, Tag};
    ///
    /// let mut lanes = Lanes::start([0; lane::words(8, 1)], 8, 1, 0, 2)?;
    /// for tag in [Tag::MAX, Tag::MIN] {
    ///     let _ = lanes.call(0, 1, Operation::Push(tag), Side::Right)?;
    /// }
    /// let mut out = [[0; 2]; Lanes::max_bags(8, 2) as usize];
    /// assert!(lanes.read(1, &mut out)?.eq([Tag::MAX, Tag::MIN]));
    /// assert_eq!(out, [[9, 999_999_999], [0, 1], [0, 0], [0, 0]]);
    /// assert_eq!(lanes.read(1, &mut out[..1]).err(), Some(Refusal::Out));
    /// assert_eq!(lanes.read(2, &mut out).err(), Some(Refusal::Lane));
    /// # Ok::<(), Refusal>(())
    /// ```
    ///
    /// # Errors
    ///
    /// [`Refusal::Table`], [`Refusal::Shape`], [`Refusal::Lane`], [`Refusal::NoSlot`] and [`Refusal::Out`], tested in
    /// this order.
    pub fn read<'a>(&self, lane: u32, out: &'a mut [[u32; 2]]) -> Result<Tags<'a>, Refusal> {
        match pair(ffi::read(self.words(), lane, out.as_flattened_mut())) {
            (None, count) => Ok(Tags::of(&out[..count])),
            (Some(refusal), _) => Err(refusal),
        }
    }

    /// The tags of a lane, left end first, without a buffer.
    ///
    /// ```
    /// use lane::{Lanes, Operation, Refusal, Side, Tag};
    ///
    /// let mut lanes = Lanes::start([0; lane::words(8, 1)], 8, 1, 0, 2)?;
    /// for tag in [Tag::MAX, Tag::MIN] {
    ///     let _ = lanes.call(0, 1, Operation::Push(tag), Side::Right)?;
    /// }
    /// assert!(lanes.bags(0)?.eq([]));
    /// assert!(lanes.bags(1)?.eq([Tag::MAX, Tag::MIN]));
    /// assert_eq!(lanes.bags(2).err(), Some(Refusal::Lane));
    /// # Ok::<(), Refusal>(())
    /// ```
    ///
    /// # Errors
    ///
    /// [`Refusal::Table`], [`Refusal::Shape`], [`Refusal::Lane`] and [`Refusal::NoSlot`], tested in this order.
    pub fn bags(&self, lane: u32) -> Result<Bags<'_>, Refusal> {
        view::bags(self.words(), lane)
    }

    /// A page of the shift sheet of a lane. The pages are numbered from 0, and [`PAGES`](crate::PAGES) of them hold
    /// every lane; one past the last tag has its heading and blank lines.
    ///
    /// ```
    /// use lane::{Lanes, Operation, Refusal, Side, Tag};
    ///
    /// let mut lanes = Lanes::start([0; lane::words(8, 1)], 8, 1, 0, 2)?;
    /// for tag in [Tag::MAX, Tag::MIN] {
    ///     let _ = lanes.call(0, 1, Operation::Push(tag), Side::Right)?;
    /// }
    /// let page = lanes.sheet(1, 0)?;
    /// let lines: Vec<&str> = page.lines().map(str::trim_end).take(3).collect();
    /// assert_eq!(lines, ["LANE 0002", "9999999999 0000000001", ""]);
    /// assert_eq!(lanes.sheet(1, 3), Err(Refusal::Page));
    /// assert_eq!(lanes.sheet(2, 0), Err(Refusal::Lane));
    /// # Ok::<(), Refusal>(())
    /// ```
    ///
    /// # Errors
    ///
    /// [`Refusal::Table`], [`Refusal::Shape`], [`Refusal::Lane`], [`Refusal::NoSlot`] and [`Refusal::Page`], tested in
    /// this order.
    pub fn sheet(&self, lane: u32, page: u32) -> Result<Page, Refusal> {
        Page::of(self.words(), lane, page)
    }

    /// Takes a snapshot: every word of it is written. It is as long as the table, else [`Refusal::Snapshot`].
    ///
    /// ```
    /// use lane::{Lanes, Refusal, Snapshot};
    ///
    /// let lanes = Lanes::start([0; lane::words(8, 1)], 8, 1, 0, 2)?;
    /// let mut snapshot = Snapshot::over([0; lane::words(8, 1)]);
    /// lanes.take(&mut snapshot)?;
    /// let mut other = Lanes::over([0; lane::words(8, 1)]);
    /// other.put(&snapshot)?;
    /// assert_eq!(other, lanes);
    ///
    /// let mut short = Snapshot::over([0; lane::words(7, 1)]);
    /// assert_eq!(lanes.take(&mut short), Err(Refusal::Snapshot));
    /// # Ok::<(), Refusal>(())
    /// ```
    ///
    /// # Errors
    ///
    /// [`Refusal::Snapshot`], [`Refusal::Table`] and [`Refusal::Shape`], tested in this order.
    pub fn take<S: AsMut<[u32]>>(&self, snapshot: &mut Snapshot<S>) -> Result<(), Refusal> {
        reply(ffi::take(self.words(), snapshot.words_mut()))
    }

    /// The number of lanes.
    ///
    /// ```
    /// let lanes = lane::Lanes::start([0; lane::words(8, 1)], 8, 1, 0, 3)?;
    /// assert_eq!(lanes.lanes(), Ok(3));
    /// # Ok::<(), lane::Refusal>(())
    /// ```
    ///
    /// # Errors
    ///
    /// [`Refusal::Table`] and [`Refusal::Shape`], tested in this order.
    pub fn lanes(&self) -> Result<u32, Refusal> {
        Ok(self.view()?.lanes())
    }

    /// The number of slots.
    ///
    /// ```
    /// let lanes = lane::Lanes::start([0; lane::words(8, 1)], 8, 1, 0, 2)?;
    /// assert_eq!(lanes.slots(), Ok(8));
    /// # Ok::<(), lane::Refusal>(())
    /// ```
    ///
    /// # Errors
    ///
    /// [`Refusal::Table`] and [`Refusal::Shape`], tested in this order.
    pub fn slots(&self) -> Result<u32, Refusal> {
        Ok(self.view()?.slots())
    }

    /// The number of tasks.
    ///
    /// ```
    /// let lanes = lane::Lanes::start([0; lane::words(8, 3)], 8, 3, 0, 2)?;
    /// assert_eq!(lanes.tasks(), Ok(3));
    /// # Ok::<(), lane::Refusal>(())
    /// ```
    ///
    /// # Errors
    ///
    /// [`Refusal::Table`] and [`Refusal::Shape`], tested in this order.
    pub fn tasks(&self) -> Result<u32, Refusal> {
        Ok(self.view()?.tasks())
    }

    /// Whether a task is in the middle of a call, on whatever lane.
    ///
    /// ```
    /// use lane::{Lanes, Operation, Refusal, Side};
    ///
    /// let mut lanes = Lanes::start([0; lane::words(8, 2)], 8, 2, 0, 2)?;
    /// lanes.begin(1, 1, Operation::Pop, Side::Left)?;
    /// assert_eq!((lanes.is_busy(0), lanes.is_busy(1)), (Ok(false), Ok(true)));
    /// assert_eq!(lanes.is_busy(2), Err(Refusal::Task));
    /// # Ok::<(), Refusal>(())
    /// ```
    ///
    /// # Errors
    ///
    /// [`Refusal::Table`], [`Refusal::Shape`] and [`Refusal::Task`], tested in this order.
    pub fn is_busy(&self, task: u32) -> Result<bool, Refusal> {
        Ok(self.view_of(task)?.is_busy(task))
    }

    /// The step at which a task stands, the number of a line of the figure; 0 for an idle one. A
    /// [`Window`](crate::Window) is fed it.
    ///
    /// ```
    /// use lane::{Lanes, Operation, Refusal, Side};
    ///
    /// let mut lanes = Lanes::start([0; lane::words(8, 2)], 8, 2, 0, 2)?;
    /// lanes.begin(1, 1, Operation::Pop, Side::Left)?;
    /// assert_eq!((lanes.step(0), lanes.step(1)), (Ok(0), Ok(39)));
    /// assert_eq!(lanes.step(2), Err(Refusal::Task));
    /// # Ok::<(), Refusal>(())
    /// ```
    ///
    /// # Errors
    ///
    /// [`Refusal::Table`], [`Refusal::Shape`] and [`Refusal::Task`], tested in this order.
    pub fn step(&self, task: u32) -> Result<u32, Refusal> {
        Ok(self.view_of(task)?.step(task))
    }

    /// The record of a task, as it stands in the table.
    ///
    /// ```
    /// use lane::{Lanes, Operation, Record, Side};
    ///
    /// let mut lanes = Lanes::start([0; lane::words(8, 2)], 8, 2, 0, 2)?;
    /// lanes.begin(1, 1, Operation::Pop, Side::Left)?;
    /// assert_eq!(lanes.record(0)?, Record::FRESH);
    /// assert!(lanes.record(1)?.is_busy());
    /// # Ok::<(), lane::Refusal>(())
    /// ```
    ///
    /// # Errors
    ///
    /// [`Refusal::Table`], [`Refusal::Shape`] and [`Refusal::Task`], tested in this order.
    pub fn record(&self, task: u32) -> Result<Record, Refusal> {
        Ok(self.view_of(task)?.copied(task))
    }

    /// The task last dispatched; after a start the one with the highest number.
    ///
    /// ```
    /// use lane::{Dispatched, Lanes, Operation, Side};
    ///
    /// let mut lanes = Lanes::start([0; lane::words(8, 3)], 8, 3, 0, 2)?;
    /// assert_eq!(lanes.dispatched(), Ok(2));
    /// lanes.begin(1, 1, Operation::Pop, Side::Left)?;
    /// assert_ne!(lanes.dispatch(0)?, Dispatched::Idle);
    /// assert_eq!(lanes.dispatched(), Ok(1));
    /// # Ok::<(), lane::Refusal>(())
    /// ```
    ///
    /// # Errors
    ///
    /// [`Refusal::Table`] and [`Refusal::Shape`], tested in this order.
    pub fn dispatched(&self) -> Result<u32, Refusal> {
        Ok(self.view()?.dispatched())
    }

    /// The ticks made since the start, by whatever call; it goes from [`u32::MAX`] to 0.
    ///
    /// ```
    /// use lane::{Answer, Lanes, Operation, Side};
    ///
    /// let mut lanes = Lanes::start([0; lane::words(8, 1)], 8, 1, 0, 2)?;
    /// assert_eq!(lanes.call(0, 1, Operation::Pop, Side::Left)?, Answer::Empty);
    /// assert_eq!(lanes.tick_count(), Ok(4));
    /// # Ok::<(), lane::Refusal>(())
    /// ```
    ///
    /// # Errors
    ///
    /// [`Refusal::Table`] and [`Refusal::Shape`], tested in this order.
    pub fn tick_count(&self) -> Result<u32, Refusal> {
        Ok(self.view()?.tick_count())
    }

    /// The table.
    ///
    /// ```
    /// let lanes = lane::Lanes::start([7; lane::words(8, 1)], 8, 1, 0, 2)?;
    /// assert_eq!(lanes.words()[..4], [8, 1, 0, 2]);
    /// # Ok::<(), lane::Refusal>(())
    /// ```
    pub fn words(&self) -> &[u32] {
        self.words.as_ref()
    }

    /// The table, given back.
    ///
    /// ```
    /// let lanes = lane::Lanes::start(vec![0; lane::words(8, 1)], 8, 1, 0, 2)?;
    /// let table: Vec<u32> = lanes.into_words();
    /// assert_eq!(table.len(), lane::words(8, 1));
    /// # Ok::<(), lane::Refusal>(())
    /// ```
    pub fn into_words(self) -> W {
        self.words
    }

    /// The words as a table. They are tested once, at the latest by the first call that accepts them.
    fn view(&self) -> Result<View<'_>, Refusal> {
        if self.accepted {
            Ok(View::accepted(self.words()))
        } else {
            View::of(self.words())
        }
    }

    /// The same, if there is such a task.
    fn view_of(&self, task: u32) -> Result<View<'_>, Refusal> {
        let view = self.view()?;
        if task < view.tasks() {
            Ok(view)
        } else {
            Err(Refusal::Task)
        }
    }
}

impl<W: AsRef<[u32]>> fmt::Debug for Lanes<W> {
    fn fmt(&self, formatter: &mut fmt::Formatter<'_>) -> fmt::Result {
        view::show("Lanes", self.words(), formatter)
    }
}

fn ran(number: u64, answers: &[[u32; 3]]) -> Ran<'_> {
    let (refusal, made) = pair(number);
    Ran::new(&answers[..made], refusal)
}
