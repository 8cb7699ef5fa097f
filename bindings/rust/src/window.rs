//! Lost swaps in the last ticks: a window that is fed each tick, and ticks that are fed as they are made.

use core::fmt;

use crate::{
    ffi, linked, pair, reply, view, Answer, Dispatched, Lanes, NotStarted, Refusal, MAX_TASKS,
};

/// How many of the last ticks lost the swap of their line: a number that rises while tasks fight over an end. The words
/// are owned (`Vec<u32>`, `[u32; N]`) or lent (`&mut [u32]`), as many as [`window_words`](crate::window_words) says.
///
/// Every tick is to be fed, of whatever task and lane, each once and in order; [`Window::tick`] and
/// [`Window::dispatch`] tick and feed at once. A tick that was not fed, or a start, leaves a gap in the counts: the
/// next feed is refused with [`Refusal::Count`], and a new [`Window::start`] begins anew. So it does after a
/// [`Lanes::put`], where the count may follow by chance alone.
///
/// No call trusts the words: a window that was damaged is refused with [`Refusal::Window`].
///
/// ```
/// use lane::{Answer, Lane, Operation, Side, Tag, Window};
///
/// let mut lane = Lane::start([0; lane::words(8, 2)], 8, 2, 0)?;
/// lane.call(0, Operation::Push(Tag::MAX), Side::Left)?;
/// let mut window = Window::start([0; lane::window_words(8)], 8)?;
/// for task in [0, 1] {
///     lane.begin(task, Operation::Pop, Side::Left)?;
/// }
/// for turn in 0..7 {
///     assert_eq!(window.tick(&mut lane, turn % 2, 0)?.lost, Ok(0));
/// }
/// // Task 0 has the bag, and the swap of task 1 finds it gone.
/// let watched = window.tick(&mut lane, 1, 0)?;
/// assert_eq!((watched.task, watched.answer, watched.lost), (1, Answer::Going, Ok(1)));
/// assert_eq!(format!("{window:?}"), "Window { width: 8, fed: 8, last_count: 19 }");
/// # Ok::<(), lane::Refusal>(())
/// ```
#[derive(Clone, Copy, PartialEq, Eq)]
pub struct Window<W> {
    words: W,
}

impl<W: AsRef<[u32]> + AsMut<[u32]>> Window<W> {
    /// Writes a fresh window over words of any content, that looks back on so many ticks, 1 to
    /// [`MAX_WIDTH`](crate::MAX_WIDTH). A refusal gives the words back.
    ///
    /// ```
    /// use lane::{Refusal, Window};
    ///
    /// let window = Window::start([7; lane::window_words(2)], 2)?;
    /// assert_eq!(window.words(), [2, 0, 0, 0, 0, 0]);
    ///
    /// let refused = Window::start([7; 6], 3).unwrap_err();
    /// assert_eq!(refused.refusal, Refusal::Window);
    /// assert_eq!(refused.words, [7; 6]);
    /// # Ok::<(), Refusal>(())
    /// ```
    ///
    /// # Errors
    ///
    /// [`Refusal::Window`], with the words as they were.
    pub fn start(mut words: W, width: u32) -> Result<Window<W>, NotStarted<W>> {
        linked::check();
        match reply(ffi::window(words.as_mut(), width)) {
            Ok(()) => Ok(Window { words }),
            Err(refusal) => Err(NotStarted { refusal, words }),
        }
    }

    /// Feeds a tick that was made: its count, [`Lanes::tick_count`] after it, and its task's step before and after,
    /// [`Lanes::step`]. It gives how many of the last ticks fed lost their swap, this one included: those that took a
    /// task from 5 to 8, from 25 to 15, from 48 or 51 to 39, or from 62 to 0. A refusal leaves the window as it was.
    ///
    /// ```
    /// use lane::{Refusal, Window};
    ///
    /// let mut window = Window::start([0; lane::window_words(2)], 2)?;
    /// assert_eq!(window.feed(u32::MAX, 5, 8), Ok(1));
    /// assert_eq!(window.feed(0, 5, 0), Ok(1));
    /// assert_eq!(window.feed(1, 8, 28), Ok(0));
    /// assert_eq!(window.feed(1, 8, 28), Err(Refusal::Count));
    /// # Ok::<(), Refusal>(())
    /// ```
    ///
    /// # Errors
    ///
    /// [`Refusal::Window`] and [`Refusal::Count`], tested in this order.
    pub fn feed(&mut self, count: u32, before: u32, after: u32) -> Result<u32, Refusal> {
        match pair(ffi::feed(self.words.as_mut(), count, before, after)) {
            (None, lost) => Ok(lost as u32),
            (Some(refusal), _) => Err(refusal),
        }
    }

    /// Makes one tick as [`Lanes::tick`] does, and feeds it. A tick that is refused is not fed.
    ///
    /// # Errors
    ///
    /// Those of [`Lanes::tick`]; what the window refuses is in [`Watched::lost`].
    pub fn tick<T: AsRef<[u32]> + AsMut<[u32]>>(
        &mut self,
        lanes: &mut Lanes<T>,
        task: u32,
        hint: u32,
    ) -> Result<Watched, Refusal> {
        let before = view::step(lanes.words(), task);
        let answer = lanes.tick(task, hint)?;
        Ok(self.watched(lanes.words(), task, before, answer))
    }

    /// Makes one dispatch as [`Lanes::dispatch`] does, and feeds its tick; none with every task idle.
    ///
    /// ```
    /// use lane::{Lane, Operation, Side, Window};
    ///
    /// let mut lane = Lane::start([0; lane::words(8, 2)], 8, 2, 0)?;
    /// let mut window = Window::start([0; lane::window_words(8)], 8)?;
    /// assert_eq!(window.dispatch(&mut lane, 0)?, None);
    /// lane.begin(1, Operation::Pop, Side::Left)?;
    /// assert!(window.dispatch(&mut lane, 0)?.is_some_and(|watched| watched.lost == Ok(0)));
    /// # Ok::<(), lane::Refusal>(())
    /// ```
    ///
    /// # Errors
    ///
    /// Those of [`Lanes::dispatch`]; what the window refuses is in [`Watched::lost`].
    pub fn dispatch<T: AsRef<[u32]> + AsMut<[u32]>>(
        &mut self,
        lanes: &mut Lanes<T>,
        hint: u32,
    ) -> Result<Option<Watched>, Refusal> {
        let before: [u32; MAX_TASKS as usize] =
            core::array::from_fn(|task| view::step(lanes.words(), task as u32));
        let Dispatched::Ticked(answer) = lanes.dispatch(hint)? else {
            return Ok(None);
        };
        let task = view::View::accepted(lanes.words()).dispatched();
        let watched = self.watched(lanes.words(), task, before[task as usize], answer);
        Ok(Some(watched))
    }

    /// A tick that was made on this table, fed.
    fn watched(&mut self, table: &[u32], task: u32, before: u32, answer: Answer) -> Watched {
        let count = view::View::accepted(table).tick_count();
        Watched {
            task,
            answer,
            lost: self.feed(count, before, view::step(table, task)),
        }
    }
}

impl<W> Window<W> {
    /// A window that words may hold already. Nothing is tested here: every feed tests them.
    ///
    /// ```
    /// use lane::{Refusal, Window};
    ///
    /// let mut words = [1, 1, 0, 6, 1];
    /// assert_eq!(Window::over(&mut words[..]).feed(7, 5, 0), Ok(0));
    /// words[4] = 2;
    /// assert_eq!(Window::over(&mut words[..]).feed(8, 5, 0), Err(Refusal::Window));
    /// ```
    pub fn over(words: W) -> Window<W> {
        linked::check();
        Window { words }
    }

    /// The words, given back.
    ///
    /// ```
    /// let window = lane::Window::start(vec![0; lane::window_words(2)], 2)?;
    /// let words: Vec<u32> = window.into_words();
    /// assert_eq!(words.len(), 6);
    /// # Ok::<(), lane::Refusal>(())
    /// ```
    pub fn into_words(self) -> W {
        self.words
    }
}

impl<W: AsRef<[u32]>> Window<W> {
    /// The words: the width, how many places are fed, the next place, the last count, and the places.
    pub fn words(&self) -> &[u32] {
        self.words.as_ref()
    }
}

impl<W: AsRef<[u32]>> fmt::Debug for Window<W> {
    fn fmt(&self, formatter: &mut fmt::Formatter<'_>) -> fmt::Result {
        let mut shown = formatter.debug_struct("Window");
        match self.words() {
            [width, fed, _, last, ..] => shown
                .field("width", width)
                .field("fed", fed)
                .field("last_count", last),
            short => shown.field("words", &short.len()),
        };
        shown.finish()
    }
}

/// A tick that was made, and fed to a window.
#[derive(Clone, Copy, Debug, PartialEq, Eq)]
#[must_use = "the tick has an answer, and the window may have refused it"]
#[non_exhaustive]
pub struct Watched {
    /// The task that was ticked.
    pub task: u32,
    /// What the tick answered.
    pub answer: Answer,
    /// How many of the last ticks lost a swap; or why the window refused this one, which is made all the same.
    pub lost: Result<u32, Refusal>,
}
