//! Snapshots: a table's words by columns, to keep and to put back.

/// The words of a table in another order: the header, every slot's L, every R, every V, every leading digit, then the
/// tasks. They are owned (`Vec<u32>`, `[u32; N]`) or lent (`&mut [u32]`; `&[u32]` to put back), as many as
/// [`words`](crate::words) says for the table. [`Lanes::take`](crate::Lanes::take) writes them, and
/// [`Lanes::put`](crate::Lanes::put) puts them back.
///
/// ```
/// use lane::{Answer, Lane, Operation, Side, Snapshot, Tag};
///
/// let mut lane = Lane::start([0; lane::words(4, 1)], 4, 1, 0)?;
/// assert_eq!(lane.call(0, Operation::Push(Tag::MAX), Side::Left)?, Answer::Pushed);
/// let mut snapshot = Snapshot::over([0; lane::words(4, 1)]);
/// lane.take(&mut snapshot)?;
/// for _ in 0..2 {
///     assert_eq!(lane.call(0, Operation::Pop, Side::Right)?, Answer::Bag(Tag::MAX));
///     lane.put(&snapshot)?;
/// }
/// assert!(lane.bags()?.eq([Tag::MAX]));
/// # Ok::<(), lane::Refusal>(())
/// ```
#[derive(Clone, Copy, Debug, PartialEq, Eq)]
pub struct Snapshot<W> {
    words: W,
}

impl<W: AsRef<[u32]>> Snapshot<W> {
    /// Takes words to write a snapshot to, or that hold one already, as kept. No call trusts them.
    ///
    /// ```
    /// use lane::{Lanes, Refusal, Snapshot};
    ///
    /// let mut lanes = Lanes::start([0; lane::words(4, 1)], 4, 1, 0, 2)?;
    /// let mut kept = vec![0; lane::words(4, 1)];
    /// lanes.take(&mut Snapshot::over(&mut kept[..]))?;
    /// lanes.put(&Snapshot::over(&kept))?;
    /// assert_eq!(lanes.put(&Snapshot::over(&kept[1..])), Err(Refusal::Snapshot));
    /// # Ok::<(), Refusal>(())
    /// ```
    pub fn over(words: W) -> Snapshot<W> {
        Snapshot { words }
    }

    /// The words.
    ///
    /// ```
    /// use lane::{Lanes, Snapshot};
    ///
    /// let lanes = Lanes::start([0; lane::words(4, 1)], 4, 1, 0, 2)?;
    /// let mut snapshot = Snapshot::over([0; lane::words(4, 1)]);
    /// lanes.take(&mut snapshot)?;
    /// let (header, columns) = snapshot.words().split_at(16);
    /// assert_eq!(header, &lanes.words()[..16]);
    /// assert_eq!(columns[..4], [65_535, 0, 65_535, 2]); // L of the slots 0 to 3
    /// # Ok::<(), lane::Refusal>(())
    /// ```
    pub fn words(&self) -> &[u32] {
        self.words.as_ref()
    }

    /// The words, given back.
    ///
    /// ```
    /// let snapshot = lane::Snapshot::over(vec![0; lane::words(4, 1)]);
    /// let words: Vec<u32> = snapshot.into_words();
    /// assert_eq!(words.len(), lane::words(4, 1));
    /// ```
    pub fn into_words(self) -> W {
        self.words
    }
}

impl<W: AsMut<[u32]>> Snapshot<W> {
    pub(crate) fn words_mut(&mut self) -> &mut [u32] {
        self.words.as_mut()
    }
}
