//! A page of the shift sheet: a lane's tags as text, 60 lines of 80 columns.

use core::{fmt, str};

use crate::{ffi, reply, Refusal, PAGE_BYTES};

/// A page of the shift sheet: [`PAGE_LINES`](crate::PAGE_LINES) lines of exactly [`PAGE_COLUMNS`](crate::PAGE_COLUMNS)
/// bytes, each with a line feed after it. [`Lanes::sheet`](crate::Lanes::sheet) gives it.
///
/// The first line has `LANE`, a space and the bags of the whole lane in four digits; which lane it is does not stand
/// there. Each further line has the next seven tags, or those left, left end first: ten digits and one blank for each.
/// Blanks fill the lines. A page takes [`PAGE_TAGS`](crate::PAGE_TAGS) tags.
///
/// It is shown as it is printed, with its line feeds.
///
/// ```
/// use lane::{Lane, Operation, Side, Tag};
///
/// let mut lane = Lane::start([0; lane::words(12, 1)], 12, 1, 0)?;
/// for tag in (51..59).filter_map(Tag::new) {
///     let _ = lane.call(0, Operation::Push(tag), Side::Right)?;
/// }
/// let page = lane.sheet(0)?;
/// let lines: Vec<&str> = page.lines().map(str::trim_end).collect();
/// assert_eq!(lines[0], "LANE 0008");
/// assert_eq!(lines[1], "0000000051 0000000052 0000000053 0000000054 0000000055 0000000056 0000000057");
/// assert_eq!(lines[2], "0000000058");
/// assert!(lines[3..].iter().all(|line| line.is_empty()));
/// assert_eq!(page.to_string().len(), lane::PAGE_BYTES);
/// # Ok::<(), lane::Refusal>(())
/// ```
#[derive(Clone, Copy, PartialEq, Eq)]
pub struct Page {
    bytes: [u8; PAGE_BYTES],
}

impl Page {
    /// The page of a lane that the library writes.
    pub(crate) fn of(table: &[u32], lane: u32, page: u32) -> Result<Page, Refusal> {
        let mut bytes = [0; PAGE_BYTES];
        reply(ffi::sheet(table, lane, page, &mut bytes))?;
        Ok(Page { bytes })
    }

    /// The bytes, as they go to the printer.
    ///
    /// ```
    /// let lane = lane::Lane::start([0; lane::words(4, 1)], 4, 1, 0)?;
    /// let page = lane.sheet(0)?;
    /// assert!(page.as_bytes().starts_with(b"LANE 0000 "));
    /// assert!(page.as_bytes().ends_with(b" \n"));
    /// # Ok::<(), lane::Refusal>(())
    /// ```
    #[must_use]
    pub const fn as_bytes(&self) -> &[u8; PAGE_BYTES] {
        &self.bytes
    }

    /// The same as text.
    ///
    /// ```
    /// let lane = lane::Lane::start([0; lane::words(4, 1)], 4, 1, 0)?;
    /// assert!(lane.sheet(0)?.as_str().starts_with("LANE 0000 "));
    /// # Ok::<(), lane::Refusal>(())
    /// ```
    ///
    /// # Panics
    ///
    /// If another library is linked than the one that this crate is for.
    #[must_use]
    pub fn as_str(&self) -> &str {
        // Letters, digits, blanks and line feeds, by the library's contract.
        let text = str::from_utf8(&self.bytes);
        text.expect("a page outside the contract: is libdeque.a of another version linked?")
    }

    /// Its lines, without their line feeds.
    ///
    /// ```
    /// let lane = lane::Lane::start([0; lane::words(4, 1)], 4, 1, 0)?;
    /// let page = lane.sheet(2)?;
    /// assert_eq!(page.lines().count(), lane::PAGE_LINES);
    /// assert!(page.lines().all(|line| line.len() == lane::PAGE_COLUMNS));
    /// # Ok::<(), lane::Refusal>(())
    /// ```
    pub fn lines(&self) -> str::Lines<'_> {
        self.as_str().lines()
    }
}

impl fmt::Display for Page {
    fn fmt(&self, formatter: &mut fmt::Formatter<'_>) -> fmt::Result {
        formatter.write_str(self.as_str())
    }
}

/// The lines that are not blank, without the blanks behind.
impl fmt::Debug for Page {
    fn fmt(&self, formatter: &mut fmt::Formatter<'_>) -> fmt::Result {
        let lines = self.lines().map(str::trim_end);
        let lines = lines.filter(|line| !line.is_empty());
        formatter.debug_list().entries(lines).finish()
    }
}
