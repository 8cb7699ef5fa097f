//! Airline lists: which airline is loaded at which end, in a text that is edited on site.

use core::fmt;
use core::ops::Range;

use crate::{ffi, linked, pair, shown, Refusal, Side, Tag};

/// Where the code stands in an airline's line; the closing line is shorter.
const CODE: Range<usize> = 15..18;

/// A list that says which airline is loaded at which end, as the library has accepted it. Its text is owned (`String`,
/// `Vec<u8>`, `[u8; N]`) or lent (`&str`, `&[u8]`), and stays as it is: a push by it ([`Lanes::push_by_list`]) is
/// refused as a begin is, and not for the list.
///
/// A line names an airline by its code, the second to fourth digits of its tags ([`Tag::code`]), and the last line has
/// the end for all others: 1 to [`LIST_LINES`](crate::LIST_LINES) lines in all. Spelling and single spaces are as here.
/// A line ends at a line feed or at the end of the text; a line feed at the very end opens no further line, and a
/// carriage return belongs to its line, which is then no such line.
///
/// ```
/// use lane::{AirlineList, Lane, Side, Tag};
///
/// let list = AirlineList::parse(
///     "(airline (code 125) left)\n\
///      (airline (code 020) right)\n\
///      (others right)\n",
/// )?;
/// let [first, second] = [1_250_000_051, 9_125_000_052].map(|tag| Tag::new(tag).expect("ten digits"));
/// assert_eq!((list.end_for(first), list.end_for(second)), (Side::Right, Side::Left));
///
/// let mut lane = Lane::start([0; lane::words(8, 1)], 8, 1, 0)?;
/// for tag in [first, second] {
///     lane.push_by_list(0, tag, &list)?;
///     let _ = lane.ticks(0, 0, u32::MAX)?;
/// }
/// assert!(lane.bags()?.eq([second, first]));
/// # Ok::<(), lane::Refusal>(())
/// ```
///
/// [`Lanes::push_by_list`]: crate::Lanes::push_by_list
#[derive(Clone, Copy, Debug, PartialEq, Eq)]
pub struct AirlineList<T> {
    text: T,
}

impl<T: AsRef<[u8]>> AirlineList<T> {
    /// The list that a text is, or its first faulty line. The library reads it: nothing is read here.
    ///
    /// ```
    /// use lane::{AirlineList, Refusal};
    ///
    /// let fault = AirlineList::parse("(airline (code 125) left)\r\n(others right)\r\n").unwrap_err();
    /// assert_eq!((fault.line, fault.refusal), (1, Refusal::Line));
    /// let fault = AirlineList::parse("(airline (code 125) left)\n").unwrap_err();
    /// assert_eq!((fault.line, fault.refusal), (1, Refusal::Closing));
    /// assert!(AirlineList::parse(b"(others left)").is_ok());
    /// ```
    ///
    /// # Errors
    ///
    /// The first faulty line, with the first of [`Refusal::Line`], [`Refusal::Code`] and [`Refusal::Closing`] that
    /// holds of it.
    pub fn parse(text: T) -> Result<AirlineList<T>, ListFault> {
        linked::check();
        match pair(ffi::list_check(text.as_ref())) {
            (None, _) => Ok(AirlineList { text }),
            (Some(refusal), line) => Err(ListFault { line, refusal }),
        }
    }

    /// The end at which a tag is loaded: that of the line with its code, or else of the closing line.
    ///
    /// Proved is where a push by the list goes. This looks the line up in the accepted text, for those who want the end
    /// without a push; the tests hold it to the library's pushes for every code.
    ///
    /// ```
    /// use lane::{AirlineList, Side, Tag};
    ///
    /// let list = AirlineList::parse("(airline (code 999) left)\n(others right)")?;
    /// assert_eq!(list.end_for(Tag::MAX), Side::Left);
    /// assert_eq!(list.end_for(Tag::MIN), Side::Right);
    /// # Ok::<(), lane::ListFault>(())
    /// ```
    pub fn end_for(&self, tag: Tag) -> Side {
        let code = [100, 10, 1].map(|unit| b'0' + (tag.code() / unit % 10) as u8);
        let mut lines = self.text().split(|&byte| byte == b'\n');
        // The first with this code or with none: that is the closing line.
        let line = lines.find(|line| line.get(CODE).map_or(true, |digits| digits == code));
        match line {
            Some(line) if line.ends_with(b"left)") => Side::Left,
            _ => Side::Right,
        }
    }

    /// The text.
    ///
    /// ```
    /// let list = lane::AirlineList::parse("(others right)")?;
    /// assert_eq!(list.text(), b"(others right)");
    /// # Ok::<(), lane::ListFault>(())
    /// ```
    pub fn text(&self) -> &[u8] {
        self.text.as_ref()
    }

    /// The text, given back.
    ///
    /// ```
    /// let list = lane::AirlineList::parse(String::from("(others right)"))?;
    /// let text: String = list.into_text();
    /// assert_eq!(text, "(others right)");
    /// # Ok::<(), lane::ListFault>(())
    /// ```
    pub fn into_text(self) -> T {
        self.text
    }
}

/// A text that is no airline list, by its first faulty line. `?` makes a [`Refusal`] of it.
///
/// ```
/// use lane::{AirlineList, Refusal};
///
/// let text = "(airline (code 125) left)\n(airline (code 125) right)\n(others right)\n";
/// let fault = AirlineList::parse(text).unwrap_err();
/// assert_eq!((fault.line, fault.refusal), (2, Refusal::Code));
/// assert_eq!(
///     fault.to_string(),
///     "refused 28: an earlier line of the airline list has the code: line 2"
/// );
/// assert_eq!(format!("{fault:75}|"), format!("{:75}|", fault.to_string()));
/// ```
#[derive(Clone, Copy, Debug, PartialEq, Eq)]
#[non_exhaustive]
pub struct ListFault {
    /// The line, from 1; of a text with no line it is 1.
    pub line: usize,
    /// Why: [`Refusal::Line`], [`Refusal::Code`] or [`Refusal::Closing`], the first of these that holds of the line.
    pub refusal: Refusal,
}

impl From<ListFault> for Refusal {
    fn from(fault: ListFault) -> Refusal {
        fault.refusal
    }
}

impl fmt::Display for ListFault {
    fn fmt(&self, formatter: &mut fmt::Formatter<'_>) -> fmt::Result {
        let ListFault { line, refusal } = self;
        shown::pad(formatter, format_args!("{refusal}: line {line}"))
    }
}

impl core::error::Error for ListFault {}
