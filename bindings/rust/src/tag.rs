//! Tags of ten digits: one number, or two words with the leading digit first.

use core::fmt;
use core::iter::FusedIterator;
use core::slice;
use core::str::FromStr;

use crate::{shown, MAX_DIGIT, MAX_LOW};

/// What the leading digit counts.
const LEADING: u64 = 1_000_000_000;

/// A bag's tag, 1 to 9,999,999,999; it holds no other number. It is shown with its ten digits.
///
/// ```
/// use lane::Tag;
///
/// let tag = Tag::new(51).expect("not 0, and ten digits");
/// assert_eq!(tag.to_string(), "0000000051");
/// assert_eq!(format!("{tag:>12}|{tag:<12}|"), "  0000000051|0000000051  |");
/// assert_eq!("0000000051".parse(), Ok(tag));
/// assert_eq!(Tag::new(0), None);
/// assert_eq!(Tag::new(10_000_000_000), None);
/// ```
#[derive(Clone, Copy, PartialEq, Eq, PartialOrd, Ord, Hash)]
#[repr(transparent)]
pub struct Tag([u32; 2]); // the leading digit and the low part, so that their order is that of the numbers

impl Tag {
    /// The least tag, 0000000001.
    pub const MIN: Tag = Tag([0, 1]);
    /// The greatest tag, 9999999999.
    pub const MAX: Tag = Tag([MAX_DIGIT, MAX_LOW]);

    /// The tag of a number; none for a number that is no tag.
    ///
    /// ```
    /// assert_eq!(lane::Tag::new(9_999_999_999), Some(lane::Tag::MAX));
    /// ```
    #[must_use]
    pub const fn new(number: u64) -> Option<Tag> {
        if number > Tag::MAX.number() {
            return None;
        }
        Tag::from_words(split(number))
    }

    /// The tag of a leading digit and a low part, the nine digits below it; none for words that are no tag.
    ///
    /// ```
    /// use lane::Tag;
    ///
    /// assert_eq!(Tag::from_words([1, 0]), Tag::new(1_000_000_000));
    /// assert_eq!(Tag::from_words([0, 1_000_000_000]), None);
    /// ```
    #[must_use]
    pub const fn from_words([digit, low]: [u32; 2]) -> Option<Tag> {
        if digit > MAX_DIGIT || low > MAX_LOW || (digit == 0 && low == 0) {
            return None;
        }
        Some(Tag([digit, low]))
    }

    /// The number.
    ///
    /// ```
    /// assert_eq!(lane::Tag::MIN.number(), 1);
    /// ```
    #[must_use]
    pub const fn number(self) -> u64 {
        let [digit, low] = self.0;
        digit as u64 * LEADING + low as u64
    }

    /// The leading digit and the low part, as a read and a run write them and a tag list has them in memory.
    ///
    /// ```
    /// assert_eq!(lane::Tag::MAX.words(), [9, 999_999_999]);
    /// ```
    #[must_use]
    pub const fn words(self) -> [u32; 2] {
        self.0
    }

    /// The airline's code, 0 to 999: the second to fourth of the ten digits.
    ///
    /// ```
    /// assert_eq!(lane::Tag::new(9_125_000_051).map(lane::Tag::code), Some(125));
    /// ```
    #[must_use]
    pub const fn code(self) -> u32 {
        self.words()[1] / 1_000_000
    }
}

/// The leading digit and the low part of a number below 2^40. Of one that is no tag the first is no digit.
pub(crate) const fn split(number: u64) -> [u32; 2] {
    [(number / LEADING) as u32, (number % LEADING) as u32]
}

impl fmt::Display for Tag {
    fn fmt(&self, formatter: &mut fmt::Formatter<'_>) -> fmt::Result {
        shown::pad(formatter, format_args!("{:010}", self.number()))
    }
}

/// As it is shown.
impl fmt::Debug for Tag {
    fn fmt(&self, formatter: &mut fmt::Formatter<'_>) -> fmt::Result {
        fmt::Display::fmt(self, formatter)
    }
}

/// ```
/// use lane::Tag;
///
/// assert_eq!(Tag::try_from(9_999_999_999), Ok(Tag::MAX));
/// assert!(Tag::try_from(0).is_err());
/// ```
impl TryFrom<u64> for Tag {
    type Error = TagRangeError;

    fn try_from(number: u64) -> Result<Tag, TagRangeError> {
        Tag::new(number).ok_or(TagRangeError(()))
    }
}

impl From<Tag> for u64 {
    fn from(tag: Tag) -> u64 {
        tag.number()
    }
}

/// A number that is no tag.
///
/// ```
/// let refused = lane::Tag::try_from(10_000_000_000).unwrap_err();
/// assert_eq!(refused.to_string(), "a tag is a number from 1 to 9,999,999,999");
/// ```
#[derive(Clone, Copy, Debug, PartialEq, Eq)]
pub struct TagRangeError(());

impl fmt::Display for TagRangeError {
    fn fmt(&self, formatter: &mut fmt::Formatter<'_>) -> fmt::Result {
        formatter.pad("a tag is a number from 1 to 9,999,999,999")
    }
}

impl core::error::Error for TagRangeError {}

/// Ten digits with their zeros, as the program reads them.
impl FromStr for Tag {
    type Err = ParseTagError;

    fn from_str(text: &str) -> Result<Tag, ParseTagError> {
        let digits = text.len() == 10 && text.bytes().all(|byte| byte.is_ascii_digit());
        let number = text.parse().ok().filter(|_| digits);
        number.and_then(Tag::new).ok_or(ParseTagError(()))
    }
}

/// A text that is no tag.
///
/// ```
/// let refused = "51".parse::<lane::Tag>().unwrap_err();
/// assert_eq!(refused.to_string(), "a tag is ten digits, not all of them 0");
/// ```
#[derive(Clone, Copy, Debug, PartialEq, Eq)]
pub struct ParseTagError(());

impl fmt::Display for ParseTagError {
    fn fmt(&self, formatter: &mut fmt::Formatter<'_>) -> fmt::Result {
        formatter.pad("a tag is ten digits, not all of them 0")
    }
}

impl core::error::Error for ParseTagError {}

/// The tags that a read wrote, in order. [`Lane::read`](crate::Lane::read) and [`tags_read`](crate::tags_read) give it.
#[derive(Clone)]
pub struct Tags<'a> {
    words: slice::Iter<'a, [u32; 2]>,
}

impl<'a> Tags<'a> {
    pub(crate) fn of(words: &'a [[u32; 2]]) -> Tags<'a> {
        Tags {
            words: words.iter(),
        }
    }
}

impl Iterator for Tags<'_> {
    type Item = Tag;

    fn next(&mut self) -> Option<Tag> {
        let words = self.words.next()?;
        Some(crate::known(Tag::from_words(*words)))
    }

    fn size_hint(&self) -> (usize, Option<usize>) {
        self.words.size_hint()
    }
}

impl ExactSizeIterator for Tags<'_> {}

impl FusedIterator for Tags<'_> {}

impl fmt::Debug for Tags<'_> {
    fn fmt(&self, formatter: &mut fmt::Formatter<'_>) -> fmt::Result {
        formatter.debug_list().entries(self.clone()).finish()
    }
}

#[cfg(test)]
mod tests {
    extern crate std;

    use super::*;
    use std::string::ToString;

    #[test]
    fn numbers_and_words_are_tags_in_the_same_places() {
        for number in [
            0,
            1,
            51,
            999_999_999,
            1_000_000_000,
            4_294_967_296,
            9_999_999_999,
            10_000_000_000,
            1 << 39,
        ] {
            let tag = Tag::new(number);
            assert_eq!(tag.is_some(), (1..=9_999_999_999).contains(&number));
            assert_eq!(Tag::from_words(split(number)), tag, "{number}");
            assert_eq!(Tag::try_from(number).ok(), tag);
            if let Some(tag) = tag {
                assert_eq!((tag.number(), u64::from(tag)), (number, number));
                assert_eq!(Tag::from_words(tag.words()), Some(tag));
            }
        }
        assert_eq!(Tag::new(u64::MAX), None);
        for words in [
            [0, 0],
            [0, 1_000_000_000],
            [1, 1_000_000_001],
            [10, 0],
            [10, 51],
            [u32::MAX, 51],
            [0, u32::MAX],
        ] {
            assert_eq!(Tag::from_words(words), None, "{words:?}");
        }
    }

    #[test]
    fn tags_are_in_the_order_of_their_numbers() {
        let numbers = [
            1,
            51,
            999_999_999,
            1_000_000_000,
            1_000_000_051,
            9_999_999_999,
        ];
        let tags = numbers.map(|number| Tag::new(number).expect("a tag"));
        assert!(tags.windows(2).all(|pair| pair[0] < pair[1]));
        assert_eq!(tags.map(Tag::number), numbers);
    }

    #[test]
    fn ten_digits_are_read_and_nothing_else() {
        for tag in [Tag::MIN, Tag::MAX] {
            assert_eq!(tag.to_string().len(), 10);
            assert_eq!(tag.to_string().parse(), Ok(tag));
        }
        for text in [
            "",
            "51",
            "000000051",
            "00000000051",
            "0000000000",
            "+000000051",
            " 000000051",
            "000000005\u{661}",
            "00000000\u{661}",
        ] {
            assert!(text.parse::<Tag>().is_err(), "{text}");
        }
    }
}
