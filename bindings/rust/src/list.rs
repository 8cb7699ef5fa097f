//! Tag lists of the baggage office: packed decimal on their way, two words a tag in memory.

use core::fmt;

use crate::{ffi, linked, pair, shown, Refusal, Tag, Tags, TAG_BYTES};

/// Reads a tag list in packed decimal, ten digits in [`TAG_BYTES`] bytes, the higher digit first, and gives the tags.
/// It writes two words for each, as [`Lane::read`](crate::Lane::read) does; places after them stay as they were, and a
/// refusal leaves all. A list has at most [`LIST_TAGS`](crate::LIST_TAGS) tags, and may have none.
///
/// ```
/// use lane::{tags_read, Refusal, Tag};
///
/// let list = [0x12, 0x50, 0x00, 0x00, 0x51, 0x00, 0x00, 0x00, 0x00, 0x0a];
/// let mut out = [[0; 2]; 2];
/// assert!(tags_read(&list[..5], &mut out)?.eq(Tag::new(1_250_000_051)));
/// assert_eq!(out, [[1, 250_000_051], [0, 0]]);
///
/// let refused = tags_read(&list, &mut out).unwrap_err();
/// assert_eq!((refused.refusal, refused.place), (Refusal::NoTag, Some(1)));
/// assert_eq!(refused.to_string(), "refused 18: a place of the tag list holds no tag: place 1");
/// assert_eq!(format!("{refused:60}|"), format!("{:60}|", refused.to_string()));
/// # Ok::<(), Refusal>(())
/// ```
///
/// # Errors
///
/// [`Refusal::Tags`], [`Refusal::NoTag`] and [`Refusal::TagsOut`], tested in this order; of the second with the place.
pub fn tags_read<'a>(list: &[u8], out: &'a mut [[u32; 2]]) -> Result<Tags<'a>, RefusedTags> {
    linked::check();
    let count = answer(ffi::tags_read(list, out.as_flattened_mut()))?;
    Ok(Tags::of(&out[..count]))
}

/// Writes a tag list in packed decimal from tags, or from two words a tag, the leading digit and the low part, and gives
/// the bytes that it wrote: [`TAG_BYTES`] a tag. Bytes after them stay as they were, and a refusal leaves all. What is
/// written is read as the same tags, and a list that was read is written as the same bytes.
///
/// ```
/// use lane::{tags_write, Refusal, Tag};
///
/// let tags = [Tag::MAX, Tag::MIN];
/// let mut out = [0; 12];
/// let list = tags_write(&tags, &mut out)?;
/// assert_eq!(list, [0x99, 0x99, 0x99, 0x99, 0x99, 0x00, 0x00, 0x00, 0x00, 0x01]);
///
/// let refused = tags_write(&tags, &mut out[..9]).unwrap_err();
/// assert_eq!((refused.refusal, refused.place), (Refusal::TagsOut, None));
/// let refused = tags_write(&[[0, 51], [10, 51]], &mut out).unwrap_err();
/// assert_eq!((refused.refusal, refused.place), (Refusal::NoTag, Some(1)));
/// # Ok::<(), Refusal>(())
/// ```
///
/// # Errors
///
/// [`Refusal::Tags`], [`Refusal::NoTag`] and [`Refusal::TagsOut`], tested in this order; of the second, which a [`Tag`]
/// never gives, with the place.
pub fn tags_write<'a, T: TagWords>(tags: &[T], out: &'a mut [u8]) -> Result<&'a [u8], RefusedTags> {
    linked::check();
    let count = answer(ffi::tags_write(T::words(tags), out))?;
    Ok(&out[..TAG_BYTES * count])
}

/// What [`tags_write`] takes: a [`Tag`], or two words that may be one.
pub trait TagWords: sealed::Words {}

impl TagWords for Tag {}

impl TagWords for [u32; 2] {}

mod sealed {
    use crate::{ffi, Tag};

    /// Two words for each, one after another.
    pub trait Words: Sized {
        fn words(these: &[Self]) -> &[u32];
    }

    impl Words for Tag {
        fn words(these: &[Tag]) -> &[u32] {
            ffi::tag_words(these)
        }
    }

    impl Words for [u32; 2] {
        fn words(these: &[[u32; 2]]) -> &[u32] {
            these.as_flattened()
        }
    }
}

/// What the number of either call says: how many tags, or the refusal.
fn answer(number: u64) -> Result<usize, RefusedTags> {
    match pair(number) {
        (None, count) => Ok(count),
        (Some(refusal), place) => Err(RefusedTags {
            refusal,
            place: (refusal == Refusal::NoTag).then_some(place),
        }),
    }
}

/// A tag list that was refused. `?` makes a [`Refusal`] of it.
///
/// ```
/// use lane::{tags_read, Refusal};
///
/// fn count(list: &[u8]) -> Result<usize, Refusal> {
///     Ok(tags_read(list, &mut [[0; 2]; 4])?.len())
/// }
/// assert_eq!(count(&[0x00, 0x00, 0x00, 0x00, 0x51]), Ok(1));
/// assert_eq!(count(&[0x00]), Err(Refusal::Tags));
/// ```
#[derive(Clone, Copy, Debug, PartialEq, Eq)]
#[non_exhaustive]
pub struct RefusedTags {
    /// Why: [`Refusal::Tags`], [`Refusal::NoTag`] or [`Refusal::TagsOut`], tested in this order.
    pub refusal: Refusal,
    /// Of [`Refusal::NoTag`] the place, from 0, of the first that is no tag.
    pub place: Option<usize>,
}

impl From<RefusedTags> for Refusal {
    fn from(refused: RefusedTags) -> Refusal {
        refused.refusal
    }
}

impl fmt::Display for RefusedTags {
    fn fmt(&self, formatter: &mut fmt::Formatter<'_>) -> fmt::Result {
        let RefusedTags { refusal, place } = self;
        match place {
            Some(place) => shown::pad(formatter, format_args!("{refusal}: place {place}")),
            None => refusal.fmt(formatter),
        }
    }
}

impl core::error::Error for RefusedTags {}
