//! Tag lists of the baggage office: packed decimal, five bytes a tag, read to two words a tag and written from them.

use crate::refusal;
use crate::table::{MAX_DIGIT, MAX_LOW};

/// Bytes of a tag in a list: ten digits, two to a byte, the higher first.
pub const TAG_BYTES: usize = 5;
/// Words of a tag in memory: the leading digit, then the low part.
pub const TAG_WORDS: usize = 2;
/// Most tags of a list.
pub const MAX_TAGS: usize = 1024;

/// What the second of the ten digits counts.
const SECOND: u32 = 100_000_000;

/// Reads a list; returns 0 and the count of its tags, or the refusal and, for a tag refused, its place.
pub fn read_tags(bytes: &[u8], words: &mut [u32]) -> (u32, u32) {
    let tags = bytes.chunks_exact(TAG_BYTES);
    let count = tags.len();
    if !tags.remainder().is_empty() || count > MAX_TAGS {
        return (refusal::TAGS_LENGTH, 0);
    }
    let tags = tags.map(Halves::of);
    // All are tested at once: the place is looked for where one is none.
    if !are_digits(bytes)
        || !tags
            .clone()
            .fold(true, |all, halves| all & !halves.are_zero())
    {
        let place = tags.clone().position(|halves| !halves.is_tag());
        return (refusal::NO_TAG, place.unwrap_or(count) as u32);
    }
    let Some(out) = words.get_mut(..TAG_WORDS * count) else {
        return (refusal::TAGS_OUT, 0);
    };
    for (halves, tag) in tags.zip(out.chunks_exact_mut(TAG_WORDS)) {
        tag.copy_from_slice(&halves.words());
    }
    (0, count as u32)
}

/// Writes a list; returns as reading does.
pub fn write_tags(words: &[u32], bytes: &mut [u8]) -> (u32, u32) {
    let tags = words.chunks_exact(TAG_WORDS);
    let count = tags.len();
    if !tags.remainder().is_empty() || count > MAX_TAGS {
        return (refusal::TAGS_LENGTH, 0);
    }
    let fits = |tag: &[u32]| {
        let [digit, low] = [tag[0], tag[1]];
        (low <= MAX_LOW) & (digit <= MAX_DIGIT) & (low | digit != 0)
    };
    if !tags.clone().fold(true, |all, tag| all & fits(tag)) {
        let place = tags.clone().position(|tag| !fits(tag));
        return (refusal::NO_TAG, place.unwrap_or(count) as u32);
    }
    let Some(out) = bytes.get_mut(..TAG_BYTES * count) else {
        return (refusal::TAGS_OUT, 0);
    };
    for (tag, five) in tags.zip(out.chunks_exact_mut(TAG_BYTES)) {
        five.copy_from_slice(&packed(tag[0], tag[1]));
    }
    (0, count as u32)
}

/// Whether all half bytes are digits, by the greatest byte and the greatest lower half.
fn are_digits(bytes: &[u8]) -> bool {
    let (most, lower) = bytes.iter().fold((0, 0), |(most, lower): (u8, u8), &byte| {
        (most.max(byte), lower.max(byte & 0xf))
    });
    most < 0xa0 && lower < 0xa
}

/// The half bytes of a tag: the first two, and the other eight.
#[derive(Clone, Copy)]
struct Halves(u32, u32);

impl Halves {
    fn of(five: &[u8]) -> Halves {
        let eight = [five[1], five[2], five[3], five[4]];
        Halves(five[0].into(), u32::from_be_bytes(eight))
    }

    /// Whether each is a digit, and not all are 0.
    fn is_tag(self) -> bool {
        // A half byte above 9 has the bit of 8, and that of 4 or that of 2.
        let above = |halves: u32| halves & (halves << 1 | halves << 2) & 0x8888_8888;
        above(self.0) | above(self.1) == 0 && !self.are_zero()
    }

    fn are_zero(self) -> bool {
        self.0 | self.1 == 0
    }

    /// The leading digit and the low part; the eight are joined two and two, three times.
    fn words(self) -> [u32; 2] {
        let Halves(two, eight) = self;
        let pairs = eight - 6 * (eight >> 4 & 0x0f0f_0f0f);
        let fours = (pairs & 0x00ff_00ff) + 100 * (pairs >> 8 & 0x00ff_00ff);
        let number = (fours & 0xffff) + 10_000 * (fours >> 16);
        [two >> 4, (two & 0xf) * SECOND + number]
    }
}

/// The five bytes of a tag: its pairs of digits, each with six more for each ten.
fn packed(digit: u32, low: u32) -> [u8; TAG_BYTES] {
    let (upper, four) = ((low / 10_000 % 10_000) as u16, (low % 10_000) as u16);
    let first = (10 * digit + low / SECOND) as u16;
    let pairs = [first, upper / 100, upper % 100, four / 100, four % 100];
    // The quotient by 10 of a number below 100 is in the upper bits of a product.
    pairs.map(|pair| (pair + 6 * ((pair * 103) >> 10)) as u8)
}
