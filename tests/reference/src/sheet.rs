//! The lane on the shift sheet: pages of text, tags in lines.

use crate::calls;
use crate::refusal;
use crate::shape;
use crate::table::Content;

/// Bytes of a line without its line feed.
pub const COLUMNS: usize = 80;
/// Lines of a page, the heading with them.
pub const LINES: usize = 60;
/// Bytes of a page.
pub const BYTES: usize = LINES * (COLUMNS + 1);
/// Tags of a line.
pub const LINE_TAGS: usize = 7;
/// Tags of a page.
pub const PAGE_TAGS: usize = LINE_TAGS * (LINES - 1);
/// The last page; pages are counted from 0.
pub const MAX_PAGE: u32 = 2;

/// Digits of a tag, after which a blank stands.
const DIGITS: usize = 10;
/// What the second of them counts.
const SECOND: u32 = 100_000_000;

/// Writes a page of a lane; returns 0 or the refusal.
pub fn sheet(table: &[u32], lane: u32, page: u32, out: &mut [u8]) -> u32 {
    match tags_of(table, lane, page) {
        Err(number) => number,
        Ok(_) if page > MAX_PAGE => refusal::PAGE,
        Ok(_) if out.len() != BYTES => refusal::PAGE_LENGTH,
        Ok(tags) => {
            tags.write(out);
            0
        }
    }
}

/// The tags of a page, and how many the whole lane has.
struct Tags {
    page: [Content; PAGE_TAGS],
    on_page: usize,
    in_lane: usize,
}

/// The whole lane is walked, whichever the page.
fn tags_of(table: &[u32], lane: u32, page: u32) -> Result<Tags, u32> {
    let sizes = shape::check(table)?;
    if lane >= sizes.lanes {
        return Err(refusal::LANE);
    }
    let first = PAGE_TAGS * page.min(MAX_PAGE + 1) as usize;
    let mut tags = Tags {
        page: [[0; 2]; PAGE_TAGS],
        on_page: 0,
        in_lane: 0,
    };
    calls::walk(table, sizes, lane, |_, tag| {
        if tags.in_lane >= first && tags.on_page < PAGE_TAGS {
            tags.page[tags.on_page] = tag;
            tags.on_page += 1;
        }
        tags.in_lane += 1;
    })?;
    Ok(tags)
}

impl Tags {
    /// Writes every byte of a page.
    fn write(&self, out: &mut [u8]) {
        out.fill(b' ');
        for line in out.chunks_exact_mut(COLUMNS + 1) {
            line[COLUMNS] = b'\n';
        }
        let (heading, lines) = out.split_at_mut(COLUMNS + 1);
        heading[..5].copy_from_slice(b"LANE ");
        heading[5..9].copy_from_slice(&eight_digits(self.in_lane as u32)[4..]);
        let tags = self.page[..self.on_page].chunks(LINE_TAGS);
        for (line, tags) in lines.chunks_exact_mut(COLUMNS + 1).zip(tags) {
            for (place, &tag) in line.chunks_exact_mut(DIGITS + 1).zip(tags) {
                place[..DIGITS].copy_from_slice(&ten_digits(tag));
            }
        }
    }
}

/// The digits of a tag with its zeros.
pub fn ten_digits([low, digit]: Content) -> [u8; DIGITS] {
    let mut digits = [
        b'0' + digit as u8,
        b'0' + (low / SECOND) as u8,
        0,
        0,
        0,
        0,
        0,
        0,
        0,
        0,
    ];
    digits[2..].copy_from_slice(&eight_digits(low % SECOND));
    digits
}

/// The digits of a number below 100,000,000 with its zeros. It is parted three times, in fours, in pairs and in digits;
/// each time the higher part stays in the lower bits, which are written first.
fn eight_digits(number: u32) -> [u8; 8] {
    let fours = u64::from(number / 10_000) | u64::from(number % 10_000) << 32;
    // The quotients by 100 of numbers below 10,000, and by 10 of numbers below 100, are in the upper bits of products.
    let hundreds = (fours * 5243) >> 19 & 0x0000_007f_0000_007f;
    let pairs = hundreds | (fours - 100 * hundreds) << 16;
    let tens = (pairs * 103) >> 10 & 0x000f_000f_000f_000f;
    let digits = tens | (pairs - 10 * tens) << 8;
    (digits | 0x3030_3030_3030_3030).to_le_bytes()
}
