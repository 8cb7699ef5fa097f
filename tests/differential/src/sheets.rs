//! Pages of the shift sheet: lanes with tags about the ends of lines and of pages, in slots anywhere; every page, and out
//! slices about its length.

use reference::sheet::{BYTES, LINE_TAGS, MAX_PAGE, PAGE_TAGS};
use reference::table::Sizes;

use crate::both::Both;
use crate::common::random::Random;
use crate::common::sheets::{any_lanes, any_tag, filled, page, round};
use crate::counts::Counts;

/// Tags of a lane. The last are one more than any call brings there, in a lane that leads round.
const COUNTS: [usize; 12] = [0, 1, 6, 7, 8, 412, 413, 414, 826, 827, 1022, 1023];
/// Bytes of an out slice.
const LENGTHS: [usize; 3] = [BYTES - 1, BYTES, BYTES + 1];
/// Tables of a round with any tags in any lanes.
const ANY: u32 = 20;

/// What was seen.
#[derive(Default)]
pub struct Sheets {
    /// Pages by the tags of the lane, as in `COUNTS`; the last for any other number.
    pages: [[u64; MAX_PAGE as usize + 1]; COUNTS.len() + 1],
    /// Tags of the last line that has any, from 1.
    last_lines: [u64; LINE_TAGS],
    /// Digits, by their place in a tag.
    digits: [[u64; 10]; 10],
}

/// A round: lanes of each of these numbers of tags, and of any.
pub fn check(random: &mut Random, counts: &mut Counts) {
    let nodes = Sizes::MAX_NODES as u32;
    for count in COUNTS
        .into_iter()
        .filter(|&count| count + 2 <= nodes as usize)
    {
        let tags = (0..count).map(|_| any_tag(random)).collect();
        lanes(random, counts, nodes, &[tags]);
    }
    let (table, tags) = round(random, nodes);
    let mut both = Both::over(&table);
    pages(random, counts, &mut both, 0, &tags);
    counts.add(&both.given);
    for _ in 0..ANY {
        let (nodes, tags) = any_lanes(random);
        lanes(random, counts, nodes, &tags);
    }
}

/// A table whose lanes have these tags.
fn lanes(random: &mut Random, counts: &mut Counts, nodes: u32, lanes: &[Vec<u64>]) {
    let mut both = Both::over(&filled(random, nodes, lanes));
    for (lane, tags) in (0..).zip(lanes) {
        pages(random, counts, &mut both, lane, tags);
    }
    counts.add(&both.given);
}

/// Every page of a lane with these tags, and one more, to every out slice.
fn pages(random: &mut Random, counts: &mut Counts, both: &mut Both, lane: u32, tags: &[u64]) {
    for number in 0..=MAX_PAGE + 1 {
        for length in LENGTHS {
            let given = both.sheet(lane, number, length, random.word() as u8);
            hold(counts, &given, Ok(tags), number, length);
        }
    }
}

/// A page of any number to any out slice, on any words: what a read of the lane gives has the say.
pub fn any(random: &mut Random, counts: &mut Counts, both: &mut Both, lane: u32) {
    let (number, length) = some_page(random);
    let read = both.read(lane, 2 * Sizes::MAX_NODES, 0);
    let given = both.sheet(lane, number, length, random.word() as u8);
    let tags = read.as_deref().map_err(|&refusal| refusal);
    hold(counts, &given, tags, number, length);
}

/// The number of a page, mostly one that there is, and the length of an out slice, mostly that of a page.
pub fn some_page(random: &mut Random) -> (u32, usize) {
    let (number, length) = (random.word(), random.below(2 * BYTES as u32) as usize);
    (
        random.pick(&[0, 0, 1, 2, 3, number]),
        random.pick(&[BYTES, BYTES, BYTES, BYTES - 1, BYTES + 1, length]),
    )
}

/// What a sheet gave, held to the tags of its lane, or to what a read of it is refused with.
pub fn hold(
    counts: &mut Counts,
    given: &Result<Vec<u8>, u32>,
    tags: Result<&[u64], u32>,
    number: u32,
    length: usize,
) {
    let wanted = match tags {
        Err(refusal) => Err(refusal),
        Ok(_) if number > MAX_PAGE => Err(20),
        Ok(_) if length != BYTES => Err(21),
        Ok(tags) => {
            counts.sheets.printed(tags, number);
            Ok(page(tags, number).into_bytes())
        }
    };
    assert!(
        *given == wanted,
        "page {number} to {length} bytes of {tags:?}: {given:?}"
    );
}

impl Sheets {
    /// A page of a lane with these tags was printed.
    fn printed(&mut self, tags: &[u64], number: u32) {
        let place = COUNTS.iter().position(|&count| count == tags.len());
        self.pages[place.unwrap_or(COUNTS.len())][number as usize] += 1;
        let on_page = tags.chunks(PAGE_TAGS).nth(number as usize);
        if let Some(line) = on_page.and_then(|tags| tags.chunks(LINE_TAGS).last()) {
            self.last_lines[line.len() - 1] += 1;
        }
        for tag in on_page.into_iter().flatten() {
            let mut rest = *tag;
            for place in (0..10).rev() {
                self.digits[place][(rest % 10) as usize] += 1;
                rest /= 10;
            }
        }
    }

    /// Prints the counts; gives what was to be seen and was not.
    pub fn report(&self) -> Vec<String> {
        let mut faults = Vec::new();
        println!(
            "\n{:31} {:>11} {:>11} {:>11}",
            "sheets, tags in the lane", "page 0", "page 1", "page 2"
        );
        let names = COUNTS.iter().map(usize::to_string);
        let names = names.chain(["another number".to_string()]);
        for (name, seen) in names.zip(self.pages) {
            let [first, second, third] = seen;
            println!("{name:31} {first:>11} {second:>11} {third:>11}");
            if seen.contains(&0) {
                faults.push(format!("sheets, {name} tags: {seen:?}"));
            }
        }
        println!("last lines of 1 to 7 tags: {:?}", self.last_lines);
        if self.last_lines.contains(&0) {
            faults.push(format!("sheets, last lines: {:?}", self.last_lines));
        }
        println!("digits 0 to 9 by their place in a tag");
        for (place, seen) in self.digits.iter().enumerate() {
            println!("{place:<38} {seen:?}");
            if seen.contains(&0) {
                faults.push(format!("sheets, digits at place {place}: {seen:?}"));
            }
        }
        faults
    }
}
