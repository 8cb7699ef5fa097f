//! Tag lists in packed decimal, read and written by both programs: every class of length, every fault, out slices of
//! every relation; and what is accepted is taken back.

mod made;

use std::fmt::Debug;

use lane::ffi;
use reference::lists::{MAX_TAGS, TAG_BYTES, TAG_WORDS};
use reference::table::{MAX_DIGIT, MAX_LOW};

use crate::both::{halves, pair};
use crate::common::random::Random;
use crate::lent::{Lent, Untouched};

/// Lists of a round with any faults or none.
const ANY: u32 = 2_000;
/// A bad tag is put at every place of lists up to this many tags, and at the ends of the longest.
const SHORT: usize = 6;
/// Counts of tags about the most, and far over.
const LONG: [usize; 4] = [MAX_TAGS - 1, MAX_TAGS, MAX_TAGS + 1, 2 * MAX_TAGS];

/// What a call comes to; one call comes to several.
#[derive(Clone, Copy)]
enum Outcome {
    Empty,
    One,
    More,
    Most,
    Longer,
    Part,
    Over,
    PartOver,
    BadToo,
    Above,
    LowAbove,
    Zero,
    First,
    Between,
    Last,
    BadBehind,
    ShortToo,
    OneShort,
    Short,
    NoRoom,
}
use Outcome::*;

/// In the same order: what it is, its number, and whether reading and writing come to it.
const OUTCOMES: [(&str, u32, [bool; 2]); 20] = [
    ("no tag", 0, [true, true]),
    ("1 tag", 0, [true, true]),
    ("2 to 1,023 tags", 0, [true, true]),
    ("1,024 tags", 0, [true, true]),
    ("with a longer out slice", 0, [true, true]),
    ("no whole number of tags", 17, [true, true]),
    ("over 1,024 tags", 17, [true, true]),
    ("over them, and no whole number", 17, [true, true]),
    ("with a bad tag", 17, [true, true]),
    ("half byte or digit above 9", 18, [true, true]),
    ("low part above 999,999,999", 18, [false, true]),
    ("zero", 18, [true, true]),
    ("at the first place of several", 18, [true, true]),
    ("between", 18, [true, true]),
    ("at the last place of several", 18, [true, true]),
    ("with another bad tag behind", 18, [true, true]),
    ("with too short an out slice", 18, [true, true]),
    ("out slice one short", 19, [true, true]),
    ("out slice shorter", 19, [true, true]),
    ("no out slice", 19, [true, true]),
];

/// What was seen.
#[derive(Default)]
pub struct Lists {
    /// By outcome, as in `OUTCOMES`, read and written.
    outcomes: [[u64; 2]; OUTCOMES.len()],
    /// First half bytes above 9 of tags refused, by their place and by how far they are above 10.
    halves: [[u64; 6]; 2 * TAG_BYTES],
    /// Accepted lists that were taken back, read and written.
    back: [u64; 2],
}

/// What makes a tag bad.
#[derive(Clone, Copy)]
enum Fault {
    /// The first half byte above 9: its place and its value.
    Half(usize, u8),
    Digit,
    Low,
    Zero,
}

/// One of the calls, with what it gives in one number.
type Entry<I, O> = fn(&[I], &mut [O]) -> u64;

/// A call of both programs, the proved one first.
struct Call<I, O> {
    /// 0 for reading, 1 for writing.
    way: usize,
    programs: [Entry<I, O>; 2],
    /// Words or bytes of a tag in the list, and in the out slice.
    tag: [usize; 2],
    fault: fn(&[I]) -> Option<Fault>,
}

const READ: Call<u8, u32> = Call {
    way: 0,
    programs: [ffi::tags_read, |bytes, words| {
        pair(reference::read_tags(bytes, words))
    }],
    tag: [TAG_BYTES, TAG_WORDS],
    fault: |tag| {
        let mut halves = tag.iter().flat_map(|byte| [byte >> 4, byte & 0xf]);
        let above = halves.clone().enumerate().find(|&(_, half)| half > 9);
        let zero = halves.all(|half| half == 0).then_some(Fault::Zero);
        above.map_or(zero, |(place, half)| Some(Fault::Half(place, half)))
    },
};

const WRITE: Call<u32, u8> = Call {
    way: 1,
    programs: [ffi::tags_write, |words, bytes| {
        pair(reference::write_tags(words, bytes))
    }],
    tag: [TAG_WORDS, TAG_BYTES],
    fault: |tag| match *tag {
        [digit, _] if digit > MAX_DIGIT => Some(Fault::Digit),
        [_, low] if low > MAX_LOW => Some(Fault::Low),
        [0, 0] => Some(Fault::Zero),
        _ => None,
    },
};

impl<I: Untouched + Debug, O: Untouched> Call<I, O> {
    /// Makes the call over an out slice of this length and content. What the programs give, the list, all of the out
    /// slices and the margins are compared. Gives the words or bytes of the tags, if the list is accepted.
    fn make(&self, lists: &mut Lists, list: &[I], length: usize, content: O) -> Option<Vec<O>> {
        let lent = Lent::new(list);
        let mut proved = Lent::new(&vec![content; length]);
        let mut second = proved.clone();
        let answer = self.programs[0](lent.words(), proved.words_mut());
        let given = halves(self.programs[1](lent.words(), second.words_mut()));
        let about = || format!("a list of {} to {length}: {list:x?}", list.len());
        assert_eq!(halves(answer), given, "left: proved; {}", about());
        if let Some(place) = proved.first_other(&second) {
            panic!(
                "the programs differ at {place} of the out slice; {}",
                about()
            );
        }
        assert!(lent == Lent::new(list), "a list was written; {}", about());
        let written = match given {
            [0, count] => self.tag[1] * count as usize,
            _ => 0,
        };
        let (tags, rest) = second.words().split_at(written);
        let kept = rest.iter().all(|&word| word == content);
        assert!(kept, "written past the list; {}", about());
        self.count(lists, list, length, given);
        (given[0] == 0).then(|| tags.to_vec())
    }

    /// Counts what the call came to; that is what the list and the length of the out slice say.
    fn count(&self, lists: &mut Lists, list: &[I], length: usize, [number, low]: [u32; 2]) {
        let [tag, out_tag] = self.tag;
        let tags = list.chunks_exact(tag);
        let (count, part) = (tags.len(), !tags.remainder().is_empty());
        let (exact, over) = (out_tag * count, list.len() > tag * MAX_TAGS);
        let faults = tags.map(self.fault).enumerate();
        let bad: Vec<(usize, Fault)> = faults
            .filter_map(|(place, fault)| Some((place, fault?)))
            .collect();
        let outcomes = if part || over {
            vec![
                (Part, !over),
                (Over, !part),
                (PartOver, part && over),
                (BadToo, !bad.is_empty()),
            ]
        } else if let Some(&(place, fault)) = bad.first() {
            assert_eq!(low as usize, place, "not the first bad tag of {list:x?}");
            if let Fault::Half(place, half) = fault {
                lists.halves[place][usize::from(half) - 10] += 1;
            }
            vec![
                (Above, matches!(fault, Fault::Half(..) | Fault::Digit)),
                (LowAbove, matches!(fault, Fault::Low)),
                (Zero, matches!(fault, Fault::Zero)),
                (First, count > 1 && place == 0),
                (Between, place > 0 && place + 1 < count),
                (Last, count > 1 && place + 1 == count),
                (BadBehind, bad.len() > 1),
                (ShortToo, length < exact),
            ]
        } else if length < exact {
            vec![
                (OneShort, length + 1 == exact),
                (Short, length + 1 < exact),
                (NoRoom, length == 0),
            ]
        } else {
            vec![
                (Empty, count == 0),
                (One, count == 1),
                (More, count > 1 && count < MAX_TAGS),
                (Most, count == MAX_TAGS),
                (Longer, length > exact),
            ]
        };
        for (outcome, _) in outcomes.into_iter().filter(|&(_, comes)| comes) {
            let (name, wanted, _) = OUTCOMES[outcome as usize];
            assert_eq!(number, wanted, "{name}: {list:x?} to {length}");
            lists.outcomes[outcome as usize][self.way] += 1;
        }
    }
}

/// Reads a list into words; those of an accepted one are written as the same bytes.
fn read(random: &mut Random, lists: &mut Lists, bytes: &[u8], length: usize) {
    if let Some(words) = READ.make(lists, bytes, length, random.word()) {
        let again = WRITE.make(lists, &words, bytes.len(), 0xa5);
        assert_eq!(
            again.as_deref(),
            Some(bytes),
            "not the bytes that were read"
        );
        lists.back[0] += 1;
    }
}

/// Writes a list; the bytes of an accepted one are read as the same words.
fn write(random: &mut Random, lists: &mut Lists, words: &[u32], length: usize) {
    if let Some(bytes) = WRITE.make(lists, words, length, random.word() as u8) {
        let again = READ.make(lists, &bytes, words.len(), 0xa5a5_a5a5);
        assert_eq!(
            again.as_deref(),
            Some(words),
            "not the tags that were written"
        );
        lists.back[1] += 1;
    }
}

/// A round: every class of length and every fault, among any tags, and lists with any faults.
pub fn check(random: &mut Random, lists: &mut Lists) {
    for bad in [false, true] {
        lengths(random, lists, bad);
    }
    for count in 1..=SHORT {
        for place in 0..count {
            bad_tags(random, lists, count, place);
        }
    }
    for count in [MAX_TAGS - 1, MAX_TAGS] {
        for place in [0, 1, count - 2, count - 1] {
            bad_tags(random, lists, count, place);
        }
    }
    for _ in 0..ANY {
        any(random, lists);
    }
}

/// Lists of every class of length, the first tag good or bad, with out slices of every relation.
fn lengths(random: &mut Random, lists: &mut Lists, bad: bool) {
    let tags = made::tags(random, 2 * MAX_TAGS + 1);
    let (mut bytes, mut words) = (made::bytes(&tags), made::words(&tags));
    if bad {
        bytes[2] |= 0x0f;
        words[0] = MAX_DIGIT + 1;
    }
    for count in [0, 1, 2, 3].into_iter().chain(LONG) {
        for more in 0..TAG_BYTES {
            for length in made::rooms(TAG_WORDS * count) {
                read(random, lists, &bytes[..TAG_BYTES * count + more], length);
            }
        }
        for more in 0..TAG_WORDS {
            for length in made::rooms(TAG_BYTES * count) {
                write(random, lists, &words[..TAG_WORDS * count + more], length);
            }
        }
    }
}

/// Every fault of one tag: each half byte above 9 in each place, words above their limits, zero.
fn bad_tags(random: &mut Random, lists: &mut Lists, count: usize, place: usize) {
    let tags = made::tags(random, count);
    let room = random.pick(&made::rooms(TAG_WORDS * count));
    let mut bad = tags.clone();
    for at in 0..2 * TAG_BYTES {
        for half in 10..16 {
            bad[place][at] = half;
            read(random, lists, &made::bytes(&bad), room);
        }
        bad[place] = tags[place];
    }
    bad[place].fill(0);
    read(random, lists, &made::bytes(&bad), room);

    let room = random.pick(&made::rooms(TAG_BYTES * count));
    let mut words = made::words(&tags);
    let at = TAG_WORDS * place;
    let (digit, low) = (words[at], words[at + 1]);
    for tag in [
        [0, 0],
        [MAX_DIGIT + 1, low],
        [u32::MAX, low],
        [digit, MAX_LOW + 1],
        [digit, u32::MAX],
        [MAX_DIGIT + 1, MAX_LOW + 1],
    ] {
        words[at..at + TAG_WORDS].copy_from_slice(&tag);
        write(random, lists, &words, room);
    }
}

/// A list of any length, whole or cut, with a few bytes or words of any value in it, or none.
fn any(random: &mut Random, lists: &mut Lists) {
    let most = if random.once_in(60) { MAX_TAGS + 3 } else { 12 };
    let count = random.below(most as u32) as usize;
    let tags = made::tags(random, count);
    let (mut bytes, mut words) = (made::bytes(&tags), made::words(&tags));
    if count > 0 {
        if random.once_in(4) {
            bytes.truncate(bytes.len() - 1 - random.below(4) as usize);
            words.pop();
        }
        for _ in 0..random.pick(&[0, 0, 0, 1, 2, 3]) {
            let place = random.below(bytes.len() as u32) as usize;
            bytes[place] = random.next() as u8;
            let place = random.below(words.len() as u32) as usize;
            words[place] = random.word();
        }
    }
    let room = random.pick(&made::rooms(TAG_WORDS * count));
    read(random, lists, &bytes, room);
    let room = random.pick(&made::rooms(TAG_BYTES * count));
    write(random, lists, &words, room);
}

impl Lists {
    /// Prints the counts; gives what was to be seen and was not, or seen and was not to be.
    pub fn report(&self) -> Vec<String> {
        let mut faults = Vec::new();
        println!(
            "\n{:31} {:>6} {:>11} {:>11}",
            "tag lists", "gives", "read", "written"
        );
        for ((name, number, wanted), seen) in OUTCOMES.iter().zip(self.outcomes) {
            let [read, written] = seen;
            println!("{name:31} {number:>6} {read:>11} {written:>11}");
            if seen.map(|count| count > 0) != *wanted {
                faults.push(format!("tag lists, {name}: {seen:?}"));
            }
        }
        let [read, written] = self.back;
        println!("{:31} {:>6} {read:>11} {written:>11}", "taken back", "");
        if self.back.contains(&0) {
            faults.push(format!("tag lists taken back: {:?}", self.back));
        }
        println!("half bytes above 9 that were the first of their tag, by place: 10 to 15");
        for (place, seen) in self.halves.iter().enumerate() {
            println!("{place:<38} {seen:?}");
            if seen.contains(&0) {
                faults.push(format!("half bytes at place {place} of a tag: {seen:?}"));
            }
        }
        faults
    }
}
