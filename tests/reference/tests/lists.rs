//! Tag lists in packed decimal: lengths, tags that are none, out slices of every length, and there and back.

mod common;

use common::random::Random;
use reference::lists::{MAX_TAGS, TAG_BYTES, TAG_WORDS};
use reference::table::{digit, low_part, MAX_LOW, MAX_TAG};
use reference::{read_tags, write_tags};

/// What an out slice holds before a call.
const KEPT_WORD: u32 = 0xa5a5_a5a5;
const KEPT_BYTE: u8 = 0xa5;

/// The bytes of a list, by the ten digits of each tag.
fn bytes_of(tags: &[u64]) -> Vec<u8> {
    let digits: String = tags.iter().map(|tag| format!("{tag:010}")).collect();
    let bytes = digits.as_bytes().chunks_exact(2);
    bytes
        .map(|two| (two[0] - b'0') << 4 | (two[1] - b'0'))
        .collect()
}

/// The words of a list.
fn words_of(tags: &[u64]) -> Vec<u32> {
    tags.iter()
        .flat_map(|&tag| [digit(tag), low_part(tag)])
        .collect()
}

/// So many tags, the least and the greatest among the first.
fn tags(count: usize) -> Vec<u64> {
    let some = [MAX_TAG, 1, 1_000_000_000, 999_999_999, 1_234_567_890];
    let others = (0..).map(|number| 1 + number * 4_003_002_001 % MAX_TAG);
    some.into_iter().chain(others).take(count).collect()
}

fn read(bytes: &[u8], length: usize) -> ((u32, u32), Vec<u32>) {
    let mut out = vec![KEPT_WORD; length];
    (read_tags(bytes, &mut out), out)
}

fn write(words: &[u32], length: usize) -> ((u32, u32), Vec<u8>) {
    let mut out = vec![KEPT_BYTE; length];
    (write_tags(words, &mut out), out)
}

/// Reading gives this whatever the out slice, and leaves it.
fn read_refused(bytes: &[u8], given: (u32, u32)) {
    for length in around(bytes.len() / TAG_BYTES * TAG_WORDS) {
        let kept = vec![KEPT_WORD; length];
        assert_eq!(read(bytes, length), (given, kept), "{bytes:x?}");
    }
}

/// The same of writing.
fn write_refused(words: &[u32], given: (u32, u32)) {
    for length in around(words.len() / TAG_WORDS * TAG_BYTES) {
        let kept = vec![KEPT_BYTE; length];
        assert_eq!(write(words, length), (given, kept), "{words:?}");
    }
}

/// Lengths of an out slice about the one needed.
fn around(exact: usize) -> [usize; 5] {
    [0, exact.saturating_sub(1), exact, exact + 1, exact + 7]
}

/// Both calls on a list of tags, over out slices of every relation.
fn accepted(tags: &[u64]) {
    let (bytes, words, count) = (bytes_of(tags), words_of(tags), tags.len() as u32);
    for length in around(words.len()) {
        let (given, out) = read(&bytes, length);
        if length < words.len() {
            assert_eq!((given, out), ((19, 0), vec![KEPT_WORD; length]));
        } else {
            let (list, rest) = out.split_at(words.len());
            assert_eq!((given, list), ((0, count), &words[..]));
            assert_eq!(rest, vec![KEPT_WORD; rest.len()]);
        }
    }
    for length in around(bytes.len()) {
        let (given, out) = write(&words, length);
        if length < bytes.len() {
            assert_eq!((given, out), ((19, 0), vec![KEPT_BYTE; length]));
        } else {
            let (list, rest) = out.split_at(bytes.len());
            assert_eq!((given, list), ((0, count), &bytes[..]));
            assert_eq!(rest, vec![KEPT_BYTE; rest.len()]);
        }
    }
}

/// Places of a list: the first two, one in the middle, the last two.
fn places(count: usize) -> Vec<usize> {
    let mut places = vec![0, 1, count / 2, count.wrapping_sub(2), count - 1];
    places.retain(|&place| place < count);
    places.sort_unstable();
    places.dedup();
    places
}

/// Lists of these many tags have a bad one put in them.
const COUNTS: [usize; 6] = [1, 2, 3, 7, 1023, 1024];

#[test]
fn the_higher_digit_stands_first() {
    for (bytes, words) in [
        ([0x12, 0x34, 0x56, 0x78, 0x90], [1, 234_567_890]),
        ([0x00, 0x00, 0x00, 0x00, 0x51], [0, 51]),
        ([0x00, 0x00, 0x00, 0x00, 0x01], [0, 1]),
        ([0x10, 0x00, 0x00, 0x00, 0x00], [1, 0]),
        ([0x01, 0x00, 0x00, 0x00, 0x00], [0, 100_000_000]),
        ([0x42, 0x94, 0x96, 0x72, 0x96], [4, 294_967_296]),
        ([0x99, 0x99, 0x99, 0x99, 0x99], [9, 999_999_999]),
    ] {
        assert_eq!(read(&bytes, 2), ((0, 1), words.to_vec()));
        assert_eq!(write(&words, 5), ((0, 1), bytes.to_vec()));
    }
}

#[test]
fn lists_of_every_length() {
    for count in [0, 1, 2, 3, 16, 1023, MAX_TAGS] {
        accepted(&tags(count));
    }
    let bytes = bytes_of(&tags(2051));
    for length in [
        1, 2, 3, 4, 6, 9, 5114, 5116, 5119, 5121, 5124, 5125, 5126, 10_250,
    ] {
        read_refused(&bytes[..length], (17, 0));
    }
    let words = words_of(&tags(2051));
    for length in [1, 3, 5, 2047, 2049, 2050, 2051, 4098] {
        write_refused(&words[..length], (17, 0));
    }
}

#[test]
fn every_bad_half_byte() {
    for count in COUNTS {
        let list = bytes_of(&tags(count));
        for place in places(count) {
            for at in 0..2 * TAG_BYTES {
                for half in 10..16 {
                    let mut bytes = list.clone();
                    let byte = &mut bytes[place * TAG_BYTES + at / 2];
                    *byte = match at % 2 {
                        0 => *byte & 0x0f | half << 4,
                        _ => *byte & 0xf0 | half,
                    };
                    read_refused(&bytes, (18, place as u32));
                }
            }
        }
    }
}

#[test]
fn zero_is_no_tag() {
    for count in COUNTS {
        for place in places(count) {
            let mut list = tags(count);
            list[place] = 0;
            read_refused(&bytes_of(&list), (18, place as u32));
            write_refused(&words_of(&list), (18, place as u32));
        }
    }
}

#[test]
fn words_that_are_no_tag() {
    let words = [
        [10, 0],
        [10, 51],
        [16, 51],
        [u32::MAX, MAX_LOW],
        [0, MAX_LOW + 1],
        [1, MAX_LOW + 2],
        [9, u32::MAX],
        [10, MAX_LOW + 1],
    ];
    for count in COUNTS {
        for place in places(count) {
            for tag in words {
                let mut list = words_of(&tags(count));
                list[TAG_WORDS * place..][..TAG_WORDS].copy_from_slice(&tag);
                write_refused(&list, (18, place as u32));
            }
        }
    }
}

#[test]
fn the_first_of_two_bad_tags_is_named() {
    for (first, second) in [(0, 1), (0, 4), (2, 3), (3, 4)] {
        for faults in [[0xa0, 0], [0, 0x0f], [0xff, 0xff], [0, 0]] {
            let mut bytes = bytes_of(&tags(5));
            for (place, fault) in [first, second].into_iter().zip(faults) {
                bytes[TAG_BYTES * place..][..TAG_BYTES].fill(fault);
            }
            read_refused(&bytes, (18, first as u32));
        }
        for faults in [[10, 0], [0, u32::MAX], [u32::MAX, 10], [0, 0]] {
            let mut words = words_of(&tags(5));
            for (place, fault) in [first, second].into_iter().zip(faults) {
                words[TAG_WORDS * place..][..TAG_WORDS].copy_from_slice(&[fault, 0]);
            }
            write_refused(&words, (18, first as u32));
        }
    }
}

#[test]
fn the_length_comes_first() {
    // Every tag is bad, and the out slices are too short among others: 17, then 18.
    for length in [1, 4, 6, 5121, 5125] {
        read_refused(&vec![0xff; length], (17, 0));
        read_refused(&vec![0; length], (17, 0));
    }
    for length in [5, 5120] {
        read_refused(&vec![0xff; length], (18, 0));
    }
    for length in [1, 3, 2049, 2050] {
        write_refused(&vec![u32::MAX; length], (17, 0));
        write_refused(&vec![0; length], (17, 0));
    }
    for length in [2, 2048] {
        write_refused(&vec![u32::MAX; length], (18, 0));
    }
}

#[test]
fn lists_there_and_back() {
    let mut random = Random::new(5);
    for _ in 0..2000 {
        let count = match random.below(20) {
            0 => MAX_TAGS as u32,
            1 => random.below(MAX_TAGS as u32),
            _ => random.below(12),
        };
        let tag = |_| match random.below(4) {
            0 => 1 + u64::from(random.below(100)),
            1 => (1 + u64::from(random.below(9))) * 1_000_000_000,
            _ => 1 + random.next() % MAX_TAG,
        };
        accepted(&(0..count).map(tag).collect::<Vec<u64>>());
    }
}

#[test]
fn any_bytes_and_words_that_are_accepted_come_back() {
    let mut random = Random::new(6);
    let mut seen = [0; 2];
    for _ in 0..20_000 {
        let byte = |_| random.pick(&[0, 9, 0x0a, 0x10, 0x90, 0x99, 0x99, 0x21, 0x84, 0x57]);
        let bytes: Vec<u8> = (0..10).map(byte).collect();
        let (given, words) = read(&bytes, 4);
        if given == (0, 2) {
            assert_eq!(write(&words, 10), (given, bytes));
            seen[0] += 1;
        }
        let words: Vec<u32> = (0..4).map(|_| random.word()).collect();
        let (given, bytes) = write(&words, 10);
        if given == (0, 2) {
            assert_eq!(read(&bytes, 4), (given, words));
            seen[1] += 1;
        }
    }
    assert!(seen.iter().all(|&count| count > 100), "{seen:?}");
}
