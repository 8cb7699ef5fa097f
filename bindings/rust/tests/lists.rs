//! Tag lists by the wrapper: there and back, out slices of every length, and each refusal with its place.

use lane::{
    tags_read, tags_write, Lane, Operation, Refusal, RefusedTags, Side, Tag, LIST_TAGS, TAG_BYTES,
};

const TAGS: [u64; 4] = [51, 9_999_999_999, 1_000_000_000, 51];
const LIST: [u8; 20] = [
    0x00, 0x00, 0x00, 0x00, 0x51, 0x99, 0x99, 0x99, 0x99, 0x99, //
    0x10, 0x00, 0x00, 0x00, 0x00, 0x00, 0x00, 0x00, 0x00, 0x51,
];

fn tags() -> Vec<Tag> {
    TAGS.into_iter().filter_map(Tag::new).collect()
}

fn words() -> Vec<[u32; 2]> {
    tags().into_iter().map(Tag::words).collect()
}

/// The refusal and the place, or the number of tags read into so many places; what is past the list is kept.
fn read(list: &[u8], places: usize) -> Result<usize, (Refusal, Option<usize>)> {
    let mut out = vec![[7; 2]; places];
    let count = tags_read(list, &mut out).map(|tags| tags.len());
    let kept = count.unwrap_or(0);
    assert!(out[kept..].iter().all(|&place| place == [7; 2]));
    count.map_err(parts)
}

/// The same of writing.
fn write(words: &[[u32; 2]], bytes: usize) -> Result<usize, (Refusal, Option<usize>)> {
    let mut out = vec![7; bytes];
    let count = tags_write(words, &mut out).map(|list| list.len() / TAG_BYTES);
    let kept = TAG_BYTES * count.unwrap_or(0);
    assert!(out[kept..].iter().all(|&byte| byte == 7));
    count.map_err(parts)
}

fn parts(refused: RefusedTags) -> (Refusal, Option<usize>) {
    (refused.refusal, refused.place)
}

#[test]
fn a_list_is_read_and_written_again() {
    let mut out = [[7; 2]; 5];
    assert!(tags_read(&LIST, &mut out).expect("a list").eq(tags()));
    assert_eq!(out[..4], words());
    assert_eq!(out[4], [7; 2]);
    let mut bytes = [7; 21];
    assert_eq!(tags_write(&out[..4], &mut bytes), Ok(&LIST[..]));
    assert_eq!(bytes[20], 7);
}

#[test]
fn an_empty_list_is_a_list() {
    for room in [0, 3] {
        assert_eq!(read(&[], room), Ok(0));
        assert_eq!(write(&[], room), Ok(0));
    }
}

#[test]
fn the_room_is_tested_last() {
    for (places, given) in [(4, Ok(4)), (5, Ok(4)), (3, Err((Refusal::TagsOut, None)))] {
        assert_eq!(read(&LIST, places), given);
    }
    for (bytes, given) in [
        (20, Ok(4)),
        (21, Ok(4)),
        (19, Err((Refusal::TagsOut, None))),
    ] {
        assert_eq!(write(&words(), bytes), given);
    }
    assert_eq!(read(&[0; 10], 0), Err((Refusal::NoTag, Some(0))));
    assert_eq!(read(&[0; 11], 0), Err((Refusal::Tags, None)));
    assert_eq!(write(&[[0; 2]; 2], 0), Err((Refusal::NoTag, Some(0))));
    assert_eq!(
        write(&[[0; 2]; LIST_TAGS + 1], 0),
        Err((Refusal::Tags, None))
    );
}

#[test]
fn lengths_up_to_the_limit() {
    let list = [0x99; TAG_BYTES * (LIST_TAGS + 1)];
    let most = TAG_BYTES * LIST_TAGS;
    assert_eq!(read(&list[..most], LIST_TAGS), Ok(LIST_TAGS));
    for bytes in [1, 4, 6, most - 1, most + 1, most + 5] {
        let refused = Err((Refusal::Tags, None));
        assert_eq!(read(&list[..bytes], LIST_TAGS + 1), refused);
    }
    let words = [[9, 999_999_999]; LIST_TAGS + 1];
    assert_eq!(write(&words[1..], most), Ok(LIST_TAGS));
    assert_eq!(write(&words, most + 5), Err((Refusal::Tags, None)));
}

#[test]
fn the_first_place_without_a_tag_is_named() {
    for place in 0..TAGS.len() {
        let refused = Err((Refusal::NoTag, Some(place)));
        for byte in [0x0a, 0xa0, 0xff] {
            let mut list = LIST;
            list[TAG_BYTES * place + 2] = byte;
            list[15..].fill(0);
            assert_eq!(read(&list, 4), refused);
        }
        for tag in [[0, 0], [10, 51], [0, 1_000_000_000]] {
            let mut list = words();
            list[3] = [0, 0];
            list[place] = tag;
            assert_eq!(write(&list, 20), refused);
        }
    }
}

#[test]
fn a_lane_is_sent_as_a_list() {
    let mut lane = Lane::start([0; lane::words(6, 1)], 6, 1, 0).expect("the sizes fit");
    let mut places = [[0; 2]; 4];
    for tag in tags_read(&LIST[..15], &mut places).expect("a list") {
        let pushed = lane.call(0, Operation::Push(tag), Side::Right);
        assert!(pushed.is_ok(), "{pushed:?}");
    }
    let count = lane.read(&mut places).expect("a lane").len();
    let mut list = [0; 20];
    assert_eq!(tags_write(&places[..count], &mut list), Ok(&LIST[..15]));
}

/// Tags are written as their words are, and refused for the length of the list or of the place alone.
#[test]
fn tags_are_written_as_their_words() {
    let mut out = [7; LIST.len() + 1];
    assert_eq!(tags_write(&tags(), &mut out), Ok(&LIST[..]));
    assert_eq!(out[LIST.len()], 7);
    assert_eq!(tags_write::<Tag>(&[], &mut []), Ok(&[][..]));
    let short = tags_write(&tags(), &mut out[..LIST.len() - 1]);
    assert_eq!(short.map_err(parts), Err((Refusal::TagsOut, None)));
    let many = vec![Tag::MAX; LIST_TAGS + 1];
    let mut out = vec![0; TAG_BYTES * many.len()];
    let written = tags_write(&many[1..], &mut out).map(<[u8]>::len);
    assert_eq!(written, Ok(TAG_BYTES * LIST_TAGS));
    assert_eq!(
        tags_write(&many, &mut out).map_err(parts),
        Err((Refusal::Tags, None))
    );
}
