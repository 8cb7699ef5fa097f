//! Airline lists by the wrapper: the end for every code, held to the library's pushes; each fault with its line; and
//! pushes by list, refused as a begin is.

use lane::{
    words, AirlineList, Answer, Lane, Lanes, ListFault, Operation, Refusal, Side, Tag, LIST_BYTES,
    LIST_LINES,
};

const SLOTS: u32 = 4;
const WORDS: usize = words(SLOTS, 1);
/// The side in the record of the first task.
const SIDE: usize = words(SLOTS, 0) + 2;

fn tag(number: u64) -> Tag {
    Tag::new(number).expect("a tag")
}

/// An airline's line.
fn airline(code: usize, end: &str) -> String {
    format!("(airline (code {code:03}) {end})\n")
}

/// So many lines, the closing one with them; the codes 7 apart, the ends in turn.
fn list(lines: usize) -> String {
    let airlines = (1..lines).map(|line| airline(7 * line % 1000, ["left", "right"][line % 2]));
    airlines.chain(["(others left)\n".to_string()]).collect()
}

/// The number of the refusal and the line, or 0 and 0.
fn fault(text: &str) -> (u32, usize) {
    match AirlineList::parse(text) {
        Ok(_) => (0, 0),
        Err(ListFault { line, refusal, .. }) => (refusal.number(), line),
    }
}

/// Where the library begins the push of a tag.
fn begun_at<T: AsRef<[u8]>>(list: &AirlineList<T>, tag: Tag) -> u32 {
    let mut lane = Lane::start([0; WORDS], SLOTS, 1, 0).expect("the sizes fit");
    lane.push_by_list(0, tag, list).expect("an idle task");
    lane.words()[SIDE]
}

#[test]
fn every_code_goes_where_the_library_sends_it() {
    for lines in [1, 2, 3, LIST_LINES] {
        let text = list(lines);
        let list = AirlineList::parse(&text).expect("a list");
        for code in 0..1000 {
            let low = code * 1_000_000 + (code * 7919) % 1_000_000;
            let tag = tag(low.max(1) + 1_000_000_000 * (code % 10));
            assert_eq!(u64::from(tag.code()), code);
            let named = (1..lines).find(|line| 7 * line == code as usize);
            let end = named.map_or(Side::Left, |line| [Side::Left, Side::Right][line % 2]);
            assert_eq!(list.end_for(tag), end, "{tag} by {text}");
            assert_eq!(begun_at(&list, tag), end.number(), "{tag} by {text}");
        }
    }
}

#[test]
fn the_first_and_the_last_tag_of_a_code() {
    let list = AirlineList::parse("(airline (code 125) left)\n(others right)\n").expect("a list");
    for (number, end) in [
        (125_000_000, Side::Left),
        (125_999_999, Side::Left),
        (9_125_000_051, Side::Left),
        (124_999_999, Side::Right),
        (126_000_000, Side::Right),
        (1_250_000_000, Side::Right),
        (12_500_000, Side::Right),
    ] {
        assert_eq!(list.end_for(tag(number)), end, "{number:010}");
        assert_eq!(begun_at(&list, tag(number)), end.number(), "{number:010}");
    }
}

#[test]
fn the_order_of_the_airlines_has_no_say() {
    let text = list(20);
    let (airlines, closing) = text.split_at(text.len() - 14);
    let turned: Vec<&str> = airlines.lines().rev().chain([closing]).collect();
    let turned = turned.join("\n");
    let [one, other] = [&text, &turned].map(|text| AirlineList::parse(text).expect("a list"));
    for code in 0..1000 {
        let tag = tag(code * 1_000_000 + 51);
        assert_eq!(one.end_for(tag), other.end_for(tag));
        assert_eq!(begun_at(&one, tag), begun_at(&other, tag));
    }
}

#[test]
fn a_fault_is_named_by_its_line() {
    for (text, given) in [
        ("", (27, 1)),
        ("\n", (27, 1)),
        ("(others left)", (0, 0)),
        ("(others left)\n", (0, 0)),
        ("(others left)\n\n", (29, 1)),
        ("(others left)\r\n", (27, 1)),
        ("(others left )\n", (27, 1)),
        ("(airline (code 12) left)\n(others left)\n", (27, 1)),
        ("(airline (code 1234) left)\n(others left)\n", (27, 1)),
        ("(airline (code 125) left)\n(others\n", (27, 2)),
        ("(airline (code 125) left)\n", (29, 1)),
        (
            "(airline (code 125) left)\n(airline (code 125) left)",
            (28, 2),
        ),
        ("(others left)\n(airline (code 125) left)\n", (29, 1)),
        (
            "(airline (code 125) left)\n\n(others left)\n(others left)",
            (27, 2),
        ),
    ] {
        assert_eq!(fault(text), given, "{text:?}");
    }
}

#[test]
fn lines_up_to_the_limit() {
    for lines in 1..=LIST_LINES {
        assert_eq!(fault(&list(lines)), (0, 0), "{lines}");
        let open = list(lines).replace("(others left)\n", "");
        let given = match lines {
            1 => (27, 1),
            _ => (29, lines - 1),
        };
        assert_eq!(fault(&open), given, "{lines}");
    }
    for lines in LIST_LINES + 1..LIST_LINES + 4 {
        assert_eq!(fault(&list(lines)), (27, LIST_LINES + 1), "{lines}");
    }
    let longest = (1..LIST_LINES).map(|code| airline(code, "right"));
    let longest: String = longest.chain(["(others right)\n".to_string()]).collect();
    assert_eq!(longest.len(), LIST_BYTES);
    assert_eq!(fault(&longest), (0, 0));
}

#[test]
fn texts_owned_and_lent() {
    let text = list(3);
    let lent = AirlineList::parse(text.as_str()).expect("a list");
    let bytes = AirlineList::parse(text.as_bytes()).expect("a list");
    let owned = AirlineList::parse(text.clone()).expect("a list");
    let array = AirlineList::parse(*b"(others right)").expect("a list");
    for tag in [Tag::MIN, tag(7_000_000), Tag::MAX] {
        assert_eq!(lent.end_for(tag), owned.end_for(tag));
        assert_eq!(bytes.end_for(tag), owned.end_for(tag));
        assert_eq!(array.end_for(tag), Side::Right);
    }
    assert_eq!(lent.text(), owned.text());
    assert_eq!(owned.into_text(), text);
}

#[test]
fn a_push_by_list_is_that_begin() {
    let list = AirlineList::parse("(airline (code 125) left)\n(others right)\n").expect("a list");
    let mut by_list = Lanes::start(vec![7; words(8, 3)], 8, 3, 0, 2).expect("the sizes fit");
    let mut begun = by_list.clone();
    for (task, lane, number) in [
        (0, 0, 125_000_051),
        (1, 1, 9_125_000_051),
        (1, 1, 250_000_051),   // busy
        (2, 0, 9_125_000_051), // in a busy push
        (3, 1, 51),
        (3, 2, 51), // the lane is tested before the task
        (2, 2, 51),
        (2, 1, 51),
    ] {
        let tag = tag(number);
        let wanted = begun.begin(task, lane, Operation::Push(tag), list.end_for(tag));
        assert_eq!(by_list.push_by_list(task, lane, tag, &list), wanted);
        assert_eq!(by_list, begun, "{number:010}");
    }
    let mut damaged = begun.into_words();
    damaged[15] = 1;
    for (length, refusal) in [(36, Refusal::Table), (damaged.len(), Refusal::Shape)] {
        let mut table = Lanes::over(&mut damaged[..length]);
        let given = table.push_by_list(0, 9, Tag::MAX, &list);
        assert_eq!(given, Err(refusal));
    }
}

#[test]
fn bags_stand_where_the_list_sends_them() {
    let list = AirlineList::parse(list(3)).expect("a list"); // 007 right, 014 left, others left
    let mut lane = Lane::start([0; words(8, 1)], 8, 1, 0).expect("the sizes fit");
    for number in [7_000_001, 14_000_001, 51, 7_000_002] {
        lane.push_by_list(0, tag(number), &list)
            .expect("an idle task");
        assert_eq!(lane.ticks(0, 0, u32::MAX), Ok(Answer::Pushed));
    }
    let bags = [51, 14_000_001, 7_000_001, 7_000_002].map(tag);
    assert!(lane.bags().expect("a lane").eq(bags));
}
