//! The shift sheet by the wrapper: pages line by line for any number of bags, lanes apart, and each refusal in order.

use lane::{
    ffi, words, Answer, Lane, Lanes, Operation, Page, Refusal, Side, Tag, MAX_SLOTS, PAGES,
    PAGE_BYTES, PAGE_COLUMNS, PAGE_LINES, PAGE_TAGS,
};

/// Tags of a line.
const LINE_TAGS: usize = 7;

/// A tag for each place, with all digits.
fn tag(place: usize) -> Tag {
    Tag::new(1 + place as u64 * 7_182_818_283 % 9_999_999_967).expect("ten digits")
}

/// The page of these tags, line by line.
fn wanted(tags: &[Tag], page: usize) -> Vec<String> {
    let from = tags.len().min(PAGE_TAGS * page);
    let to = tags.len().min(PAGE_TAGS * (page + 1));
    let mut lines = vec![format!("LANE {:04}", tags.len())];
    for line in tags[from..to].chunks(LINE_TAGS) {
        lines.push(line.iter().map(|tag| format!("{tag} ")).collect());
    }
    lines.resize(PAGE_LINES, String::new());
    lines
        .iter()
        .map(|line| format!("{line:PAGE_COLUMNS$}"))
        .collect()
}

/// The page has these lines, as text and as bytes.
fn check(page: &Page, lines: &[String]) {
    assert!(page.lines().eq(lines), "{page}");
    let text: String = lines.iter().map(|line| format!("{line}\n")).collect();
    assert_eq!(page.as_str(), text);
    assert_eq!(page.to_string(), text);
    assert_eq!(page.as_bytes()[..], *text.as_bytes());
}

#[test]
fn a_page_s_sizes() {
    assert_eq!(PAGE_BYTES, PAGE_LINES * (PAGE_COLUMNS + 1));
    assert_eq!(PAGE_TAGS, LINE_TAGS * (PAGE_LINES - 1));
    assert!(PAGES as usize * PAGE_TAGS > MAX_SLOTS as usize);
}

#[test]
fn every_page_as_the_lane_fills() {
    let mut lane = Lane::start(vec![0; words(MAX_SLOTS, 1)], MAX_SLOTS, 1, 64).expect("sizes fit");
    let most = Lane::max_bags(MAX_SLOTS) as usize;
    let counts = [0, 1, 6, 7, 8, 412, 413, 414, 826, 827, most];
    let mut tags = Vec::new();
    for count in counts {
        while tags.len() < count {
            let tag = tag(tags.len());
            let pushed = lane.call(0, Operation::Push(tag), Side::Right);
            assert_eq!(pushed, Ok(Answer::Pushed));
            tags.push(tag);
        }
        for page in 0..PAGES {
            let given = lane.sheet(page).expect("a page");
            check(&given, &wanted(&tags, page as usize));
        }
    }
}

#[test]
fn each_lane_has_its_own() {
    let mut lanes = Lanes::start([0; words(16, 1)], 16, 1, 0, 3).expect("the sizes fit");
    let rows: [Vec<Tag>; 3] =
        [0, 1, 9].map(|count| (0..count).map(|at| tag(20 * count + at)).collect());
    for (lane, row) in (0..).zip(&rows) {
        for &tag in row {
            let pushed = lanes.call(0, lane, Operation::Push(tag), Side::Right);
            assert_eq!(pushed, Ok(Answer::Pushed));
        }
    }
    for (lane, row) in (0..).zip(&rows) {
        for page in 0..PAGES {
            let given = lanes.sheet(lane, page).expect("a page");
            check(&given, &wanted(row, page as usize));
        }
    }
    let first = Lane::over(lanes.words()).sheet(0);
    assert_eq!(first, lanes.sheet(0, 0));
}

#[test]
fn a_page_is_shown_without_its_blanks() {
    let mut lane = Lane::start([0; words(4, 1)], 4, 1, 0).expect("the sizes fit");
    let pushed = lane.call(0, Operation::Push(Tag::MAX), Side::Right);
    assert_eq!(pushed, Ok(Answer::Pushed));
    let page = lane.sheet(0).expect("a page");
    assert_eq!(format!("{page:?}"), r#"["LANE 0001", "9999999999"]"#);
}

#[test]
fn refusals_in_order_and_no_byte_written() {
    let good = Lanes::start(vec![0; words(8, 1)], 8, 1, 0, 2).expect("the sizes fit");
    let good = good.into_words();
    let mut no_end = good.clone();
    no_end[16 + 4 * 2 + 1] = 65_535; // the link to the right of lane 1's left end made none
    let mut broken = no_end.clone();
    broken[15] = 1;
    let mut no_table = broken.clone();
    no_table[2] = 65;
    for (table, lane, page, length, refusal) in [
        (&no_table, 2, 3, 0, Refusal::Table),
        (&broken, 2, 3, 0, Refusal::Shape),
        (&no_end, 2, 3, 0, Refusal::Lane),
        (&no_end, 1, 3, 0, Refusal::NoSlot),
        (&no_end, 0, 3, 0, Refusal::Page),
        (&good, 1, u32::MAX, PAGE_BYTES, Refusal::Page),
        (&good, 1, 2, 0, Refusal::PageOut),
        (&good, 1, 2, PAGE_BYTES - 1, Refusal::PageOut),
        (&good, 1, 2, PAGE_BYTES + 1, Refusal::PageOut),
    ] {
        let mut out = vec![7; length];
        let given = ffi::sheet(table, lane, page, &mut out);
        assert_eq!(given, refusal.number());
        assert!(out.iter().all(|&byte| byte == 7));
        if refusal != Refusal::PageOut {
            assert_eq!(Lanes::over(table).sheet(lane, page), Err(refusal));
        }
    }
}
