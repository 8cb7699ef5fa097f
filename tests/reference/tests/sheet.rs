//! Request 2026-09: pages of the shift sheet byte by byte, for every number of tags, and every refusal in its order.

mod common;

use common::calls::{call, tags};
use common::random::Random;
use common::sheets::{any_lanes, any_tag, filled, page, round};
use common::tables::{shaped, sizes, started, started_lanes};
use reference::sheet::{sheet, BYTES, COLUMNS, LINES, LINE_TAGS, MAX_PAGE, PAGE_TAGS};
use reference::table::{header, node, LEFT, LX, NONE, PUSH, RIGHT};
use reference::{read, Answer};

/// What an out slice holds before a call.
const KEPT: u8 = 0xa5;

/// The page of a lane that is accepted; every byte is written whatever stood there.
fn printed(table: &[u32], lane: u32, number: u32) -> String {
    let before = table.to_vec();
    let pages = [KEPT, b' ', b'\n'].map(|byte| {
        let mut out = [byte; BYTES];
        assert_eq!(sheet(table, lane, number, &mut out), 0);
        String::from_utf8(out.to_vec()).expect("digits, letters and blanks")
    });
    assert_eq!(table, before);
    assert!(pages.iter().all(|page| *page == pages[0]), "bytes are left");
    pages[0].clone()
}

/// All pages of a lane with these tags.
fn check_pages(table: &[u32], lane: u32, tags: &[u64]) {
    for number in 0..=MAX_PAGE {
        let found = printed(table, lane, number);
        let wanted = page(tags, number);
        assert!(found == wanted, "{found}\nwanted:\n{wanted}");
    }
}

/// A page is refused with this number, and the out slice stays.
fn refused(table: &[u32], lane: u32, page: u32, length: usize, number: u32) {
    let mut out = vec![KEPT; length];
    let found = sheet(table, lane, page, &mut out);
    assert_eq!(found, number, "page {page} of lane {lane} to {length}");
    assert_eq!(out, vec![KEPT; length]);
}

#[test]
fn the_sizes_of_a_page() {
    assert_eq!((COLUMNS, LINES, BYTES), (80, 60, 4860));
    assert_eq!((LINE_TAGS, PAGE_TAGS, MAX_PAGE), (7, 413, 2));
}

/// The first page of eight bags that were pushed, written out.
#[test]
fn a_page_of_eight_bags() {
    let mut table = started(16, 1, 2);
    for tag in [51, 9_999_999_999, 1_000_000_000, 4, 5, 6, 7, 1_234_567_890] {
        assert_eq!(call(&mut table, 0, (0, PUSH, RIGHT, tag)), Answer::Pushed);
    }
    let blanks = |count: usize| " ".repeat(count);
    let lines = [
        format!("LANE 0008{}", blanks(71)),
        format!(
            "0000000051 9999999999 1000000000 0000000004 0000000005 0000000006 0000000007{}",
            blanks(4)
        ),
        format!("1234567890{}", blanks(70)),
    ];
    let empty = vec![blanks(80); 57];
    let text: String = lines
        .iter()
        .chain(&empty)
        .flat_map(|line| [line.as_str(), "\n"])
        .collect();
    assert_eq!(printed(&table, 0, 0), text);
    let heading_alone = format!("LANE 0008{}\n", blanks(71));
    let rest = format!("{}\n", blanks(80)).repeat(59);
    for number in [1, 2] {
        assert_eq!(printed(&table, 0, number), format!("{heading_alone}{rest}"));
    }
}

#[test]
fn every_number_of_tags() {
    let mut random = Random::new(9);
    let all: Vec<u64> = (0..1022).map(|_| any_tag(&mut random)).collect();
    let near = |count: &usize| (1..=16).contains(count) || count % 413 <= 8 || count % 413 >= 405;
    for count in (0..=1022).filter(|count| near(count) || count % 37 == 0 || *count > 1014) {
        let lane = vec![all[..count].to_vec()];
        let table = filled(&mut random, 1024, &lane);
        assert_eq!(tags(&table, 0).expect("a lane"), lane[0]);
        check_pages(&table, 0, &lane[0]);
    }
}

#[test]
fn lanes_with_any_tags() {
    let mut random = Random::new(10);
    for _ in 0..150 {
        let (nodes, lanes) = any_lanes(&mut random);
        let table = filled(&mut random, nodes, &lanes);
        for (lane, tags) in (0..).zip(&lanes) {
            check_pages(&table, lane, tags);
        }
        refused(&table, lanes.len() as u32, 0, BYTES, 26);
    }
}

/// The most that a lane can have in a table of good shape is one more than any call brings there.
#[test]
fn lanes_that_lead_round() {
    let mut random = Random::new(11);
    for nodes in [2, 3, 7, 8, 9, 100, 413, 414, 415, 827, 1023, 1024] {
        let (table, tags) = round(&mut random, nodes);
        assert_eq!(tags.len() as u32, nodes - 1);
        check_pages(&table, 0, &tags);
    }
}

/// Tags with each digit in each place.
#[test]
fn every_digit() {
    let mut random = Random::new(12);
    let mut all = Vec::new();
    for place in 0..10 {
        for digit in 1..10 {
            let one = digit * 10u64.pow(place);
            all.extend([one, one + 10u64.pow((place + 3) % 10), 9_999_999_999 - one]);
        }
    }
    all.retain(|&tag| tag <= 9_999_999_999);
    let lane = [all];
    let table = filled(&mut random, 1024, &lane);
    check_pages(&table, 0, &lane[0]);
    for _ in 0..20 {
        let any: Vec<u64> = (0..1022)
            .map(|_| 1 + random.next() % 9_999_999_999)
            .collect();
        let lane = [any];
        let table = filled(&mut random, 1024, &lane);
        check_pages(&table, 0, &lane[0]);
    }
}

#[test]
fn refusals_in_order() {
    let lengths = [0, 1, 80, 81, 4859, 4861, 9720];
    for faults in 0..64 {
        let [no_table, broken, no_lane, no_end, no_page, other_length] =
            [0, 1, 2, 3, 4, 5].map(|bit| faults >> bit & 1 == 1);
        let mut table = started_lanes(6, 2, 0, 2);
        let sizes = sizes(&table);
        if no_end {
            // The second lane ends in nothing; the first is as it was.
            let left = table[header::hat(1, LEFT)];
            table[sizes.node(left) + node::RIGHT] = NONE;
        }
        if broken {
            table[header::ZEROS[0]] = 1;
        }
        if no_table {
            table[header::GROWTH] = 65;
        }
        let first = [
            (no_table, 3),
            (broken, 4),
            (no_lane, 26),
            (no_end, 11),
            (no_page, 20),
            (other_length, 21),
        ];
        let wanted = first.iter().find(|(fault, _)| *fault);
        let lanes: &[u32] = if no_lane { &[2, 3, 4, u32::MAX] } else { &[1] };
        let pages: &[u32] = if no_page {
            &[3, 4, u32::MAX]
        } else {
            &[0, 1, 2]
        };
        let lengths: &[usize] = if other_length { &lengths } else { &[BYTES] };
        for &lane in lanes {
            for &page in pages {
                for &length in lengths {
                    match wanted {
                        Some(&(_, number)) => refused(&table, lane, page, length, number),
                        None => check_pages(&table, lane, &[]),
                    }
                }
            }
        }
        if no_end && !no_table && !broken {
            check_pages(&table, 0, &[]);
        }
    }
}

/// A lane of tags without an end, from the first or a later one on.
#[test]
fn a_lane_with_no_end() {
    let mut random = Random::new(13);
    for nodes in [3, 4, 10, 500, 1024] {
        let (mut table, _) = round(&mut random, nodes);
        let sizes = sizes(&table);
        let left = sizes.node(table[header::hat(0, LEFT)]);
        assert_eq!(table[left + node::VALUE], LX);
        table[left + node::VALUE] = 51;
        for page in [0, 1, 2, 3] {
            refused(&table, 0, page, BYTES, 11);
            refused(&table, 0, page, 0, 11);
        }
    }
}

/// On any words: the refusals of a read with room enough, then those of the page; and the tags that the read gives.
#[test]
fn a_sheet_is_a_read_in_print() {
    let mut random = Random::new(14);
    let mut numbers = [0; 27];
    for _ in 0..30_000 {
        let mut table = shaped(&mut random);
        if random.once_in(4) {
            let at = random.below(table.len() as u32) as usize;
            table[at] = random.word();
        }
        if random.once_in(20) {
            table.truncate(random.below(table.len() as u32) as usize);
        }
        let (lane, number) = (random.below(5), random.below(4));
        let length = random.pick(&[BYTES, BYTES, BYTES - 1, BYTES + 1]);
        let mut words = [0; 2 * 1024];
        let wanted = match read(&table, lane, &mut words) {
            Err(refusal) => refusal,
            Ok(_) if number > 2 => 20,
            Ok(_) if length != BYTES => 21,
            Ok(_) => 0,
        };
        if wanted == 0 {
            let tags = tags(&table, lane).expect("a lane");
            let mut out = [KEPT; BYTES];
            assert_eq!(sheet(&table, lane, number, &mut out), 0);
            assert_eq!(out[..], *page(&tags, number).as_bytes());
        } else {
            refused(&table, lane, number, length, wanted);
        }
        numbers[wanted as usize] += 1;
    }
    for number in [0, 3, 4, 11, 20, 21, 26] {
        assert!(numbers[number] > 100, "{number}: {}", numbers[number]);
    }
}
