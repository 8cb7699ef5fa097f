//! Pages of the shift sheet, put together line by line; and tables whose lanes have any number of tags.

use super::random::Random;
use super::tables::{sizes, started_lanes};
use reference::table::{digit, header, low_part, node, Sizes, LEFT, MAX_TAG, NONE, RIGHT};

/// A page of a lane with these tags.
pub fn page(tags: &[u64], page: u32) -> String {
    let on_page: Vec<&u64> = tags.iter().skip(413 * page as usize).take(413).collect();
    let mut lines = vec![format!("LANE {:04}", tags.len())];
    for seven in on_page.chunks(7) {
        lines.push(seven.iter().map(|tag| format!("{tag:010} ")).collect());
    }
    lines.resize(60, String::new());
    lines.iter().map(|line| format!("{line:<80}\n")).collect()
}

/// Any tag; one with few digits, or with zeros behind the first, is as likely as another.
pub fn any_tag(random: &mut Random) -> u64 {
    match random.below(5) {
        0 => 1 + u64::from(random.below(200)),
        1 => 1_000_000_000 * u64::from(1 + random.below(9)),
        2 => 10u64.pow(random.below(10)),
        3 => MAX_TAG - u64::from(random.below(200)),
        _ => 1 + random.next() % MAX_TAG,
    }
}

/// A table with no task busy whose lanes have these tags, in slots anywhere. There is room for them, and for two more of
/// each lane.
pub fn filled(random: &mut Random, nodes: u32, lanes: &[Vec<u64>]) -> Vec<u32> {
    let mut table = started_lanes(nodes, 1 + random.below(16), 0, lanes.len() as u32);
    let sizes = sizes(&table);
    let mut free: Vec<u32> = (2 * sizes.lanes..nodes).collect();
    for (lane, tags) in (0..).zip(lanes) {
        let [left, right] = [LEFT, RIGHT].map(|side| table[header::hat(lane, side)]);
        let mut last = left;
        for &tag in tags {
            let number = free.swap_remove(random.below(free.len() as u32) as usize);
            let words = [last, NONE, low_part(tag), digit(tag)];
            table[sizes.node(number)..][..node::WORDS].copy_from_slice(&words);
            table[sizes.node(last) + node::RIGHT] = number;
            last = number;
        }
        table[sizes.node(last) + node::RIGHT] = right;
        table[sizes.node(right) + node::LEFT] = last;
    }
    table
}

/// So many tags in one lane as its table has slots but one: the last leads back to the left hat, where no tag is.
pub fn round(random: &mut Random, nodes: u32) -> (Vec<u32>, Vec<u64>) {
    let mut tags: Vec<u64> = (2..nodes).map(|_| any_tag(random)).collect();
    let mut table = filled(random, nodes, &[tags.clone()]);
    let sizes = sizes(&table);
    let [left, right] = [LEFT, RIGHT].map(|side| sizes.node(table[header::hat(0, side)]));
    let tag = any_tag(random);
    table[right + node::RIGHT] = table[header::hat(0, LEFT)];
    table[right + node::VALUE] = low_part(tag);
    table[right + node::DIGIT] = digit(tag);
    assert_eq!(table[left + node::LEFT], NONE);
    tags.push(tag);
    (table, tags)
}

/// Tags for some lanes of a table, with any number of them each, and the slots of such a table.
pub fn any_lanes(random: &mut Random) -> (u32, Vec<Vec<u64>>) {
    let lanes = 1 + random.below(Sizes::MAX_LANES);
    let most = Sizes::MAX_NODES as u32 - 2 * lanes;
    let mut left = match random.below(4) {
        0 => most,
        1 => random.below(most + 1),
        _ => random.below(60),
    };
    let nodes = left + 2 * lanes;
    let mut tags = Vec::new();
    for lane in 1..=lanes {
        let count = match lane == lanes && random.once_in(2) {
            true => left,
            false => random.below(left + 1),
        };
        left -= count;
        tags.push((0..count).map(|_| any_tag(random)).collect());
    }
    (nodes, tags)
}
