//! Lost swaps in the last W ticks: a lent window that remembers of each tick fed whether its compare did not match.

use crate::refusal;

/// Words before the places: W, the places fed, the next place and the last count.
pub const WORDS: usize = 4;
/// Most ticks that a window looks back on.
pub const MAX_WIDTH: u32 = 4096;

/// Words tallied at once.
const SIDE_BY_SIDE: usize = 16;

/// Makes the words a window of so many ticks, none of them fed; returns 0 or the refusal.
pub fn window(words: &mut [u32], width: u32) -> u32 {
    if !fits(words.len(), width) {
        return refusal::WINDOW;
    }
    words.fill(0);
    words[0] = width;
    0
}

/// Feeds a tick by its count and its task's steps before and after; returns 0 and the lost swaps among the last ticks
/// fed, or the refusal.
pub fn feed(words: &mut [u32], count: u32, before: u32, after: u32) -> (u32, u32) {
    let length = words.len();
    let [width, fed, next, last, places @ ..] = words else {
        return (refusal::WINDOW, 0);
    };
    if !fits(length, *width) {
        return (refusal::WINDOW, 0);
    }
    let Some(lost) = lost_in(*width, [*fed, *next, *last], places) else {
        return (refusal::WINDOW, 0);
    };
    if *fed > 0 && count != last.wrapping_add(1) {
        return (refusal::COUNT, 0);
    }
    let place = &mut places[*next as usize];
    let others = lost - *place;
    *place = is_lost(before, after).into();
    *fed = (*fed + 1).min(*width);
    *next += 1;
    if *next == *width {
        *next = 0;
    }
    *last = count;
    (0, others + *place)
}

/// Whether a tick that took a task from one step to another lost the compare of its swap.
pub fn is_lost(before: u32, after: u32) -> bool {
    matches!((before, after), (5, 8) | (25, 15) | (48 | 51, 39) | (62, 0))
}

fn fits(length: usize, width: u32) -> bool {
    (1..=MAX_WIDTH).contains(&width) && length == width as usize + WORDS
}

/// The lost swaps among the places, if the words after W are as feeds leave them. The places that are not fed are those
/// from the next one on.
fn lost_in(width: u32, [fed, next, last]: [u32; 3], places: &[u32]) -> Option<u32> {
    let turned = fed == width && next < width;
    let filling = fed < width && next == fed && (fed > 0 || last == 0);
    if !turned && !filling {
        return None;
    }
    let (fed, others) = places.split_at(fed as usize);
    let (bits, lost) = tallied(fed);
    let (others, _) = tallied(others);
    (bits <= 1 && others == 0).then_some(lost)
}

/// Words or'ed, which shows whether one of them has a bit that none may have, and their sum.
fn tallied(words: &[u32]) -> (u32, u32) {
    let both = |words: &[u32]| {
        words.iter().fold((0, 0_u32), |(bits, sum), word| {
            (bits | word, sum.wrapping_add(*word))
        })
    };
    if words.len() < 8 * SIDE_BY_SIDE {
        return both(words);
    }
    let blocks = words.chunks_exact(SIDE_BY_SIDE);
    let (others, more) = both(blocks.remainder());
    let (mut bits, mut sums) = ([0; SIDE_BY_SIDE], [0_u32; SIDE_BY_SIDE]);
    for block in blocks {
        for (at, word) in block.iter().enumerate() {
            bits[at] |= word;
            sums[at] = sums[at].wrapping_add(*word);
        }
    }
    let bits = bits.iter().fold(others, |bits, word| bits | word);
    let sum = sums.iter().fold(more, |sum, word| sum.wrapping_add(*word));
    (bits, sum)
}
