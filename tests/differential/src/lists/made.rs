//! Tags by their ten half bytes, the lists of them, and the lengths of out slices.

use crate::common::random::Random;

/// The half bytes of a tag; these are digits, but for those that a test makes bad.
pub type Halves = [u8; 10];

/// So many tags.
pub fn tags(random: &mut Random, count: usize) -> Vec<Halves> {
    (0..count).map(|_| tag(random)).collect()
}

/// Any digits, many of them zeros or nines at an end, and not all 0.
fn tag(random: &mut Random) -> Halves {
    let mut digits = [(); 10].map(|()| random.below(10) as u8);
    let cut = random.below(10) as usize;
    match random.below(6) {
        0 => digits[..cut].fill(0),
        1 => digits[cut..].fill(0),
        2 => digits[cut..].fill(9),
        _ => {}
    }
    if digits == [0; 10] {
        digits[cut] = 1;
    }
    digits
}

/// The list in packed decimal.
pub fn bytes(tags: &[Halves]) -> Vec<u8> {
    let pairs = tags.as_flattened().chunks_exact(2);
    pairs.map(|pair| pair[0] << 4 | pair[1]).collect()
}

/// The list in words.
pub fn words(tags: &[Halves]) -> Vec<u32> {
    let number = |digits: &[u8]| {
        let digits = digits.iter().map(|&digit| u32::from(digit));
        digits.fold(0, |number, digit| 10 * number + digit)
    };
    tags.iter()
        .flat_map(|digits| [number(&digits[..1]), number(&digits[1..])])
        .collect()
}

/// Lengths of an out slice: none, half of what is needed, one less, just enough, one more, some more.
pub fn rooms(exact: usize) -> [usize; 6] {
    let less = exact.saturating_sub(1);
    [0, exact / 2, less, exact, exact + 1, exact + 7]
}
