//! The test of the nodes by hand in the vector instructions that every x86-64 has: what is left to the shape test. The
//! compiler makes no such code of plain compares.

use std::arch::x86_64::*;
use std::hint::black_box;

use reference::table::{header, node, LN, MAX_DIGIT, MAX_LOW, RY};

use crate::measure::{interleaved, nanoseconds};

/// Words of the four nodes that are tested at once.
const FOUR: usize = 4 * node::WORDS;

/// The bytes of the nodes that are tested in a nanosecond, so many times a round.
pub fn rate(rounds: usize, table: &[u32], times: usize) -> f64 {
    let slots = table[header::NODES];
    let nodes = &table[header::WORDS..][..node::WORDS * slots as usize];
    assert!(hold(nodes, slots), "the shape does not hold");
    let test = || {
        nanoseconds(|| {
            for _ in 0..times {
                assert!(hold(black_box(nodes), slots), "the shape does not hold");
            }
        }) / times as f64
    };
    4.0 * nodes.len() as f64 / interleaved(rounds, test, test).proved
}

/// Whether the links and contents of nodes, a multiple of four, are what the shape asks for. Nothing is decided in the
/// loop: the greatest of each kind of word is kept, by halves or by bytes, and compared at the end.
fn hold(nodes: &[u32], slots: u32) -> bool {
    assert_eq!(nodes.len() % FOUR, 0, "four nodes at a time");
    // SAFETY: these instructions are in every x86-64, and the words come by value.
    #[allow(unsafe_code)]
    unsafe {
        let all = |word: u32| _mm_set1_epi32(word.cast_signed());
        // A link plus one, as 16 bits none is 0; both halves are moved so that they can be compared with their sign.
        let moved = all(0x8000_8001);
        // A mark less the first of them, half by half.
        let first_mark = all(LN);
        let zero = _mm_setzero_si128();
        let mut links = all(0x8000_8000);
        let [mut marks, mut digits, mut signs, mut beside] = [zero; 4];
        for four in nodes.chunks_exact(FOUR) {
            let at = |place: usize| four[place].cast_signed();
            let [a, b, c, d] = [0, 4, 8, 12]
                .map(|place| _mm_set_epi32(at(place + 3), at(place + 2), at(place + 1), at(place)));
            for pair in [_mm_unpacklo_epi64(a, b), _mm_unpacklo_epi64(c, d)] {
                links = _mm_max_epi16(links, _mm_add_epi16(pair, moved));
            }
            let [low, high] = [_mm_unpackhi_epi64(a, b), _mm_unpackhi_epi64(c, d)]
                .map(|pair| _mm_castsi128_ps(pair));
            let value = _mm_castps_si128(_mm_shuffle_ps::<0b10_00_10_00>(low, high));
            let digit = _mm_castps_si128(_mm_shuffle_ps::<0b11_01_11_01>(low, high));
            let is_mark = _mm_cmpgt_epi32(value, all(MAX_LOW));
            marks = _mm_max_epu8(
                marks,
                _mm_and_si128(is_mark, _mm_sub_epi16(value, first_mark)),
            );
            signs = _mm_or_si128(signs, value);
            digits = _mm_max_epu8(digits, digit);
            beside = _mm_or_si128(beside, _mm_and_si128(is_mark, digit));
        }
        let faults = [
            _mm_cmpgt_epi16(links, all(0x8000_8000 + slots)),
            _mm_subs_epu8(marks, all(RY - LN)),
            _mm_subs_epu8(digits, all(MAX_DIGIT)),
            _mm_cmpgt_epi32(zero, signs),
            beside,
        ];
        let fault = faults
            .into_iter()
            .fold(zero, |all, one| _mm_or_si128(all, one));
        _mm_movemask_epi8(_mm_cmpeq_epi8(fault, zero)) == 0xffff
    }
}

#[cfg(test)]
mod tests {
    use super::{hold, FOUR};
    use reference::table::{header, LN, MAX_LOW, NONE, RY};

    /// Every word of a few nodes is exchanged for each of these; the second program says what holds.
    #[test]
    fn what_holds_is_what_the_shape_says() {
        let load = crate::loads::none(16, 1);
        let near = [0, 9, 15, 65_535, MAX_LOW, RY, 1 << 16, 1 << 31, u32::MAX];
        let words = near
            .into_iter()
            .flat_map(|word| [word, word.wrapping_add(1)]);
        for word in words.chain([LN, LN + 256, LN + (1 << 16), NONE << 16]) {
            for at in 0..4 * FOUR {
                let mut table = load.table.clone();
                table[header::WORDS + at] = word;
                let nodes = &table[header::WORDS..][..4 * FOUR];
                let holds = reference::run(&mut table.clone(), &[], &mut []).0 == 0;
                assert_eq!(hold(nodes, 16), holds, "{word} at {at}");
            }
        }
    }
}
