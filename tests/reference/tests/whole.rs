//! A whole call with one test of the table, against a begin and consecutive ticks, which test it twice.

mod common;

use common::random::Random;
use common::tables::shaped;
use reference::table::REMOVE;
use reference::{begin, ticks, whole, Answer, Call};

/// The same in two calls.
fn in_two(table: &mut [u32], task: u32, call: Call, times: u32) -> Result<Answer, u32> {
    let Call {
        lane,
        operation,
        side,
        digit,
        argument,
    } = call;
    begin(table, task, lane, operation, side, digit, argument)?;
    ticks(table, task, 0, times)
}

#[test]
fn a_whole_call_is_a_begin_and_its_ticks() {
    let mut random = Random::new(12);
    let mut made = [0; 2];
    for _ in 0..20_000 {
        let mut tables = [shaped(&mut random), Vec::new()];
        if random.once_in(8) {
            let at = random.below(tables[0].len() as u32) as usize;
            tables[0][at] = random.word();
        }
        tables[1] = tables[0].clone();
        let call = Call {
            lane: random.below(3),
            operation: random.below(REMOVE + 2),
            side: random.below(3).min(1),
            digit: random.pick(&[0, 0, 9]),
            argument: random.below(70),
        };
        let (task, times) = (random.below(4), random.below(200));
        let [once, twice] = &mut tables;
        let answer = whole(once, task, call, times);
        assert_eq!(answer, in_two(twice, task, call, times));
        assert_eq!(once, twice);
        made[usize::from(answer.is_ok())] += 1;
    }
    assert!(made.iter().all(|&count| count > 300), "{made:?}");
}
