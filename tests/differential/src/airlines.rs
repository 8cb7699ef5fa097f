//! Airline lists, tested by both programs and by a reader that cuts them into lines; and pushes by them.

mod line;
mod seen;

use lane::ffi;
use reference::airlines::Fault;
use reference::table::{digit, low_part, record, tag, MAX_TAG};

use crate::both::{halves, Both};
use crate::common::list_texts::{self, Ends};
use crate::common::random::Random;
use crate::common::tables::{sizes, started_lanes};
use crate::counts::Counts;
use crate::lent::Lent;
pub use seen::Airlines;

/// Lists of a round with any faults or none.
const ANY: u32 = 2_000;

/// A round: all lists of the generator, and any.
pub fn check(random: &mut Random, counts: &mut Counts) {
    let mut lists = Random::new(random.next());
    let mut show = |list: &[u8]| compared(random, counts, list);
    list_texts::of_every_length(&mut lists, &mut show);
    list_texts::with_other_bytes(&mut lists, &mut show);
    list_texts::with_bad_lines(&mut lists, &mut show);
    list_texts::with_carriage_returns(&mut lists, &mut show);
    list_texts::with_doubled_codes(&mut lists, &mut show);
    list_texts::with_closing_lines(&mut lists, &mut show);
    for _ in 0..ANY {
        show(&list_texts::any(&mut lists));
    }
}

/// A list for a push, mostly one of few lines without a fault.
pub fn any_list(random: &mut Random) -> Vec<u8> {
    if random.once_in(6) {
        return list_texts::any(random);
    }
    let count = 1 + random.below(4) as usize;
    list_texts::text(&list_texts::lines(random, count))
}

/// A table that every call turns back with this number: a fault of the list comes before it.
pub fn turned_back(both: &mut Both, gives: u32) {
    let list = b"(others left)\n(others left)\n";
    assert_eq!(both.push_by_list(list, 0, 0, [0, 51]), Err((29, 1)));
    let given = both.push_by_list(&list[..14], 0, 0, [0, 51]);
    assert_eq!(given, Err((gives, 0)));
}

/// One list by all three readers. An accepted one sends pushes; with any other none begins.
fn compared(random: &mut Random, counts: &mut Counts, list: &[u8]) {
    let lent = Lent::new(list);
    let proved = halves(ffi::list_check(lent.words()));
    let second = match reference::airlines::check(lent.words()) {
        Ok(()) => (0, 0),
        Err(Fault { number, line }) => (number, line),
    };
    let about = || format!("the list {:?}", String::from_utf8_lossy(list));
    assert_eq!(proved, <[u32; 2]>::from(second), "proved, {}", about());
    assert!(lent == Lent::new(list), "written: {}", about());
    let ends = list_texts::read(list);
    let third = ends.as_ref().err().copied().unwrap_or((0, 0));
    assert_eq!(second, third, "cut into lines, {}", about());
    counts.airlines.saw(list, second);
    match ends {
        Ok(ends) => pushes(random, counts, list, &ends),
        Err(fault) => {
            let mut both = Both::over(&started_lanes(2, 1, 0, 1));
            let [task, lane, digit, low] = [(); 4].map(|()| random.word());
            let given = both.push_by_list(list, task % 2, lane % 2, [digit, low]);
            assert_eq!(given, Err(fault), "a push by {}", about());
            counts.add(&both.given);
        }
    }
}

/// Pushes that an accepted list sends: of any tag; of the first and the last code of its lines, and of some other.
fn pushes(random: &mut Random, counts: &mut Counts, list: &[u8], ends: &Ends) {
    let named = ends.named.len();
    let any = random.below(64) as usize;
    for place in [named, 0, named.saturating_sub(1), any] {
        let tag = match ends.named.get(place) {
            None => 1 + random.next() % MAX_TAG,
            Some(&(code, _)) => tag(
                random.below(10),
                1_000_000 * code + 1 + random.below(999_999),
            ),
        };
        let lanes = 1 + random.below(2);
        let mut both = Both::over(&started_lanes(2 * lanes, 2, 0, lanes));
        let sizes = sizes(both.table());
        let (task, lane) = (random.below(sizes.tasks), random.below(lanes));
        let given = both.push_by_list(list, task, lane, [digit(tag), low_part(tag)]);
        let side = both.table()[sizes.record(task) + record::SIDE];
        assert_eq!(
            (given, side),
            (Ok(()), ends.of(tag)),
            "{tag:010} by {:?}",
            String::from_utf8_lossy(list)
        );
        counts.airlines.sent(ends, tag);
        counts.add(&both.given);
    }
}
