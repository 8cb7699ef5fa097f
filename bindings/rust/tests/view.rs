//! What the wrapper reads of a table by itself, held to the library's calls, on tables from start and on damaged ones.

use lane::{words, Answer, Lane, Lanes, Operation, Refusal, Side, Tag};

/// Numbers below a bound, the same at each run (xorshift).
struct Random(u64);

impl Random {
    fn below(&mut self, bound: u32) -> u32 {
        self.0 ^= self.0 << 13;
        self.0 ^= self.0 >> 7;
        self.0 ^= self.0 << 17;
        (self.0 >> 32) as u32 % bound
    }

    fn operation(&mut self) -> Operation {
        match self.below(8) {
            0..=3 => Operation::Push(self.tag()),
            4..=5 => Operation::Pop,
            6 => Operation::Add(self.below(3)),
            _ => Operation::Remove(self.below(3)),
        }
    }

    /// A tag of few low parts, 0 among them, with any digit.
    fn tag(&mut self) -> Tag {
        let words = [self.below(10), self.below(10)];
        Tag::from_words(words).unwrap_or(Tag::MAX)
    }

    fn side(&mut self) -> Side {
        [Side::Left, Side::Right][self.below(2) as usize]
    }
}

/// The bags without a buffer are those of a read, of every lane, and of one that is not there the refusal is the same;
/// a task is busy exactly where a begin says so.
fn same(lanes: &Lanes<Vec<u32>>) {
    for lane in 0..=lane::MAX_LANES {
        let mut out = [[0; 2]; 16];
        match (lanes.read(lane, &mut out), lanes.bags(lane)) {
            (Ok(read), Ok(bags)) => assert!(bags.eq(read), "{lanes:?}"),
            (read, bags) => assert_eq!(read.map(|_| ()), bags.map(|_| ())),
        }
    }
    for task in 0..5 {
        let begun = lanes.clone().begin(task, 0, Operation::Pop, Side::Left);
        assert_eq!(
            lanes.is_busy(task),
            match begun {
                Ok(()) => Ok(false),
                Err(Refusal::Busy) => Ok(true),
                Err(refusal) => Err(refusal),
            }
        );
    }
}

/// Every table can be shown, with the bags of each lane as a read gives them.
fn shown(lanes: &Lanes<Vec<u32>>) {
    let shown = format!("{lanes:?}");
    match lanes.lanes() {
        Ok(count) => {
            for lane in 0..count {
                let bags = match lanes.bags(lane) {
                    Ok(bags) => format!("bags: {bags:?}, "),
                    Err(refusal) => format!("bags: {refusal:?}, "),
                };
                assert!(shown.contains(&bags), "{bags} in {shown}");
            }
            assert_eq!(shown.matches("bags: ").count(), count as usize);
        }
        Err(refusal) => assert!(shown.starts_with(&format!("Lanes {{ refused: {refusal:?}"))),
    }
}

#[test]
fn tables_from_start_are_read_as_the_library_reads_them() {
    let mut random = Random(51);
    for _ in 0..200 {
        let (count, tasks) = (1 + random.below(lane::MAX_LANES), 1 + random.below(4));
        let slots = 2 * count + random.below(10);
        let table = vec![0; words(slots, tasks)];
        let mut lanes =
            Lanes::start(table, slots, tasks, random.below(3), count).expect("the sizes fit");
        assert_eq!((lanes.slots(), lanes.tasks()), (Ok(slots), Ok(tasks)));
        assert_eq!(lanes.lanes(), Ok(count));
        for _ in 0..200 {
            let task = random.below(tasks);
            if lanes.is_busy(task) == Ok(true) {
                let _ = lanes.tick(task, random.below(slots)).expect("a busy task");
            } else {
                let (lane, operation, side) =
                    (random.below(count), random.operation(), random.side());
                match lanes.begin(task, lane, operation, side) {
                    Err(Refusal::Twice) => assert!(matches!(operation, Operation::Push(_))),
                    begun => begun.expect("an idle task"),
                }
            }
            same(&lanes);
        }
        shown(&lanes);
    }
}

#[test]
fn damaged_tables_are_refused_as_the_library_refuses_them() {
    let mut random = Random(52);
    for _ in 0..20_000 {
        let mut table = vec![0; words(6, 2)];
        let mut lanes = Lanes::start(&mut table[..], 6, 2, 0, 2).expect("the sizes fit");
        lanes
            .begin(1, 1, Operation::Push(random.tag()), Side::Right)
            .expect("idle");
        for _ in 0..random.below(11) {
            assert_eq!(lanes.tick(1, 0), Ok(Answer::Going));
        }
        for _ in 0..1 + random.below(3) {
            let place = random.below(table.len() as u32) as usize;
            table[place] = match random.below(4) {
                0 => random.below(6),
                1 => 65_535,
                2 => 1_000_000_000 + random.below(8),
                _ => random.below(u32::MAX),
            };
        }
        table.truncate(table.len() - random.below(2) as usize);
        let lanes = Lanes::over(table);
        same(&lanes);
        shown(&lanes);
    }
}

#[test]
fn threads_read_one_lane_and_work_on_lanes_of_their_own() {
    let mut shared = Lane::start(vec![0; words(8, 1)], 8, 1, 0).expect("the sizes fit");
    let pushed = shared.call(0, Operation::Push(Tag::MAX), Side::Right);
    assert_eq!(pushed, Ok(Answer::Pushed));
    std::thread::scope(|scope| {
        for tag in (1..=4).filter_map(Tag::new) {
            let shared = &shared;
            scope.spawn(move || {
                let mut own = Lane::start([0; words(8, 1)], 8, 1, 0).expect("the sizes fit");
                for _ in 0..1000 {
                    let pushed = own.call(0, Operation::Push(tag), Side::Left);
                    assert_eq!(pushed, Ok(Answer::Pushed));
                    let popped = own.call(0, Operation::Pop, Side::Left);
                    assert_eq!(popped, Ok(Answer::Bag(tag)));
                    let mut out = [[0; 2]; 8];
                    assert!(shared.read(&mut out).expect("a lane").eq([Tag::MAX]));
                }
            });
        }
    });
}

#[test]
fn a_call_that_never_answers_comes_back_as_going() {
    let mut table = Lane::start(vec![0; words(8, 1)], 8, 1, 0)
        .expect("the sizes fit")
        .into_words();
    // The right end's link to the left made itself, which no call does.
    table[16 + 4] = 1;
    let mut lane = Lane::over(table);
    assert_eq!(lane.call(0, Operation::Pop, Side::Right), Ok(Answer::Going));
    assert_eq!(lane.words()[4], lane::max_ticks_alone(8));
    assert_eq!(lane.is_busy(0), Ok(true));
}
