//! Begins of a push: what the table before them shows of the tag, what that gives, and at which steps the push stood
//! whose tag came again.

use std::collections::BTreeMap;

use reference::table::{content, low_part, record, tag, Sizes, IDLE, PUSH};

use crate::common::calls::tags;
use crate::common::row::Note;
use crate::common::tables::{sizes, steps_of};
use crate::counts::Origin;

/// Where the tag is, what the begin gives, and whether a table that start and the calls reach shows it. Its lane is the
/// one that the begin names.
const FOUND: [(&str, u32, bool); 22] = [
    ("nowhere, task idle", 0, true),
    ("nowhere, task busy", 8, true),
    ("its low part alone in a lane, task idle", 0, true),
    ("its low part alone in a lane, task busy", 8, true),
    ("its low part alone in a push, task idle", 0, true),
    ("its low part alone in a push, task busy", 8, true),
    ("in its lane, task idle", 16, true),
    ("in its lane, task busy", 16, true),
    ("in another lane, task idle", 16, true),
    ("in another lane, task busy", 16, true),
    ("in another task's push, task idle", 16, true),
    ("in another task's push, task busy", 16, true),
    ("in such a push of another lane, task idle", 16, true),
    ("in such a push of another lane, task busy", 16, true),
    ("in the task's own push", 16, true),
    ("in the task's own push of another lane", 16, true),
    ("in two places", 16, false),
    ("its lane is not read, tag in none", 11, false),
    ("its lane is not read, tag in another or a push", 11, false),
    ("another lane alone is not read, tag in none", 11, false),
    ("another lane alone is not read, tag in a lane", 11, false),
    ("another lane alone is not read, tag in a push", 11, false),
];
const NOWHERE: usize = 0;
const LOW_IN_LANE: usize = 2;
const LOW_IN_PUSH: usize = 4;
const IN_LANE: usize = 6;
const IN_OTHER_LANE: usize = 8;
const IN_PUSH: usize = 10;
const IN_OTHER_PUSH: usize = 12;
const IN_OWN: usize = 14;
const IN_OWN_OTHER: usize = 15;
const TWICE: usize = 16;
const NOT_READ: usize = 17;
const OTHER_NOT_READ: usize = 19;

/// What was seen of them.
#[derive(Default)]
pub struct Begins {
    /// By origin, then as in `FOUND`.
    found: [[u64; FOUND.len()]; 2],
    /// On tables from start, by the step of the push that has the tag: another task's and the task's own, by side.
    stalled: BTreeMap<u32, [u64; 4]>,
    /// Accepted tags that were popped before.
    pub again: u64,
}

impl Begins {
    /// A begin of a push gave this on a well-shaped table, past 7.
    pub fn saw(
        &mut self,
        origin: Origin,
        before: &[u32],
        task: u32,
        push: Note,
        given: Result<(), u32>,
    ) {
        let seen = Seen::of(before);
        let place = seen.place(task, push);
        let (name, gives, _) = FOUND[place];
        assert_eq!(given.err().unwrap_or(0), gives, "begin of a push: {name}");
        self.found[origin as usize][place] += 1;
        if let (Origin::Calls, &[stalled]) = (origin, &seen.having(push.tag())[..]) {
            let at = seen.sizes.record(stalled);
            let side = before[at + record::SIDE] as usize;
            let own = usize::from(stalled == task);
            let counts = self.stalled.entry(before[at + record::STEP]).or_default();
            counts[2 * own + side] += 1;
        }
    }

    /// Prints the counts; gives what was to be seen and was not, or seen and was not to be.
    pub fn report(&self) -> Vec<String> {
        let mut faults = Vec::new();
        println!(
            "\nbegins of a push; {} took a tag that was popped before",
            self.again
        );
        if self.again == 0 {
            faults.push("no tag was pushed again after a pop".to_string());
        }
        println!(
            "{:46} {:>7} {:>11} {:>11}",
            "where its tag is", "gives", "from start", "any table"
        );
        for (place, (name, gives, reachable)) in FOUND.into_iter().enumerate() {
            let [calls, anywhere] = [0, 1].map(|origin| self.found[origin][place]);
            println!("{name:46} {gives:>7} {calls:>11} {anywhere:>11}");
            if (calls > 0) != reachable || anywhere == 0 {
                faults.push(format!("begin of a push, {name}: {calls}, {anywhere}"));
            }
        }
        println!(
            "{:36} {:>23} {:>23}",
            "refused with 16 while a push stands", "another task's", "the task's own"
        );
        println!(
            "{:36} {:>11} {:>11} {:>11} {:>11}",
            "at step", "left", "right", "left", "right"
        );
        for step in steps_of(PUSH) {
            let counts = self.stalled.get(&step).copied().unwrap_or_default();
            let [left, right, own_left, own_right] = counts;
            println!("{step:<36} {left:>11} {right:>11} {own_left:>11} {own_right:>11}");
            if counts.contains(&0) {
                faults.push(format!("no tag came again while its push stood at {step}"));
            }
        }
        faults
    }
}

/// What a well-shaped table shows of tags.
struct Seen<'a> {
    table: &'a [u32],
    sizes: Sizes,
    /// By lane; none where it cannot be read.
    lanes: Vec<Option<Vec<u64>>>,
    /// The tasks in a push, each with its tag.
    pushes: Vec<(u32, u64)>,
}

impl Seen<'_> {
    fn of(table: &[u32]) -> Seen<'_> {
        let sizes = sizes(table);
        let lanes = (0..sizes.lanes).map(|lane| tags(table, lane).ok());
        let pushed = |task| {
            let at = sizes.record(task);
            let [low, digit] = content(table, at + record::ARGUMENT);
            (table[at + record::OPERATION] == PUSH).then_some((task, tag(digit, low)))
        };
        Seen {
            table,
            sizes,
            lanes: lanes.collect(),
            pushes: (0..sizes.tasks).filter_map(pushed).collect(),
        }
    }

    /// The tasks in a push of this tag.
    fn having(&self, tag: u64) -> Vec<u32> {
        let pushes = self.pushes.iter().filter(|&&(_, other)| other == tag);
        pushes.map(|&(task, _)| task).collect()
    }

    /// The lanes in which it stands, one that has it twice named twice.
    fn standing(&self, tag: u64) -> Vec<u32> {
        let lanes = (0..).zip(self.lanes.iter().flatten());
        let tags = lanes.flat_map(|(lane, tags)| tags.iter().map(move |other| (lane, other)));
        tags.filter(|&(_, &other)| other == tag)
            .map(|(lane, _)| lane)
            .collect()
    }

    /// The place in `FOUND` of a begin.
    fn place(&self, task: u32, push: Note) -> usize {
        let (standing, pushed) = (self.standing(push.tag()), self.having(push.tag()));
        let word = |task, field| self.table[self.sizes.record(task) + field];
        let busy = usize::from(word(task, record::OPERATION) != IDLE);
        match (&standing[..], &pushed[..]) {
            _ if self.lanes.contains(&None) => self.not_read(push.lane, &standing, &pushed),
            ([], []) => self.low_part(push.tag()) + busy,
            (&[lane], []) if lane == push.lane => IN_LANE + busy,
            (&[_], []) => IN_OTHER_LANE + busy,
            ([], &[stalled]) => {
                let same = word(stalled, record::LANE) == push.lane;
                match (stalled == task, same) {
                    (true, true) => IN_OWN,
                    (true, false) => IN_OWN_OTHER,
                    (false, true) => IN_PUSH + busy,
                    (false, false) => IN_OTHER_PUSH + busy,
                }
            }
            _ => TWICE,
        }
    }

    /// Where some lane is not read.
    fn not_read(&self, lane: u32, standing: &[u32], pushed: &[u32]) -> usize {
        let own = self.lanes[lane as usize].is_none();
        match (standing, pushed) {
            ([], []) if own => NOT_READ,
            _ if own => NOT_READ + 1,
            ([], []) => OTHER_NOT_READ,
            ([_, ..], _) => OTHER_NOT_READ + 1,
            _ => OTHER_NOT_READ + 2,
        }
    }

    /// Where the tag is nowhere.
    fn low_part(&self, tag: u64) -> usize {
        let has = |other: &u64| low_part(*other) == low_part(tag);
        if self.lanes.iter().flatten().flatten().any(has) {
            LOW_IN_LANE
        } else if self.pushes.iter().any(|(_, other)| has(other)) {
            LOW_IN_PUSH
        } else {
            NOWHERE
        }
    }
}
