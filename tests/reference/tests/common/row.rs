//! The plain rows of the paper, one for each lane, fed with arguments and answers alone.

use std::collections::VecDeque;

use super::calls::{tags, whole};
use super::random::Random;
use super::turns::Turns;
use reference::read;
use reference::table::{argument_fits, digit, low_part, tag, ADD, LEFT, POP, PUSH, REMOVE};

/// The call that a task is in the middle of.
#[derive(Clone, Copy, Debug, PartialEq, Eq)]
pub struct Note {
    pub lane: u32,
    pub operation: u32,
    pub side: u32,
    pub digit: u32,
    pub argument: u32,
}

impl Note {
    /// A call with its argument as one number.
    pub fn new(lane: u32, operation: u32, side: u32, argument: u64) -> Note {
        Note {
            lane,
            operation,
            side,
            digit: digit(argument),
            argument: low_part(argument),
        }
    }

    /// The tag of a push.
    pub fn tag(self) -> u64 {
        tag(self.digit, self.argument)
    }
}

/// The rows of the paper, with one note for each task: they never look at the table.
#[derive(Clone)]
pub struct Row {
    /// By lane.
    pub tags: Vec<VecDeque<u64>>,
    pub notes: Vec<Option<Note>>,
    pub turns: Turns,
}

impl Row {
    pub fn new(tasks: u32, lanes: u32) -> Row {
        Row {
            tags: vec![VecDeque::new(); lanes as usize],
            notes: vec![None; tasks as usize],
            turns: Turns::new(tasks),
        }
    }

    /// What a begin gives by the notes and the tags, for which the paper's tests stand in this order; an accepted one is
    /// noted.
    pub fn begin(&mut self, task: u32, note: Note) -> Result<(), u32> {
        let Note {
            lane,
            operation,
            side,
            digit,
            argument,
        } = note;
        if lane as usize >= self.tags.len() {
            return Err(26);
        }
        let busy = self.notes.get(task as usize).ok_or(5u32)?.is_some();
        let refusals = [
            (6, !(PUSH..=REMOVE).contains(&operation) || side > 1),
            (7, !argument_fits(operation, [argument, digit])),
            (16, operation == PUSH && self.has(note.tag())),
            (8, busy),
        ];
        match refusals.iter().find(|(_, refused)| *refused) {
            Some(&(number, _)) => Err(number),
            None => {
                self.notes[task as usize] = Some(note);
                Ok(())
            }
        }
    }

    /// The call that a tick was made of.
    pub fn note(&self, task: u32) -> Note {
        self.notes[task as usize].expect("a tick was made without a note")
    }

    /// Explains the answer of a tick by the note of its task, which names the lane whose row alone may move.
    pub fn tick(&mut self, task: u32, words: [u32; 3]) {
        let note = self.note(task);
        let [kind, digit, low] = words;
        assert!(kind == 2 || [digit, low] == [0, 0], "words of {kind}");
        let (side, popped) = (note.side, tag(digit, low));
        let tags = &mut self.tags[note.lane as usize];
        match (kind, note.operation) {
            (0, _) => return,
            (1, PUSH) if side == LEFT => tags.push_front(note.tag()),
            (1, PUSH) => tags.push_back(note.tag()),
            (2, POP) if side == LEFT => assert_eq!(tags.pop_front(), Some(popped)),
            (2, POP) => assert_eq!(tags.pop_back(), Some(popped)),
            (3, POP) => assert!(tags.is_empty(), "empty, with {tags:?}"),
            (4, PUSH) => {}
            (5 | 6, ADD | REMOVE) => {}
            (_, operation) => panic!("answer {kind} to operation {operation}"),
        }
        self.notes[task as usize] = None;
    }

    /// Explains the answer of a dispatch, none for "idle", as a tick of the task whose turn it is, which it gives.
    pub fn dispatch(&mut self, words: Option<[u32; 3]>) -> Option<u32> {
        let next = self.turns.next(&self.notes);
        assert_eq!(next.is_some(), words.is_some(), "a dispatch, next {next:?}");
        let (task, words) = (next?, words?);
        self.turns.took(task, &self.notes);
        self.tick(task, words);
        Some(task)
    }

    /// Whether no call can tell two rows apart: by tags, notes and the task last dispatched.
    pub fn is(&self, other: &Row) -> bool {
        self.tags == other.tags
            && self.notes == other.notes
            && self.turns.last() == other.turns.last()
    }

    /// The tags of the rows and of the busy pushes, each with its lane.
    fn places(&self) -> impl Iterator<Item = (u32, u64)> + '_ {
        let rows = (0..).zip(&self.tags);
        let standing = rows.flat_map(|(lane, row)| row.iter().map(move |&tag| (lane, tag)));
        let pushes = self.notes.iter().flatten();
        let pushed = pushes.filter(|note| note.operation == PUSH);
        standing.chain(pushed.map(|note| (note.lane, note.tag())))
    }

    fn all_tags(&self) -> Vec<u64> {
        self.places().map(|(_, tag)| tag).collect()
    }

    /// Whether a push of this tag is turned back: it stands in a row, or a busy push has it.
    pub fn has(&self, tag: u64) -> bool {
        self.all_tags().contains(&tag)
    }

    /// Whether it is this lane's.
    pub fn lane_has(&self, lane: u32, tag: u64) -> bool {
        self.places().any(|place| place == (lane, tag))
    }

    /// One of the tags that a push is turned back for, if there is any.
    pub fn pick(&self, random: &mut Random) -> Option<u64> {
        let tags = self.all_tags();
        (!tags.is_empty()).then(|| random.pick(&tags))
    }

    /// No tag is in two places: of the rows, of a busy push.
    pub fn check_once(&self) {
        let mut tags = self.all_tags();
        tags.sort_unstable();
        let twice = tags.windows(2).find(|pair| pair[0] == pair[1]);
        assert_eq!(twice, None, "a tag in two places");
    }

    /// Every lane in the table is its row.
    pub fn check(&self, table: &[u32]) {
        self.check_once();
        for (lane, row) in (0..).zip(&self.tags) {
            let read = tags(table, lane).expect("the lane is read");
            assert!(row.iter().eq(&read), "lane {lane}: {row:?}, {read:?}");
        }
    }

    /// A lane read to an out slice of this length; 26 exactly where there is no such lane.
    pub fn check_short(&self, table: &[u32], lane: u32, length: usize) {
        let mut out = vec![3; length];
        let found = read(table, lane, &mut out);
        let words = 2 * found.unwrap_or(0) as usize;
        assert!(out[words..].iter().all(|&word| word == 3));
        match self.tags.get(lane as usize) {
            None => assert_eq!(found, Err(26)),
            Some(row) if length < 2 * row.len() => assert_eq!(found, Err(12)),
            Some(row) => {
                assert_eq!(found, Ok(row.len() as u32));
                assert!(row.iter().eq(&whole(&out[..words])));
            }
        }
    }
}
