//! The calls made on both programs at once: answers, every lent word and the words around them are compared.

use std::collections::VecDeque;
use std::fmt;

use lane::ffi;
use reference::table::header;
use reference::{airlines, sheet, Answer};

use crate::common::calls::whole;
use crate::common::records::{copied, Record};
use crate::common::row::Note;
use crate::counts::Given;
use crate::lent::Lent;
use crate::starts;

/// Calls that are shown when a comparison fails.
const SHOWN: usize = 40;

/// A call with its numbers, to be shown; of slices the lengths, of an airline list its text.
#[derive(Debug)]
#[allow(dead_code)]
enum Call {
    /// Slots, tasks, growth, lanes.
    Start([u32; 4]),
    /// Task, call.
    Begin(u32, Note),
    /// Record, task, call.
    BeginRecord(Record, u32, Note),
    /// Task, record.
    Copy(u32, Record),
    /// List, task, lane, digit, low part.
    PushByList(String, [u32; 4]),
    /// Task, hint.
    Tick(u32, u32),
    /// Task, hint, how many.
    Ticks(u32, u32, u32),
    /// Hint.
    Dispatch(u32),
    /// Hint, how many.
    Dispatches(u32, u32),
    /// Words of the list, words of the answer slice.
    Run(usize, usize),
    /// The same, from the panel.
    Panel(usize, usize),
    /// Lane, words of the out slice.
    Read(u32, usize),
    /// Lane, page, bytes of the out slice.
    Sheet(u32, u32, usize),
    /// Words of the snapshot.
    Take(usize),
    /// The same.
    Put(usize),
}

/// A list of ticks over a table and an answer slice, with what it gives in one number.
type Entry = fn(&mut [u32], &[u32], &mut [u32]) -> u64;

/// What such a list gave: the refusal or 0, the ticks made, and the answer slice.
pub type Ran = (u32, u32, Vec<u32>);

fn reference_run(table: &mut [u32], list: &[u32], answers: &mut [u32]) -> u64 {
    pair(reference::run(table, list, answers))
}

fn reference_panel(table: &mut [u32], list: &[u32], answers: &mut [u32]) -> u64 {
    pair(reference::panel(table, list, answers))
}

/// One table in two copies, one for each program.
pub struct Both {
    proved: Lent<u32>,
    second: Lent<u32>,
    before: Lent<u32>,
    calls: VecDeque<Call>,
    /// What the calls gave.
    pub given: Given,
}

impl Both {
    /// Two copies of these words, whatever they are.
    pub fn over(words: &[u32]) -> Both {
        let lent = Lent::new(words);
        Both {
            proved: lent.clone(),
            second: lent.clone(),
            before: lent,
            calls: VecDeque::new(),
            given: Given::default(),
        }
    }

    /// The table, the same in both copies.
    pub fn table(&self) -> &[u32] {
        self.second.words()
    }

    /// The table before the last call.
    pub fn before(&self) -> &[u32] {
        self.before.words()
    }

    /// Slots, tasks, growth and lanes, in this order.
    pub fn start(&mut self, given: [u32; 4]) -> Result<(), u32> {
        self.note(Call::Start(given));
        let [slots, tasks, growth, lanes] = given;
        let proved = ffi::start(self.proved.words_mut(), slots, tasks, growth, lanes);
        let second = reference::start(self.second.words_mut(), slots, tasks, growth, lanes);
        let number = second.err().unwrap_or(0);
        self.compare(proved, number);
        let place = starts::place(given, self.table().len());
        starts::hold(place, number);
        self.given.starts[place] += 1;
        self.done(0, number, second.is_ok());
        second
    }

    pub fn begin(&mut self, task: u32, call: Note) -> Result<(), u32> {
        self.note(Call::Begin(task, call));
        let Note {
            lane,
            operation,
            side,
            digit,
            argument,
        } = call;
        let (proved, second) = (self.proved.words_mut(), self.second.words_mut());
        let proved = ffi::begin(proved, task, lane, operation, side, digit, argument);
        let second = reference::begin(second, task, lane, operation, side, digit, argument);
        let number = second.err().unwrap_or(0);
        self.compare(proved, number);
        self.done(1, number, second.is_ok());
        second
    }

    /// A begin over a lent record: what it gives, and the record then.
    pub fn begin_record(
        &mut self,
        record: &Record,
        task: u32,
        call: Note,
    ) -> (Result<(), u32>, Record) {
        self.note(Call::BeginRecord(*record, task, call));
        let Note {
            lane,
            operation,
            side,
            digit,
            argument,
        } = call;
        let mut lent = [Lent::new(record), Lent::new(record)];
        let [proved, second] = &mut lent;
        let proved = ffi::begin_record(
            proved.words_mut().try_into().expect("a record"),
            self.proved.words(),
            task,
            lane,
            operation,
            side,
            digit,
            argument,
        );
        let number = reference::begin_record(
            second.words_mut().try_into().expect("a record"),
            self.second.words(),
            task,
            lane,
            operation,
            side,
            digit,
            argument,
        );
        self.compare(proved, number);
        assert!(lent[0] == lent[1], "the programs differ in a lent record");
        let after: Record = lent[1].words().try_into().expect("a record");
        assert!(
            number == 0 || after == *record,
            "a lent begin that was refused wrote"
        );
        self.done(13, number, false);
        match number {
            0 => (Ok(()), after),
            _ => (Err(number), after),
        }
    }

    /// The panel copies a record to the table, in both.
    pub fn copy(&mut self, task: u32, record: &Record) {
        self.note(Call::Copy(task, *record));
        for table in [&mut self.proved, &mut self.second] {
            let words = copied(table.words(), task, record);
            table.words_mut().copy_from_slice(&words);
        }
    }

    /// A push of these words at the end that a list names; a refusal comes with the list's line, or 0.
    pub fn push_by_list(
        &mut self,
        list: &[u8],
        task: u32,
        lane: u32,
        [digit, low]: [u32; 2],
    ) -> Result<(), (u32, u32)> {
        let shown = String::from_utf8_lossy(list).into_owned();
        self.note(Call::PushByList(shown, [task, lane, digit, low]));
        let lent = Lent::new(list);
        let (proved, second) = (self.proved.words_mut(), self.second.words_mut());
        let proved = ffi::push_by_list(lent.words(), proved, task, lane, digit, low);
        let second = airlines::push_by_list(lent.words(), second, task, lane, digit, low);
        self.compare(halves(proved), second.into());
        assert!(lent == Lent::new(list), "a list was written");
        let (number, _) = second;
        self.done(11, number, number == 0);
        match second {
            (0, _) => Ok(()),
            refused => Err(refused),
        }
    }

    pub fn tick(&mut self, task: u32, hint: u32) -> Result<Answer, u32> {
        self.note(Call::Tick(task, hint));
        let proved = ffi::tick(self.proved.words_mut(), task, hint);
        let second = reference::tick(self.second.words_mut(), task, hint);
        self.compare(number_parts(proved), parts(second));
        self.done(2, second.err().unwrap_or(0), second.is_ok());
        second
    }

    /// Consecutive ticks of one task: what the last gave.
    pub fn ticks(&mut self, task: u32, hint: u32, times: u32) -> Result<Answer, u32> {
        self.note(Call::Ticks(task, hint, times));
        let proved = ffi::ticks(self.proved.words_mut(), task, hint, times);
        let second = reference::ticks(self.second.words_mut(), task, hint, times);
        self.compare(number_parts(proved), parts(second));
        // Only 11 comes after ticks that were made.
        let made = times > 0 && matches!(second, Ok(_) | Err(11));
        self.done(7, second.err().unwrap_or(0), made);
        second
    }

    /// Gives the answer of the tick made, or none for "idle".
    pub fn dispatch(&mut self, hint: u32) -> Result<Option<Answer>, u32> {
        self.note(Call::Dispatch(hint));
        let proved = ffi::dispatch(self.proved.words_mut(), hint);
        let second = reference::dispatch(self.second.words_mut(), hint);
        self.compare(number_parts(proved), dispatch_parts(second));
        self.done(6, second.err().unwrap_or(0), matches!(second, Ok(Some(_))));
        second
    }

    /// Consecutive dispatches: what the last gave. After one that was made none is "idle".
    pub fn dispatches(&mut self, hint: u32, times: u32) -> Result<Option<Answer>, u32> {
        self.note(Call::Dispatches(hint, times));
        let proved = ffi::dispatches(self.proved.words_mut(), hint, times);
        let second = reference::dispatches(self.second.words_mut(), hint, times);
        self.compare(number_parts(proved), dispatch_parts(second));
        let made = times > 0 && matches!(second, Ok(Some(_)) | Err(11));
        self.done(8, second.err().unwrap_or(0), made);
        second
    }

    /// The ticks that the last call made, by the table's count.
    pub fn ticks_made(&self) -> u32 {
        self.table()[header::TICKS].wrapping_sub(self.before()[header::TICKS])
    }

    /// The answer slice had `content` in every word.
    pub fn run(&mut self, list: &[u32], length: usize, content: u32) -> Ran {
        self.note(Call::Run(list.len(), length));
        self.list(3, [ffi::run, reference_run], list, length, content)
    }

    /// The same from the panel.
    pub fn panel(&mut self, list: &[u32], length: usize, content: u32) -> Ran {
        self.note(Call::Panel(list.len(), length));
        let ran = self.list(4, [ffi::panel, reference_panel], list, length, content);
        self.given.panel_ticks += u64::from(ran.1);
        self.given.panel_whole += u64::from(ran.1 == 32);
        ran
    }

    fn list(
        &mut self,
        call: usize,
        programs: [Entry; 2],
        list: &[u32],
        length: usize,
        content: u32,
    ) -> Ran {
        let mut proved = Lent::new(&vec![content; length]);
        let mut second = proved.clone();
        let ran = programs[0](self.proved.words_mut(), list, proved.words_mut());
        let other = programs[1](self.second.words_mut(), list, second.words_mut());
        self.compare(halves(ran), halves(other));
        let [number, made] = halves(other);
        assert!(proved == second, "the programs differ in a run's answers");
        let rest = &second.words()[3 * made as usize..];
        assert!(
            rest.iter().all(|&word| word == content),
            "a run wrote past its answers"
        );
        self.done(call, number, made > 0);
        (number, made, second.words().to_vec())
    }

    /// Gives the tags of a lane, or the refusal; the out slice had `content` in every word.
    pub fn read(&mut self, lane: u32, length: usize, content: u32) -> Result<Vec<u64>, u32> {
        self.note(Call::Read(lane, length));
        let mut proved = Lent::new(&vec![content; length]);
        let mut second = proved.clone();
        let count = ffi::read(self.proved.words(), lane, proved.words_mut());
        let reading = reference::read(self.second.words(), lane, second.words_mut());
        let words = match reading {
            Ok(count) => [0, count],
            Err(number) => [number, 0],
        };
        self.compare(halves(count), words);
        assert!(proved == second, "the programs differ in the tags read");
        let (tags, rest) = second.words().split_at(2 * reading.unwrap_or(0) as usize);
        assert!(
            rest.iter().all(|&word| word == content),
            "a read wrote past its tags"
        );
        self.done(5, reading.err().unwrap_or(0), false);
        reading.map(|_| whole(tags))
    }

    /// Gives a page of a lane, or the refusal; the out slice had `content` in every byte.
    pub fn sheet(
        &mut self,
        lane: u32,
        page: u32,
        length: usize,
        content: u8,
    ) -> Result<Vec<u8>, u32> {
        self.note(Call::Sheet(lane, page, length));
        let mut proved = Lent::new(&vec![content; length]);
        let mut second = proved.clone();
        let given = ffi::sheet(self.proved.words(), lane, page, proved.words_mut());
        let number = sheet::sheet(self.second.words(), lane, page, second.words_mut());
        self.compare(given, number);
        if let Some(place) = proved.first_other(&second) {
            panic!("the programs differ in a page, first at byte {place}");
        }
        let bytes = second.words();
        assert!(
            number == 0 || bytes.iter().all(|&byte| byte == content),
            "a sheet that was refused wrote"
        );
        self.done(12, number, false);
        match number {
            0 => Ok(bytes.to_vec()),
            _ => Err(number),
        }
    }

    /// Gives the snapshot, or the refusal; its slice had `content` in every word.
    pub fn take(&mut self, length: usize, content: u32) -> Result<Vec<u32>, u32> {
        self.note(Call::Take(length));
        let mut proved = Lent::new(&vec![content; length]);
        let mut second = proved.clone();
        let number = ffi::take(self.proved.words(), proved.words_mut());
        let taken = reference::take(self.second.words(), second.words_mut());
        self.compare(number, taken.err().unwrap_or(0));
        assert!(proved == second, "the programs differ in the snapshot");
        let words = second.words();
        assert!(
            taken.is_ok() || words.iter().all(|&word| word == content),
            "a take that was refused wrote"
        );
        self.done(9, taken.err().unwrap_or(0), false);
        taken.map(|()| words.to_vec())
    }

    /// Puts these words back.
    pub fn put(&mut self, snapshot: &[u32]) -> Result<(), u32> {
        self.note(Call::Put(snapshot.len()));
        let proved = ffi::put(snapshot, self.proved.words_mut());
        let second = reference::put(snapshot, self.second.words_mut());
        let number = second.err().unwrap_or(0);
        self.compare(proved, number);
        self.done(10, number, second.is_ok());
        second
    }

    fn note(&mut self, call: Call) {
        self.before.take(&self.second);
        if self.calls.len() == SHOWN {
            self.calls.pop_front();
        }
        self.calls.push_back(call);
    }

    /// What the call gave, then every lent word and the margins.
    fn compare<T: PartialEq + fmt::Debug>(&self, proved: T, second: T) {
        assert_eq!(
            proved, second,
            "the programs differ in what a call gives (left: proved)"
        );
        if let Some(place) = self.proved.first_other(&self.second) {
            panic!("the programs differ in the table, first at word {place}");
        }
    }

    /// Counts what the call gave; where it made nothing, it has changed nothing.
    fn done(&mut self, call: usize, refusal: u32, made: bool) {
        self.given.refusals[call][refusal as usize] += 1;
        assert!(
            made || self.second == self.before,
            "a call that made nothing changed the table"
        );
    }
}

/// On a failed comparison: how the table came about.
impl Drop for Both {
    fn drop(&mut self) {
        if std::thread::panicking() {
            eprintln!("the last calls: {:?}", self.calls);
            eprintln!("the table before the last one: {:?}", self.before());
        }
    }
}

/// The two parts of what a tick or a dispatch of the library gives: the kind, and the tag or the refusal.
fn number_parts(number: u64) -> [u64; 2] {
    [number >> 40, number % (1 << 40)]
}

/// The same of a dispatch, which may be "idle", by the second program.
fn dispatch_parts(given: Result<Option<Answer>, u32>) -> [u64; 2] {
    given.transpose().map_or([8, 0], parts)
}

/// The same of a tick.
fn parts(given: Result<Answer, u32>) -> [u64; 2] {
    match given {
        Ok(Answer::Bag(tag)) => [2, tag],
        Ok(answer) => [answer.words()[0].into(), 0],
        Err(number) => [7, number.into()],
    }
}

/// Two words in one number, as the library gives them.
pub fn pair((high, low): (u32, u32)) -> u64 {
    u64::from(high) << 32 | u64::from(low)
}

/// The two words of such a number.
pub fn halves(number: u64) -> [u32; 2] {
    [(number >> 32) as u32, number as u32]
}
