//! How often each outcome of a tick or a begin and each refusal was seen, and which of them are missing.

use reference::table::{header, node, record, Sizes};
use reference::Answer;

use crate::airlines::Airlines;
use crate::alone::Alone;
use crate::apart::Apart;
use crate::begins::Begins;
use crate::cause;
use crate::common::tables::sizes;
use crate::digits::Digits;
use crate::dispatches::Dispatches;
use crate::drain::Drains;
use crate::idle::Idle;
use crate::consecutive::Consecutive;
use crate::lists::Lists;
use crate::one_user::played::Users;
use crate::outcomes::{Leads, Outcome, OUTCOMES};
use crate::records::Records;
use crate::sheets::Sheets;
use crate::snapshots::Snapshots;
use crate::starts;
use crate::stretch::Stretches;
use crate::windows::Windows;
use crate::words::Words;

/// The calls, and what each can give by the paper; 0 stands for no refusal.
const GIVEN: [(&str, &[usize]); 14] = [
    ("start", &[0, 1, 2, 25]),
    ("begin", &[0, 3, 4, 5, 6, 7, 8, 11, 16, 26]),
    ("tick", &[0, 3, 4, 5, 9, 10, 11]),
    ("run", &[0, 3, 4, 5, 9, 10, 11, 13, 14]),
    ("panel", &[0, 3, 4, 5, 9, 10, 11, 13, 14, 15]),
    ("read", &[0, 3, 4, 11, 12, 26]),
    ("dispatch", &[0, 3, 4, 9, 11]),
    ("ticks", &[0, 3, 4, 5, 9, 10, 11]),
    ("dispatches", &[0, 3, 4, 9, 11]),
    ("take", &[0, 3, 4, 22]),
    ("put", &[0, 3, 4, 22]),
    ("push by list", &[0, 3, 4, 5, 7, 8, 11, 16, 26, 27, 28, 29]),
    ("sheet", &[0, 3, 4, 11, 20, 21, 26]),
    ("begin, lent", &[0, 3, 4, 5, 6, 7, 8, 11, 16, 26]),
];
/// All steps that change the digit of a node, and whether a table that start and the calls reach shows it.
const CHANGE: [(u32, bool); 5] = [(5, true), (28, false), (31, false), (51, true), (78, false)];
/// The operations, from 1.
pub const NAMES: [&str; 4] = ["push", "pop", "add", "remove"];

/// What calls gave.
#[derive(Default)]
pub struct Given {
    /// By call and refusal.
    pub refusals: [[u64; 30]; GIVEN.len()],
    /// Starts, as they are listed.
    pub starts: [u64; starts::FOUND.len()],
    /// Ticks that the panel's lists made.
    pub panel_ticks: u64,
    /// Lists of the panel that made 32 ticks.
    pub panel_whole: u64,
}

/// Where a table comes from.
#[derive(Clone, Copy)]
pub enum Origin {
    /// From start and the calls.
    Calls,
    /// From anywhere; its shape holds.
    Anywhere,
}

/// What was seen.
pub struct Counts {
    /// By origin, then by outcome, operation and side.
    ticks: [Vec<[[u64; 2]; 4]>; 2],
    /// Ticks that changed the digit of a node, as in `CHANGE`, by origin and side.
    changed: [[[u64; 2]; 2]; CHANGE.len()],
    given: Given,
    /// Ticks at which the tick count went to 0.
    wraps: u64,
    /// Ticks of tasks of several lanes.
    apart: Apart,
    /// Words of the lanes.
    pub words: Words,
    /// Digits in each place.
    pub digits: Digits,
    /// Begins of a push.
    pub begins: Begins,
    /// Dispatches.
    pub dispatches: Dispatches,
    /// Consecutive ticks and dispatches.
    pub consecutive: Consecutive,
    /// Dispatches until every task is idle.
    pub drains: Drains,
    /// Calls that get all the ticks.
    pub alone: Alone,
    /// Ticks without an answer.
    pub stretches: Stretches,
    /// Tables with every task idle.
    pub idle: Idle,
    /// Lists of whole calls.
    pub users: Users,
    /// Tag lists.
    pub lists: Lists,
    /// Airline lists.
    pub airlines: Airlines,
    /// Pages of the shift sheet.
    pub sheets: Sheets,
    /// Snapshots put back.
    pub snapshots: Snapshots,
    /// Lent records.
    pub records: Records,
    /// Windows of lost swaps.
    pub windows: Windows,
}

impl Counts {
    pub fn new() -> Counts {
        let none = vec![[[0; 2]; 4]; OUTCOMES.len()];
        Counts {
            ticks: [none.clone(), none],
            changed: Default::default(),
            digits: Digits::default(),
            given: Given::default(),
            wraps: 0,
            apart: Apart::new(),
            words: Words::default(),
            begins: Begins::default(),
            dispatches: Dispatches::default(),
            consecutive: Consecutive::default(),
            drains: Drains::default(),
            alone: Alone::default(),
            stretches: Stretches::default(),
            idle: Idle::default(),
            users: Users::default(),
            lists: Lists::default(),
            airlines: Airlines::default(),
            sheets: Sheets::default(),
            snapshots: Snapshots::default(),
            records: Records::default(),
            windows: Windows::default(),
        }
    }

    /// Adds what the calls on a table gave.
    pub fn add(&mut self, given: &Given) {
        self.given.panel_ticks += given.panel_ticks;
        self.given.panel_whole += given.panel_whole;
        for (sums, counts) in self.given.refusals.iter_mut().zip(&given.refusals) {
            for (sum, count) in sums.iter_mut().zip(counts) {
                *sum += count;
            }
        }
        for (sum, count) in self.given.starts.iter_mut().zip(given.starts) {
            *sum += count;
        }
    }

    /// Counts a tick of a busy task and holds it to the list of outcomes: what the table before the tick shows must
    /// lead where the list says.
    pub fn tick(
        &mut self,
        origin: Origin,
        before: &[u32],
        after: &[u32],
        task: u32,
        given: Result<Answer, u32>,
    ) {
        let sizes = sizes(before);
        let at = sizes.record(task);
        let leads = match given {
            Ok(Answer::Going) => Leads::To(after[at + record::STEP]),
            Ok(answer) => Leads::Says(answer.words()[0]),
            Err(_) => Leads::Refused,
        };
        // A search at 28 that found none answers; one at 31, where D holds its node, leaves D as it was.
        let found =
            before[at + record::STEP] == 28 || after[at + record::D] != before[at + record::D];
        let taken = found && given == Ok(Answer::Going);
        let place = cause::outcome(before, sizes, task, taken);
        let outcome = &OUTCOMES[place];
        assert_eq!(
            leads, outcome.leads,
            "step {}, {}",
            outcome.step, outcome.cause
        );
        let operation = before[at + record::OPERATION] as usize - 1;
        let side = before[at + record::SIDE] as usize;
        self.ticks[origin as usize][place][operation][side] += 1;
        if digits(before, sizes).ne(digits(after, sizes)) {
            let step = outcome.step;
            let place = CHANGE.iter().position(|&(known, _)| known == step);
            let place = place.unwrap_or_else(|| panic!("step {step} changed a digit"));
            self.changed[place][origin as usize][side] += 1;
        }
        self.wraps += u64::from(after[header::TICKS] < before[header::TICKS]);
        if given.is_ok() {
            self.windows.tick(before, after, sizes, task, outcome);
        }
        if let (Origin::Calls, Ok(answer)) = (origin, given) {
            self.apart.tick(before, after, sizes, task, answer);
        }
    }

    /// Prints all counts; gives what was to be seen and was not, or seen and was not to be.
    pub fn report(&self) -> Vec<String> {
        let mut faults = Vec::new();
        println!(
            "{:48} {:>23} {:>23}",
            "", "from start, by calls", "any well-shaped table"
        );
        println!(
            "{:5}{:7} {:28}{:>7} {:>11} {:>11} {:>11} {:>11}",
            "step", "", "found", "leads", "left", "right", "left", "right"
        );
        for (place, outcome) in OUTCOMES.iter().enumerate() {
            for &operation in outcome.operations {
                let operation = operation as usize - 1;
                let counts = [0, 1].map(|origin| self.ticks[origin][place][operation]);
                report_outcome(outcome, NAMES[operation], counts, &mut faults);
            }
        }
        self.report_changed(&mut faults);
        self.report_given(&mut faults);
        faults.extend(starts::report(&self.given.starts));
        faults.extend(self.apart.report());
        faults.extend(self.words.report());
        faults.extend(self.digits.report());
        faults.extend(self.begins.report());
        faults.extend(self.dispatches.report());
        faults.extend(self.consecutive.report());
        faults.extend(self.alone.report());
        faults.extend(self.stretches.report());
        faults.extend(self.drains.report());
        faults.extend(self.idle.report());
        faults.extend(self.users.report());
        faults.extend(self.lists.report());
        faults.extend(self.airlines.report());
        faults.extend(self.sheets.report());
        faults.extend(self.snapshots.report());
        faults.extend(self.records.report());
        faults.extend(self.windows.report());
        faults
    }

    fn report_changed(&self, faults: &mut Vec<String>) {
        println!("\nticks that changed the digit of a slot, at step");
        for ((step, reachable), [calls, anywhere]) in CHANGE.iter().zip(self.changed) {
            let [[left, right], [any_left, any_right]] = [calls, anywhere];
            println!("{step:<47} {left:>11} {right:>11} {any_left:>11} {any_right:>11}");
            let seen = calls.map(|count| count > 0);
            if seen != [*reachable; 2] || anywhere.contains(&0) {
                faults.push(format!("digits changed at {step}: {calls:?}, {anywhere:?}"));
            }
        }
    }

    fn report_given(&self, faults: &mut Vec<String>) {
        println!();
        println!("tick count gone round to 0: {}", self.wraps);
        if self.wraps == 0 {
            faults.push("the tick count never went round".to_string());
        }
        let Given {
            refusals,
            panel_ticks,
            panel_whole,
            ..
        } = &self.given;
        println!("the panel made {panel_ticks} ticks; {panel_whole} of its lists made 32");
        if *panel_whole == 0 {
            faults.push("the panel never made 32 ticks".to_string());
        }
        for ((name, wanted), counts) in GIVEN.iter().zip(refusals) {
            let seen: Vec<String> = (0..counts.len())
                .filter(|&number| counts[number] > 0)
                .map(|number| format!("{number}: {}", counts[number]))
                .collect();
            println!("{name:12} gave {}", seen.join(", "));
            for (number, count) in counts.iter().enumerate() {
                if (*count > 0) != wanted.contains(&number) {
                    faults.push(format!("{name} gave {number} {count} times"));
                }
            }
        }
    }
}

/// The digits of all nodes.
fn digits(table: &[u32], sizes: Sizes) -> impl Iterator<Item = u32> + '_ {
    (0..sizes.nodes).map(move |number| table[sizes.node(number) + node::DIGIT])
}

/// Prints how often an outcome was seen, by origin and side.
fn report_outcome(
    outcome: &Outcome,
    operation: &str,
    [calls, anywhere]: [[u64; 2]; 2],
    faults: &mut Vec<String>,
) {
    let leads = match outcome.leads {
        Leads::To(step) => format!("{step}"),
        Leads::Says(kind) => format!("says {kind}"),
        Leads::Refused => "refused".to_string(),
    };
    let (step, cause) = (outcome.step, outcome.cause);
    let line = format!("{step:<5}{operation:7} {cause:28}{leads:>7}");
    let [left, right] = calls;
    let [any_left, any_right] = anywhere;
    println!("{line} {left:>11} {right:>11} {any_left:>11} {any_right:>11}");
    if outcome.reachable && calls.contains(&0) {
        faults.push(format!("never seen on a table from start: {line}"));
    }
    if !outcome.reachable && calls != [0, 0] {
        faults.push(format!(
            "seen on a table from start, listed as unreachable: {line}"
        ));
    }
    if anywhere.contains(&0) {
        faults.push(format!("never seen on a well-shaped table: {line}"));
    }
}
