//! The public calls: their refusals in order, then their work.

use std::array::from_fn;

use crate::answer::Answer;
use crate::refusal;
use crate::shape;
use crate::step;
use crate::table::{
    self, content, header, node, record, Content, Sizes, LEFT, LX, NONE, RIGHT, RX,
};

/// Longest schedule of a run, in words.
const MAX_SCHEDULE: usize = 8192;
/// The same for the maintenance panel, whose firmware takes 32 ticks.
const MAX_PANEL_SCHEDULE: usize = 64;

/// Writes lanes of two sentinels each, which are empty deques, with all tasks idle.
pub fn start(
    table: &mut [u32],
    slots: u32,
    tasks: u32,
    growth: u32,
    lanes: u32,
) -> Result<(), u32> {
    if !Sizes::are_lanes(lanes) {
        return Err(refusal::LANES);
    }
    let sizes = Sizes::new(slots, tasks, growth, lanes).ok_or(refusal::START_SIZES)?;
    if table.len() != sizes.words() {
        return Err(refusal::START_LENGTH);
    }
    let (head, rest) = table.split_at_mut(header::WORDS);
    let (nodes, records) = rest.split_at_mut(node::WORDS * slots as usize);
    // The hats of unused lanes stay none.
    head.fill(NONE);
    // The first dispatch looks from task 0 on.
    head[..header::HATS].copy_from_slice(&[slots, tasks, growth, lanes, 0, tasks - 1]);
    for at in header::ZEROS {
        head[at] = 0;
    }
    for node in nodes.chunks_exact_mut(node::WORDS) {
        node.copy_from_slice(&[NONE, NONE, 0, 0]);
    }
    for (lane, sentinels) in (0..lanes).zip(nodes.chunks_exact_mut(2 * node::WORDS)) {
        let (left, right) = (2 * lane, 2 * lane + 1);
        sentinels.copy_from_slice(&[NONE, right, LX, 0, left, NONE, RX, 0]);
        head[header::hat(lane, LEFT)] = left;
        head[header::hat(lane, RIGHT)] = right;
    }
    for task in records.chunks_exact_mut(record::WORDS) {
        task.copy_from_slice(&record::FRESH);
    }
    Ok(())
}

/// Gives an idle task an operation on a lane. The argument has its leading digit before it.
pub fn begin(
    table: &mut [u32],
    task: u32,
    lane: u32,
    operation: u32,
    side: u32,
    digit: u32,
    argument: u32,
) -> Result<(), u32> {
    let sizes = shape::check(table)?;
    let call = Call {
        lane,
        operation,
        side,
        digit,
        argument,
    };
    checked_begin(table, sizes, task, call)
}

/// A begin on a table whose shape is known to hold.
fn checked_begin(table: &mut [u32], sizes: Sizes, task: u32, call: Call) -> Result<(), u32> {
    call.check(sizes, task)?;
    if call.operation == table::PUSH {
        let tag = call.content();
        let (_, _, records) = sizes.parts(table);
        // The whole walk comes first: no tag is known to be there where some lane cannot be read.
        if stands(table, sizes, tag)? || is_pushed(records, tag) {
            return Err(refusal::TWICE);
        }
    }
    let at = sizes.record(task);
    if table[at + record::OPERATION] != table::IDLE {
        return Err(refusal::BUSY);
    }
    table[at..at + record::WORDS].copy_from_slice(&call.record());
    Ok(())
}

/// A whole call: a begin, and ticks of its task with hint 0 until one answers, or so many. A begin and a tick keep the
/// shape, so it is tested once for all of them.
pub fn whole(table: &mut [u32], task: u32, call: Call, times: u32) -> Result<Answer, u32> {
    let sizes = shape::check(table)?;
    checked_begin(table, sizes, task, call)?;
    checked_ticks(table, sizes, task, 0, times)
}

/// What a begin is given beside its task.
#[derive(Clone, Copy)]
pub struct Call {
    /// The lane.
    pub lane: u32,
    /// The operation.
    pub operation: u32,
    /// Its side.
    pub side: u32,
    /// The leading digit of its argument.
    pub digit: u32,
    /// Its argument, of a tag the low part.
    pub argument: u32,
}

impl Call {
    /// The refusals that the sizes and these numbers alone decide.
    pub fn check(self, sizes: Sizes, task: u32) -> Result<(), u32> {
        if self.lane >= sizes.lanes {
            return Err(refusal::LANE);
        }
        if task >= sizes.tasks {
            return Err(refusal::TASK);
        }
        if !(table::PUSH..=table::REMOVE).contains(&self.operation) || self.side > 1 {
            return Err(refusal::OPERATION);
        }
        if !table::argument_fits(self.operation, self.content()) {
            return Err(refusal::ARGUMENT);
        }
        Ok(())
    }

    /// The argument as a content.
    pub fn content(self) -> Content {
        [self.argument, self.digit]
    }

    /// The record that a begin writes.
    pub fn record(self) -> [u32; record::WORDS] {
        let mut words = record::FRESH;
        words[record::OPERATION] = self.operation;
        words[record::STEP] = table::first_step(self.operation);
        words[record::SIDE] = self.side;
        words[record::ARGUMENT] = self.argument;
        words[record::ARGUMENT_DIGIT] = self.digit;
        words[record::LANE] = self.lane;
        words
    }
}

/// Makes one tick of a busy task.
pub fn tick(table: &mut [u32], task: u32, hint: u32) -> Result<Answer, u32> {
    let sizes = shape::check(table)?;
    checked_tick(table, sizes, task, hint)
}

/// Makes ticks of one task until one does not answer "going", or so many; returns what the last one does. Where none is
/// asked for, nothing is tested.
pub fn ticks(table: &mut [u32], task: u32, hint: u32, times: u32) -> Result<Answer, u32> {
    if times == 0 {
        return Ok(Answer::Going);
    }
    // A tick keeps the shape, so it is tested once for all of them.
    let sizes = shape::check(table)?;
    checked_ticks(table, sizes, task, hint, times)
}

fn checked_ticks(
    table: &mut [u32],
    sizes: Sizes,
    task: u32,
    hint: u32,
    times: u32,
) -> Result<Answer, u32> {
    for _ in 0..times {
        match checked_tick(table, sizes, task, hint)? {
            Answer::Going => {}
            answer => return Ok(answer),
        }
    }
    Ok(Answer::Going)
}

/// Makes the ticks of a schedule of (task, hint) pairs up to the first refused;
/// returns the refusal or 0, and how many were made.
pub fn run(table: &mut [u32], list: &[u32], answers: &mut [u32]) -> (u32, u32) {
    match scheduled_sizes(table, list, answers, MAX_SCHEDULE) {
        Ok(sizes) => scheduled_ticks(table, sizes, list, answers),
        Err(number) => (number, 0),
    }
}

/// A run from the maintenance panel: the same, of short schedules.
pub fn panel(table: &mut [u32], list: &[u32], answers: &mut [u32]) -> (u32, u32) {
    match scheduled_sizes(table, list, answers, MAX_PANEL_SCHEDULE) {
        Ok(sizes) => scheduled_ticks(table, sizes, list, answers),
        Err(number) => (number, 0),
    }
}

fn scheduled_ticks(
    table: &mut [u32],
    sizes: Sizes,
    list: &[u32],
    answers: &mut [u32],
) -> (u32, u32) {
    let mut made = 0;
    for (pair, words) in list.chunks_exact(2).zip(answers.chunks_exact_mut(3)) {
        // A tick keeps the shape, so it was tested once for all of them.
        match checked_tick(table, sizes, pair[0], pair[1]) {
            Ok(answer) => words.copy_from_slice(&answer.words()),
            Err(number) => return (number, made),
        }
        made += 1;
    }
    (0, made)
}

/// Writes the tags of a lane, leftmost first, two words each, and returns their count.
pub fn read(table: &[u32], lane: u32, out: &mut [u32]) -> Result<u32, u32> {
    let sizes = shape::check(table)?;
    if lane >= sizes.lanes {
        return Err(refusal::LANE);
    }
    // The whole walk comes before the first write; its nodes are kept: a second one would wait for each link again.
    let mut visited = [0_u16; Sizes::MAX_NODES];
    let mut count = 0;
    walk(table, sizes, lane, |number, _| {
        visited[count % Sizes::MAX_NODES] = number as u16;
        count += 1;
    })?;
    let out = out.get_mut(..2 * count).ok_or(refusal::OUT_LENGTH)?;
    let nodes = nodes(table, sizes);
    for (place, &number) in out.chunks_exact_mut(2).zip(&visited) {
        let [low, digit] = content_of(&nodes[usize::from(number)]);
        place.copy_from_slice(&[digit, low]);
    }
    Ok(count as u32)
}

/// Whether a tag stands in any lane.
pub fn stands(table: &[u32], sizes: Sizes, wanted: Content) -> Result<bool, u32> {
    match sizes.lanes {
        1 => stands_in::<1>(table, sizes, wanted),
        2 => stands_in::<2>(table, sizes, wanted),
        3 => stands_in::<3>(table, sizes, wanted),
        _ => stands_in::<4>(table, sizes, wanted),
    }
}

/// The same of so many lanes, which are walked side by side: each waits for its own links alone.
fn stands_in<const N: usize>(table: &[u32], sizes: Sizes, wanted: Content) -> Result<bool, u32> {
    let nodes = nodes(table, sizes);
    let mut ends: [&[u32; node::WORDS]; N] =
        from_fn(|lane| &nodes[table[header::hat(lane as u32, LEFT)] as usize]);
    let mut going = [true; N];
    let mut found = false;
    for _ in 0..sizes.nodes {
        for (end, going) in ends.iter_mut().zip(&mut going) {
            if *going {
                *end = next(nodes, end)?;
                let content = content_of(end);
                *going = table::is_tag(content);
                found |= content == wanted;
            }
        }
        if going == [false; N] {
            return Ok(found);
        }
    }
    Err(refusal::NO_NODE)
}

/// Whether a tag is the argument of a busy push, whichever of these records'.
pub fn is_pushed(records: &[u32], tag: Content) -> bool {
    records.chunks_exact(record::WORDS).any(|task| {
        task[record::OPERATION] == table::PUSH && content(task, record::ARGUMENT) == tag
    })
}

/// Shows the nodes of a lane and their tags, leftmost first, up to its end; there may be none to find.
pub fn walk(
    table: &[u32],
    sizes: Sizes,
    lane: u32,
    mut show: impl FnMut(u32, Content),
) -> Result<(), u32> {
    let nodes = nodes(table, sizes);
    let mut node = &nodes[table[header::hat(lane, LEFT)] as usize];
    for _ in 0..sizes.nodes {
        let number = node[node::RIGHT];
        node = next(nodes, node)?;
        let content = content_of(node);
        if !table::is_tag(content) {
            return Ok(());
        }
        show(number, content);
    }
    Err(refusal::NO_NODE)
}

/// The nodes of a table.
fn nodes(table: &[u32], sizes: Sizes) -> &[[u32; node::WORDS]] {
    table[sizes.node(0)..sizes.record(0)].as_chunks().0
}

/// The node to the right; none has no place in the deque.
fn next<'a>(
    nodes: &'a [[u32; node::WORDS]],
    node: &[u32; node::WORDS],
) -> Result<&'a [u32; node::WORDS], u32> {
    let next = nodes.get(node[node::RIGHT] as usize);
    next.ok_or(refusal::NO_NODE)
}

fn content_of(node: &[u32; node::WORDS]) -> Content {
    [node[node::VALUE], node[node::DIGIT]]
}

fn scheduled_sizes(
    table: &[u32],
    list: &[u32],
    answers: &[u32],
    limit: usize,
) -> Result<Sizes, u32> {
    let sizes = shape::check(table)?;
    if list.len() & 1 == 1 || list.len() > MAX_SCHEDULE {
        return Err(refusal::SCHEDULE);
    }
    if list.len() > limit {
        return Err(refusal::PANEL_SCHEDULE);
    }
    if answers.len() < 3 * (list.len() / 2) {
        return Err(refusal::ANSWERS);
    }
    Ok(sizes)
}

/// A tick on a table whose shape is known to hold.
fn checked_tick(table: &mut [u32], sizes: Sizes, task: u32, hint: u32) -> Result<Answer, u32> {
    if task >= sizes.tasks {
        return Err(refusal::TASK);
    }
    if hint >= sizes.nodes {
        return Err(refusal::HINT);
    }
    if table[sizes.record(task) + record::OPERATION] == table::IDLE {
        return Err(refusal::IDLE);
    }
    step::advance(table, sizes, task, hint)
}
