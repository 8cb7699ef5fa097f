//! The paper's eight cases, word for word, tags of one low part, and the left mirror of each.

mod common;

use common::calls::{begin, whole};
use common::tables::{sizes, LANE};
use reference::table::{
    header, mirror, node, record, ADD, LEFT, LX, MAX_TAG, NONE, POP, PUSH, REMOVE, RIGHT, RN, RX,
    RY,
};
use reference::{read, start, tick, Answer};

/// One thing a case does or finds.
#[derive(Clone)]
enum Act {
    /// Start one lane on a slice of so many words, with the refusal or 0.
    Start {
        words: usize,
        nodes: u32,
        tasks: u32,
        growth: u32,
        refused: u32,
    },
    /// Begin (task, operation, side, argument), with the refusal or 0.
    Begin(u32, u32, u32, u64, u32),
    /// Exactly so many ticks of a task with hint 0, all going.
    Going(u32, u32),
    /// The answer comes at exactly this tick.
    Answers(u32, u32, Answer),
    /// The hat of a side is on this node.
    Hat(u32, u32),
    /// A node's link to the left, link to the right, V and digit.
    Node(u32, [u32; 4]),
    /// A node was never used.
    Unused(u32),
    /// Register of a task, by its offset in the record.
    Register(u32, usize, u32),
    /// All tasks but these are idle.
    Busy(Vec<u32>),
    /// The deque's tags, leftmost first.
    Tags(Vec<u64>),
    /// The tick count.
    Ticks(u32),
}
use Act::*;

/// The act seen from the other side. The start is its own mirror once nodes 0
/// and 1 change names.
fn mirror_act(act: &Act) -> Act {
    let name = |number: u32| if number < 2 { 1 - number } else { number };
    match act.clone() {
        Begin(task, operation, side, argument, refused) => {
            Begin(task, operation, 1 - side, argument, refused)
        }
        Hat(side, number) => Hat(1 - side, name(number)),
        Node(number, [left, right, value, digit]) => {
            let words = [name(right), name(left), mirror(value), digit];
            Node(name(number), words)
        }
        Register(task, register, number) => Register(task, register, name(number)),
        Tags(mut tags) => {
            tags.reverse();
            Tags(tags)
        }
        other => other,
    }
}

fn play(acts: &[Act]) {
    let mut table = Vec::new();
    for (at, act) in acts.iter().enumerate() {
        play_act(&mut table, act, at);
    }
}

fn play_act(table: &mut Vec<u32>, act: &Act, at: usize) {
    match act {
        &Start {
            words,
            nodes,
            tasks,
            growth,
            refused,
        } => {
            let mut fresh = vec![5; words];
            let found = start(&mut fresh, nodes, tasks, growth, 1);
            assert_eq!(found, expected(refused), "act {at}");
            if refused == 0 {
                *table = fresh;
            } else {
                assert_eq!(fresh, vec![5; words], "act {at}");
            }
        }
        &Begin(task, operation, side, argument, refused) => {
            let before = table.clone();
            let found = begin(table, task, LANE, operation, side, argument);
            assert_eq!(found, expected(refused), "act {at}");
            if refused != 0 {
                assert_eq!(*table, before, "act {at}");
            }
        }
        &Going(task, count) => {
            for number in 1..=count {
                let found = tick(table, task, 0);
                assert_eq!(found, Ok(Answer::Going), "act {at}, tick {number}");
            }
        }
        &Answers(task, count, answer) => {
            play_act(table, &Going(task, count - 1), at);
            assert_eq!(tick(table, task, 0), Ok(answer), "act {at}");
        }
        &Hat(side, number) => {
            assert_eq!(table[header::hat(LANE, side)], number, "act {at}");
        }
        &Node(number, words) => {
            let from = sizes(table).node(number);
            assert_eq!(table[from..from + node::WORDS], words, "act {at}");
        }
        &Unused(number) => play_act(table, &Node(number, [NONE, NONE, 0, 0]), at),
        &Register(task, register, number) => {
            let from = sizes(table).record(task);
            assert_eq!(table[from + register], number, "act {at}");
        }
        Busy(busy) => {
            let sizes = sizes(table);
            for task in 0..sizes.tasks {
                let from = sizes.record(task);
                let idle = table[from..from + record::WORDS] == record::FRESH;
                assert_eq!(idle, !busy.contains(&task), "act {at}, task {task}");
            }
        }
        Tags(tags) => {
            let words = 2 * tags.len();
            let mut out = vec![9; words + 2];
            assert_eq!(
                read(table, LANE, &mut out),
                Ok(tags.len() as u32),
                "act {at}"
            );
            assert_eq!(whole(&out[..words]), *tags, "act {at}");
            assert_eq!(out[words..], [9, 9], "act {at}");
        }
        &Ticks(count) => assert_eq!(table[header::TICKS], count, "act {at}"),
    }
}

fn expected(refused: u32) -> Result<(), u32> {
    if refused == 0 {
        Ok(())
    } else {
        Err(refused)
    }
}

fn accepted(nodes: u32, tasks: u32, growth: u32) -> Act {
    Start {
        words: 16 + 4 * nodes as usize + 13 * tasks as usize,
        nodes,
        tasks,
        growth,
        refused: 0,
    }
}

fn started_words() -> Vec<Act> {
    vec![
        Hat(LEFT, 0),
        Hat(RIGHT, 1),
        Node(0, [NONE, 1, LX, 0]),
        Node(1, [0, NONE, RX, 0]),
        Busy(vec![]),
        Tags(vec![]),
        Ticks(0),
    ]
}

/// The acts, then the same from the left.
fn both_sides(acts: &[Act]) {
    play(acts);
    let mirror: Vec<Act> = acts.iter().map(mirror_act).collect();
    play(&mirror);
}

#[test]
fn case_1_push_and_two_pops() {
    let mut acts = vec![accepted(4, 1, 0)];
    acts.extend(started_words());
    acts.extend([
        Begin(0, PUSH, RIGHT, 51, 0),
        Going(0, 10),
        Ticks(10),
        Tags(vec![]),
        Answers(0, 1, Answer::Pushed),
        Ticks(11),
        Busy(vec![]),
        Tags(vec![51]),
        Hat(LEFT, 0),
        Hat(RIGHT, 2),
        Node(0, [NONE, 1, LX, 0]),
        Node(1, [0, 2, 51, 0]),
        Node(2, [1, NONE, RX, 0]),
        Unused(3),
        Begin(0, POP, LEFT, 0, 0),
        Answers(0, 4, Answer::Bag(51)),
        Ticks(15),
        Tags(vec![]),
        Hat(LEFT, 1),
        Hat(RIGHT, 2),
        Node(1, [0, 2, mirror(RN), 0]),
        Begin(0, POP, RIGHT, 0, 0),
        Answers(0, 4, Answer::Empty),
        Ticks(19),
        Tags(vec![]),
        Busy(vec![]),
    ]);
    both_sides(&acts);
}

#[test]
fn case_2_full() {
    let mut acts = vec![
        accepted(2, 1, 0),
        Begin(0, PUSH, RIGHT, 51, 0),
        Answers(0, 4, Answer::Full),
        Ticks(4),
    ];
    // Nothing but the tick count is left of it.
    acts.extend(
        started_words()
            .into_iter()
            .filter(|act| !matches!(act, Ticks(_))),
    );
    both_sides(&acts);
}

#[test]
fn case_3_one_node_gained() {
    both_sides(&[
        accepted(3, 1, 0),
        Begin(0, ADD, RIGHT, 2, 0),
        Answers(0, 6, Answer::Yes),
        // The old terminator became a null node before the new terminator.
        Node(0, [NONE, 1, LX, 0]),
        Node(1, [0, 2, RN, 0]),
        Node(2, [1, NONE, RX, 0]),
        Hat(LEFT, 0),
        Hat(RIGHT, 1),
        Tags(vec![]),
        Busy(vec![]),
        Ticks(6),
    ]);
}

#[test]
fn case_4_remove_says_no() {
    both_sides(&[
        accepted(8, 1, 0),
        Begin(0, ADD, RIGHT, 0, 0),
        Answers(0, 5, Answer::Yes),
        Node(1, [0, 2, RN, 0]),
        Node(2, [1, NONE, RX, 0]),
        Unused(3),
        Begin(0, REMOVE, RIGHT, 0, 0),
        Answers(0, 3, Answer::No),
        Node(0, [NONE, 1, LX, 0]),
        Node(1, [0, 2, RN, 0]),
        Node(2, [1, NONE, RX, 0]),
        Unused(3),
        Busy(vec![]),
        Ticks(8),
    ]);
}

#[test]
fn case_5_the_spur() {
    both_sides(&[
        accepted(8, 2, 0),
        Begin(0, ADD, RIGHT, 2, 0),
        Answers(0, 7, Answer::Yes),
        Node(0, [NONE, 1, LX, 0]),
        Node(1, [0, 4, RN, 0]),
        Node(4, [1, 3, RN, 0]),
        Node(3, [4, 2, RN, 0]),
        Node(2, [3, NONE, RX, 0]),
        Unused(5),
        Begin(1, PUSH, RIGHT, 51, 0),
        Going(1, 2),
        Register(1, record::A, 1),
        Register(1, record::B, 4),
        Begin(0, REMOVE, RIGHT, 0, 0),
        Answers(0, 14, Answer::Yes),
        Node(1, [0, NONE, RX, 0]),
        Node(4, [1, NONE, RY, 0]),
        Node(3, [4, NONE, RY, 0]),
        Node(2, [3, NONE, RY, 0]),
        Busy(vec![1]),
        // The stalled push holds node 4; 2 and 3 are free, and 2 is first.
        Begin(0, ADD, RIGHT, 0, 0),
        Going(0, 1),
        Register(0, record::D, 2),
        Node(2, [NONE, NONE, RX, 0]),
        Answers(0, 4, Answer::Yes),
        Node(1, [0, 2, RN, 0]),
        Node(2, [1, NONE, RX, 0]),
        Node(4, [1, NONE, RY, 0]),
        Hat(RIGHT, 1),
        Tags(vec![]),
        Answers(1, 1, Answer::Pushed),
        // The hat is on the node that was cut off.
        Hat(RIGHT, 4),
        Node(4, [1, NONE, RY, 0]),
        Node(1, [0, 2, 51, 0]),
        Tags(vec![51]),
        Busy(vec![]),
        Begin(0, PUSH, RIGHT, 52, 0),
        Going(0, 8),
        Hat(RIGHT, 2),
        Answers(0, 11, Answer::Pushed),
        Tags(vec![51, 52]),
        Hat(LEFT, 0),
        Hat(RIGHT, 3),
        Node(0, [NONE, 1, LX, 0]),
        Node(1, [0, 2, 51, 0]),
        Node(2, [1, 3, 52, 0]),
        Node(3, [2, NONE, RX, 0]),
        Node(4, [1, NONE, RY, 0]),
        Unused(5),
        Unused(6),
        Unused(7),
        Busy(vec![]),
        Ticks(7 + 2 + 14 + 5 + 1 + 19),
    ]);
}

#[test]
fn case_6_the_shortest_table() {
    let exact = Start {
        words: 37,
        nodes: 2,
        tasks: 1,
        growth: 0,
        refused: 0,
    };
    let mut acts = vec![exact];
    acts.extend(started_words());
    acts.push(Start {
        words: 36,
        nodes: 2,
        tasks: 1,
        growth: 0,
        refused: 2,
    });
    both_sides(&acts);
}

#[test]
fn case_7_too_many_nodes() {
    both_sides(&[Start {
        words: 16 + 4 * 1025 + 13,
        nodes: 1025,
        tasks: 1,
        growth: 0,
        refused: 1,
    }]);
}

#[test]
fn case_8_limits_of_a_tag() {
    both_sides(&[
        accepted(4, 1, 0),
        Begin(0, PUSH, RIGHT, 0, 7),
        Begin(0, PUSH, RIGHT, MAX_TAG + 1, 7),
        Busy(vec![]),
        Begin(0, PUSH, RIGHT, MAX_TAG, 0),
        Busy(vec![0]),
        Answers(0, 11, Answer::Pushed),
        Tags(vec![9_999_999_999]),
        Node(1, [0, 2, 999_999_999, 9]),
        Begin(0, POP, RIGHT, 0, 0),
        Answers(0, 4, Answer::Bag(9_999_999_999)),
        Node(1, [0, 2, RN, 0]),
    ]);
}

/// Tags with the same low part are different tags, and so are those whose low part is 0.
#[test]
fn tags_that_differ_in_the_digit_alone() {
    let mut acts = vec![accepted(8, 1, 3)];
    for (tag, ticks) in [
        (51, 14),
        (1_000_000_051, 3),
        (1_000_000_000, 3),
        (9_000_000_000, 3),
    ] {
        acts.extend([
            Begin(0, PUSH, RIGHT, tag, 0),
            Begin(0, PUSH, RIGHT, tag, 16),
            Answers(0, ticks, Answer::Pushed),
            Begin(0, PUSH, LEFT, tag, 16),
        ]);
    }
    acts.extend([
        Tags(vec![51, 1_000_000_051, 1_000_000_000, 9_000_000_000]),
        Begin(0, POP, LEFT, 0, 0),
        Answers(0, 4, Answer::Bag(51)),
        Begin(0, PUSH, LEFT, 1_000_000_051, 16),
        Begin(0, PUSH, LEFT, 51, 0),
        Answers(0, 3, Answer::Pushed),
    ]);
    for tag in [9_000_000_000, 1_000_000_000, 1_000_000_051, 51] {
        acts.extend([Begin(0, POP, RIGHT, 0, 0), Answers(0, 4, Answer::Bag(tag))]);
    }
    acts.extend([Tags(vec![]), Busy(vec![])]);
    both_sides(&acts);
}
