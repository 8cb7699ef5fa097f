//! One tick of one task: a line of the figure, in one text for both sides.

use crate::answer::Answer;
use crate::machine::{swap, swap_word, Machine};
use crate::table::node::VALUE;
use crate::table::record::{self, A, B, C, COUNTED, D};
use crate::table::{self, Sizes, NONE};
use Next::{Done, To};

/// Makes a tick, or refuses it with every word as it was.
///
/// The table's shape holds, the task is busy and the hint names a node.
pub fn advance(table: &mut [u32], sizes: Sizes, task: u32, hint: u32) -> Result<Answer, u32> {
    let mut machine = Machine::new(table, sizes, task);
    let answer = match step(&mut machine, hint)? {
        To(step) => {
            machine.set(record::STEP, step);
            Answer::Going
        }
        Done(answer) => {
            machine.clear();
            answer
        }
    };
    machine.count_tick();
    Ok(answer)
}

/// Where a step leads: to another step, or to the operation's answer.
enum Next {
    To(u32),
    Done(Answer),
}

fn either(condition: bool, then: u32, otherwise: u32) -> Next {
    To(if condition { then } else { otherwise })
}

/// Each arm resolves the registers it goes through before it writes a word,
/// so that a refused tick has changed nothing.
fn step(m: &mut Machine, hint: u32) -> Result<Next, u32> {
    let side = m.side;
    Ok(match m.get(record::STEP) {
        // Push.
        2 => {
            m.set(A, m.hat());
            To(3)
        }
        3 => {
            let next = m.follow(A, side.outward, B)?;
            either(next == NONE, 8, 5)
        }
        5 => {
            let hat = m.move_hat(B)?;
            let pushed = m.get_content(record::ARGUMENT);
            let value = swap(m.at(A, VALUE)?, side.null, pushed);
            if m.dcas(hat, value) {
                Done(Answer::Pushed)
            } else {
                To(8)
            }
        }
        8 => either(m.load(A)? == side.terminator, 28, 67),

        // Unspur.
        67 => {
            m.set(A, m.hat());
            To(68)
        }
        68 => either(m.load(A)? == side.spur, 69, m.back()),
        69 => {
            m.follow(A, side.inward, B)?;
            To(70)
        }
        70 => {
            let track = m.follow(B, side.outward, C)?;
            either(track == NONE, m.back(), 72)
        }
        72 => {
            let hat = m.move_hat(C)?;
            m.cas(hat);
            To(m.back())
        }

        // Allocate.
        28 => match m.allocate(hint, side.terminator) {
            Some(last) => {
                m.set(D, last);
                m.set(COUNTED, 0);
                either(m.goal() == 0, 15, 31)
            }
            None if m.is_push() => Done(Answer::Full),
            None => Done(Answer::No),
        },
        31 => {
            let inward = m.at(D, side.inward)?;
            match m.allocate(hint, side.null) {
                Some(new) => {
                    m.store(m.node(new) + side.outward, m.get(D));
                    m.store(inward, new);
                    m.set(D, new);
                    either(m.count_node(), 15, 31)
                }
                None => To(15),
            }
        }

        // Add.
        15 => {
            m.set(A, m.hat());
            To(17)
        }
        17 => {
            let value = m.read(A)?;
            if value == side.null {
                To(18)
            } else if value == side.spur {
                To(67)
            } else {
                either(value == side.terminator, 24, 15)
            }
        }
        18 => {
            let next = m.follow(A, side.outward, A)?;
            either(next == NONE, 15, 17)
        }
        24 => {
            let inward = m.at(D, side.inward)?;
            m.follow(A, side.outward, B)?;
            m.store(inward, m.get(A));
            To(25)
        }
        25 => {
            let link = swap_word(m.at(A, side.outward)?, m.get(B), m.get(D));
            let value = swap(m.at(A, VALUE)?, side.terminator, side.null);
            if !m.dcas(link, value) {
                To(15)
            } else if m.is_push() {
                m.set(D, NONE);
                m.set(COUNTED, 0);
                To(2)
            } else {
                Done(Answer::Yes)
            }
        }

        // Pop.
        39 => {
            m.set(A, m.hat());
            To(40)
        }
        40 => {
            let next = m.follow(A, side.inward, B)?;
            either(next == NONE, 39, 42)
        }
        42 => {
            let value = m.read(B)?;
            if table::is_tag(value) {
                To(51)
            } else {
                let end = value == side.far_null || value == side.far_terminator;
                either(end, 48, 39)
            }
        }
        48 => {
            let value = m.load(B)?;
            if m.hat() == m.get(A) && value == m.get_content(record::VALUE) {
                Done(Answer::Empty)
            } else {
                To(39)
            }
        }
        51 => {
            let popped = m.get_content(record::VALUE);
            let hat = m.move_hat(B)?;
            let value = swap(m.at(B, VALUE)?, popped, side.null);
            if m.dcas(hat, value) {
                let [low, digit] = popped;
                Done(Answer::Bag(table::tag(digit, low)))
            } else {
                To(39)
            }
        }

        // Remove.
        54 => {
            m.set(A, m.hat());
            either(m.goal() == 0, 60, 56)
        }
        56 => {
            if m.load(A)? == side.terminator {
                Done(Answer::Yes)
            } else {
                To(58)
            }
        }
        58 => match m.follow(A, side.outward, A)? {
            NONE => Done(Answer::Yes),
            _ => either(m.count_node(), 60, 56),
        },
        60 => match m.follow(A, side.outward, B)? {
            NONE => Done(Answer::Yes),
            _ => To(62),
        },
        62 => {
            let chop = swap(m.at(A, VALUE)?, side.null, side.terminator);
            let rest = swap(m.at(B, VALUE)?, side.null, side.spur);
            if m.dcas(chop, rest) {
                To(64)
            } else {
                Done(Answer::No)
            }
        }
        64 => {
            let link = swap_word(m.at(A, side.outward)?, m.get(B), NONE);
            m.cas(link);
            To(74)
        }

        // Break the chain that was cut off.
        74 => {
            let first = m.get(B);
            let next = m.follow(B, side.outward, B)?;
            m.set(A, first);
            either(next == NONE, 82, 77)
        }
        77 => {
            m.read(B)?;
            To(78)
        }
        78 => {
            let value = swap(m.at(B, VALUE)?, m.get_content(record::VALUE), side.spur);
            either(m.cas(value), 79, 77)
        }
        79 => {
            m.store(m.at(A, side.outward)?, NONE);
            m.set(A, m.get(B));
            To(81)
        }
        81 => {
            let next = m.follow(A, side.outward, B)?;
            let last = m.get_content(record::VALUE) == side.terminator;
            either(next == NONE || last, 82, 77)
        }
        // 82, the one step that is left when the shape holds.
        _ => {
            m.store(m.at(A, side.outward)?, NONE);
            Done(Answer::Yes)
        }
    })
}
