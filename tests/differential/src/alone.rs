//! A call that gets all the ticks: a busy task run alone to its answer, and the most ticks that it took.

use std::collections::BTreeMap;

use reference::table::{header, Sizes};

use crate::both::Both;
use crate::common::random::Random;
use crate::counts::NAMES;
use crate::{LARGE, SMALL};

/// Ticks of one run; few calls need more, and a run takes at most 4,096.
const RUN: u32 = 32;

/// Within so many ticks of its own a busy task answers, as is proved.
pub fn bound(nodes: u32) -> u32 {
    4 * nodes + 154
}

/// Runs a busy task to its answer: the ticks that it took, and the answer's words. The tick after the answer is
/// refused, so that a run ends there.
pub fn run(random: &mut Random, both: &mut Both, sizes: Sizes, task: u32) -> (u32, [u32; 3]) {
    let before = both.table()[header::TICKS];
    let (mut words, mut refusal) = (Vec::new(), 0);
    while refusal == 0 && words.len() as u32 <= bound(sizes.nodes) {
        let list: Vec<u32> = (0..RUN)
            .flat_map(|_| [task, random.below(sizes.nodes)])
            .collect();
        let (number, made, answers) = both.run(&list, 3 * RUN as usize, random.word());
        let answers = answers.chunks(3).take(made as usize);
        words.extend(answers.map(|words| [words[0], words[1], words[2]]));
        refusal = number;
    }
    let ticks = words.len() as u32;
    assert_eq!(
        refusal, 10,
        "task {task} alone: not idle after {ticks} ticks"
    );
    let going = words.iter().take_while(|&&[kind, ..]| kind == 0).count() as u32;
    assert_eq!(
        going + 1,
        ticks,
        "task {task} alone: the last tick alone is to answer"
    );
    let counted = both.table()[header::TICKS].wrapping_sub(before);
    assert_eq!(counted, ticks, "ticks that a run did not report");
    (ticks, words[going as usize])
}

/// The most ticks that a call took alone.
#[derive(Default)]
pub struct Alone {
    /// By slots, then by operation; 0 where none was run.
    most: BTreeMap<u32, [u32; 4]>,
}

impl Alone {
    /// A call of this operation has had so many ticks, and no other task one.
    pub fn saw(&mut self, nodes: u32, operation: u32, ticks: u32) {
        assert!(
            ticks <= bound(nodes),
            "{ticks} ticks of a task alone, with {nodes} slots"
        );
        let most = &mut self.most.entry(nodes).or_default()[operation as usize - 1];
        *most = ticks.max(*most);
    }

    /// Prints the counts beside the bound; gives the operations that were not run on a size that every round has.
    pub fn report(&self) -> Vec<String> {
        let [push, pop, add, remove] = NAMES;
        println!("\nmost ticks of a call that gets all of them");
        println!(
            "{:>5} {push:>7} {pop:>7} {add:>7} {remove:>7} {:>7}",
            "slots", "bound"
        );
        for (&nodes, [push, pop, add, remove]) in &self.most {
            let bound = bound(nodes);
            println!("{nodes:>5} {push:>7} {pop:>7} {add:>7} {remove:>7} {bound:>7}");
        }
        let mut faults = Vec::new();
        for nodes in SMALL.chain([LARGE]) {
            let most = self.most.get(&nodes).copied().unwrap_or_default();
            for (name, ticks) in NAMES.iter().zip(most) {
                if ticks == 0 {
                    faults.push(format!("no {name} was run alone with {nodes} slots"));
                }
            }
        }
        faults
    }
}
