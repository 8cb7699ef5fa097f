//! Numbers of ticks beside the proved bounds on them: by slots and tasks, the one that came nearest to its bound.

use std::collections::BTreeMap;
use std::ops::RangeInclusive;

/// The columns of a report, by tasks.
const COLUMNS: [RangeInclusive<u32>; 5] = [1..=1, 2..=2, 3..=4, 5..=8, 9..=16];

/// A number that was met, and its bound.
type Met = (u32, u32);

/// What was met.
#[derive(Default)]
pub struct Nearest {
    /// By slots, then as in `COLUMNS`.
    nearest: BTreeMap<u32, [Option<Met>; COLUMNS.len()]>,
}

impl Nearest {
    /// So many ticks, with so many slots and tasks.
    pub fn saw(&mut self, nodes: u32, tasks: u32, ticks: u32, bound: u32) {
        let column = COLUMNS.iter().position(|column| column.contains(&tasks));
        let column = column.expect("a number of tasks");
        let nearest = &mut self.nearest.entry(nodes).or_default()[column];
        if nearest.is_none_or(|met| share(met) < share((ticks, bound))) {
            *nearest = Some((ticks, bound));
        }
    }

    /// Prints them by slots; gives the columns that have none.
    pub fn report(&self, name: &str) -> Vec<String> {
        let heads = COLUMNS.map(|tasks| match tasks.into_inner() {
            (1, _) => "1 task".to_string(),
            (2, _) => "2 tasks".to_string(),
            (least, most) => format!("{least} to {most}"),
        });
        println!("\n{name}, and the bound");
        println!("{:>5} {}", "slots", in_columns(&heads));
        for (nodes, row) in &self.nearest {
            let cells = row.map(|met| match met {
                Some((ticks, bound)) => format!("{ticks} / {bound}"),
                None => "-".to_string(),
            });
            println!("{nodes:>5} {}", in_columns(&cells));
        }
        let missing = |&column: &usize| self.nearest.values().all(|row| row[column].is_none());
        (0..COLUMNS.len())
            .filter(missing)
            .map(|column| format!("{name}: none of {}", heads[column]))
            .collect()
    }
}

fn share((ticks, bound): Met) -> f64 {
    f64::from(ticks) / f64::from(bound)
}

fn in_columns(cells: &[String]) -> String {
    cells.iter().map(|cell| format!("{cell:>19}")).collect()
}
