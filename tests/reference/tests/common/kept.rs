//! Snapshots of tables that rows explain, each with the rows of the moment at which it was taken.

use super::random::Random;
use super::row::Row;

/// The most that are kept.
const MOST: u32 = 8;

/// Of older and newer moments; a start does not spoil them.
#[derive(Default)]
pub struct Kept(Vec<(Vec<u32>, Row)>);

impl Kept {
    /// Keeps one more. The rows are told by the words: where the same are kept, so are the same rows.
    pub fn keep(&mut self, snapshot: Vec<u32>, row: &Row, random: &mut Random) {
        if let Some(known) = self.row_of(&snapshot) {
            assert!(known.is(row), "the same words, and other rows");
            return;
        }
        if self.0.len() as u32 == MOST {
            // Any but the latest.
            self.0.remove(random.below(MOST - 1) as usize);
        }
        self.0.push((snapshot, row.clone()));
    }

    /// One of them, if there is any.
    pub fn pick(&self, random: &mut Random) -> Option<Vec<u32>> {
        let place = (!self.0.is_empty()).then(|| random.below(self.0.len() as u32))?;
        let (snapshot, _) = &self.0[place as usize];
        Some(snapshot.clone())
    }

    /// The rows after a snapshot of these words is put back; none where they were not taken. Dispatches are counted
    /// anew from there.
    pub fn row_of(&self, snapshot: &[u32]) -> Option<Row> {
        let (_, row) = self.0.iter().find(|(words, _)| words == snapshot)?;
        let mut row = row.clone();
        row.turns.put_back();
        Some(row)
    }
}
