//! What several tests share: a generator of numbers, mirrors, random tables, the plain rows and the snapshots kept with
//! them, the order of a snapshot, calls made to their answers, which nodes are free, whose turn it is, airline lists,
//! pages of the shift sheet and lent records.

#![allow(dead_code)]

pub mod calls;
pub mod columns;
pub mod free;
pub mod kept;
pub mod list_texts;
pub mod paths;
pub mod random;
pub mod records;
pub mod row;
pub mod sheets;
pub mod tables;
pub mod turns;
