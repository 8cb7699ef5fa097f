//! A second, independent program for the same paper: words in, words out.
//!
//! It was written from the paper alone, so that a difference between its words
//! and those of the verified program points at a mistake in one of the two.
//! Nothing here is proved; it is plain Rust over the lent slices, with no
//! allocation per tick, and also serves as the baseline for speed.

#![forbid(unsafe_code)]
#![warn(missing_docs)]

pub mod airlines;
mod alloc;
mod answer;
mod calls;
mod dispatch;
pub mod form;
mod lent;
pub mod lines;
pub mod lists;
mod machine;
pub mod refusal;
mod shape;
pub mod sheet;
mod side;
mod snapshot;
mod step;
pub mod table;
pub mod window;

pub use alloc::count_free;
pub use answer::Answer;
pub use calls::{begin, panel, read, run, start, tick, ticks, whole, Call};
pub use dispatch::{dispatch, dispatches};
pub use lent::begin_record;
pub use lists::{read_tags, write_tags};
pub use snapshot::{put, take};
