//! Plays belt lines on the proved library and writes what it saw as one page: the run, tick by tick.
//!
//! Every tick is made by the library on a table that the player owns. What a tick wrote is the difference between the
//! words before and after it; what it compared follows from its line of the figure, which stands here in words, once
//! ([`figure`]). Nothing here is proved, and nothing here is a second machine: the page shows words of the table.

pub mod figure;
pub mod form;
pub mod moment;
pub mod page;
pub mod places;
pub mod play;
pub mod row;
