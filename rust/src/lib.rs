//! Bradawlet is an index of moving storm cells. Each cell is a point that moves in a straight line from where
//! radar saw it, and each has a minute from which on it says nothing. Asked for a rectangle, still or moving,
//! and a span of minutes, it lists the cells whose tracks meet it at one instant, fractions of a minute
//! counted. What it cannot answer, such as a window whose end is before its start, it refuses by number and
//! never with an empty list.
//!
//! The index is written and proved in Rattle. This crate links it as `libbradawlet.a` and has the same calls,
//! with a [`Refusal`] where C has a number.
//!
//! ```
//! use bradawlet::{Rectangle, Refusal, Report, Table, Window};
//!
//! fn main() -> Result<(), Refusal> {
//!     let mut table = Table::new(256)?;
//!     // Positions are in units of 10 m, velocities in units a minute.
//!     table.report(&Report { id: 7, x: 100, y: 200, vx: 5, vy: -3, minute: 10, expiry: 40 })?;
//!     table.report(&Report { id: 9, x: 0, y: 0, vx: 3, vy: 3, minute: 10, expiry: 30 })?;
//!
//!     let catchment = Rectangle { xlow: -500, xhigh: 500, ylow: 0, yhigh: 150 };
//!     let hits = table.window(&Window { start: 10, end: 20, rectangle: catchment })?;
//!     assert_eq!(hits.ids, [9]);
//!
//!     // Nobody takes a refusal for an empty list.
//!     let backward = table.window(&Window { start: 20, end: 10, rectangle: catchment });
//!     assert_eq!(backward, Err(Refusal::Backward));
//!     assert_eq!(backward.unwrap_err().to_string(), "refused by 7: the query goes backward");
//!
//!     for cell in table.cells()? {
//!         println!("cell {} is at {:?} at minute 20", cell.id, cell.at(20));
//!     }
//!     Ok(())
//! }
//! ```
//!
//! # Memory
//!
//! [`Table::new`] and [`Table::new_from_sheet`] allocate the words of a table once. [`Table::fresh`] and
//! [`Table::from_sheet`] make a table in words that are lent,
//! for instance in an array of [`words_for`]`(cells)`, as `&mut array`. The calls themselves allocate nothing; of the methods,
//! [`window`](Table::window), [`moving`](Table::moving), [`to_sheet`](Table::to_sheet) and
//! [`to_tracks`](Table::to_tracks) allocate what they give, and [`window_into`](Table::window_into),
//! [`moving_into`](Table::moving_into), [`write_sheet`](Table::write_sheet) and
//! [`write_tracks`](Table::write_tracks) allocate nothing.
//!
//! How much stack a call takes at the most is said by `BRADAWLET_STACK` and, for words that are no table,
//! `BRADAWLET_STACK_ANY_WORDS` in `include/bradawlet.h`.
//!
//! The calls keep no state of their own: tables can go to other threads, and be shared between them, as the
//! words that they stand in can.
//!
//! # Panics
//!
//! No number, no words and no bytes make a method panic. The one panic is for another library under the name
//! of `libbradawlet.a`, one that answers with what no call gives.
//!
//! # The archive
//!
//! The build script takes `libbradawlet.a` from the folder that the environment variable
//! `BRADAWLET_LIBRARIES` names, by an absolute path, and else from `target/lib` in the repository, where `./build` writes it.

#![deny(missing_docs)]
#![deny(unsafe_op_in_unsafe_fn)]
#![deny(unsafe_code)]

mod asked;
#[allow(unsafe_code)]
mod calls;
mod cells;
mod meeting;
mod refusal;
mod sizes;
mod table;
mod tracks;

pub use asked::{Cell, Hits, Moving, Rectangle, Report, Window};
pub use cells::Cells;
pub use meeting::{judge_sheet, meets, meets_moving};
pub use refusal::{NotListed, Refusal};
pub use sizes::{longest_tracks, sheet_length, words_for, LAYOUT, LONGEST_TRACK, MOST_CELLS};
pub use table::Table;
pub use tracks::read_track;
