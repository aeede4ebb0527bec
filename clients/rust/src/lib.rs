//! Funnelfawn for Rust: Fischer's timed lock over a table of up to 96 sales windows. Each call is that of the proved library for C, and
//! nothing is decided here; docs/guide/answers.md has the meaning of the answers, docs/SPECIFICATION.md the rules.
//!
//! ```
//! use funnelfawn::{Accepted, Act, Limits, Refusal, Summary, Table};
//!
//! let mut table = Table::fresh(&Limits { a: vec![5, 7], b: 8, c: 12 })?;
//! let mut summary = Summary::new();
//! table.record(&mut summary, Act::Try, 1, 0)?;
//! table.record(&mut summary, Act::Test, 1, 3)?;
//! table.record(&mut summary, Act::Set, 1, 8)?;
//!
//! let early = table.record(&mut summary, Act::Check, 1, 15);
//! assert_eq!(early, Err(Refusal::Early { window: 1, earliest: 16 }));
//!
//! table.record(&mut summary, Act::Check, 1, 16)?;
//! let sold = table.record(&mut summary, Act::Crit, 1, 20)?;
//! assert_eq!(sold, Accepted { selling: Some(1), clock: 20 });
//! assert_eq!((summary.accepted(), summary.refused(), summary.longest_wait()), (5, 1, 20));
//! # Ok::<(), Refusal>(())
//! ```
//!
//! [`Limits`] has an a for each window, for houses with tills of two ages; where all are of one, there is [`Limits::equal`].
//!
//! For a screen in the foyer there is [`Board`], which [`Table::record_and_tell`] tells of each window that is let in. For accounts
//! there is [`spans`]: out of a recording, who sold from when to when. For tills that write down their own acts by their own clocks there is
//! [`Notebook`]: held against what the box accepted of the window, it tells by how much the till's clock is off. For maintenance there is
//! [`DeadlineTable`], a second engine: of each window it has the first and the last moment at which it may act, and it answers every act as
//! [`Table`] does.
//!
//! ```
//! use funnelfawn::{Act, DeadlineTable, Limits, Moments, Place, Refusal, Table};
//!
//! let mut table = Table::fresh(&Limits::equal(2, 5, 8, 12))?;
//! table.step(Act::Try, 1, 0)?;
//! table.step(Act::Test, 1, 3)?;
//! table.step(Act::Set, 1, 8)?;
//! assert_eq!(table.place(1), Some((Place::Checking, Some(8))));
//!
//! let mut deadlines = DeadlineTable::from_table(table)?;
//! let check = Moments { first: 16, last: 20 };
//! assert_eq!(deadlines.place(1), Some((Place::Checking, Some(check))));
//! assert_eq!(deadlines.step(Act::Check, 1, 15), Err(Refusal::Early { window: 1, earliest: check.first }));
//! assert_eq!(deadlines.step(Act::Check, 1, 21), Err(Refusal::Late { window: 1, latest: check.last }));
//!
//! let table = deadlines.into_table()?;
//! assert_eq!(table.place(1), Some((Place::Checking, Some(8))));
//! # Ok::<(), Refusal>(())
//! ```
//!
//! The package and the archive have to be of one layout, [`raw::LAYOUT`]. Where a table of either kind, a summary or a board is made, an
//! archive of another one is found out, by a panic.
//!
//! The only unsafe code is in [`raw`], which lends slices to the library; all the rest stands on it.
#![deny(unsafe_code)]

mod act;
mod answer;
mod board;
mod deadlines;
mod ffi;
mod header;
mod layout;
mod limits;
mod notebook;
#[allow(unsafe_code)]
pub mod raw;
mod recording;
mod spans;
mod summary;
mod table;

pub use act::Act;
pub use answer::{Accepted, Fault, Figures, Refusal};
pub use board::{Board, Told};
pub use deadlines::{DeadlineTable, Moments};
pub use limits::Limits;
pub use notebook::{Note, Notebook};
pub use recording::{read, replay, Recording, Step};
pub use spans::{spans, spans_text, Span};
pub use summary::Summary;
pub use table::{Place, Table};
