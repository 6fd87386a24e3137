//! Exact matching over bytes by eight engines, cue books, and the places of their cues: a safe Rust interface to the library `libretto`.
//!
//! All engines give the same list of places; each gives the count of its own letter comparisons. The library allocates nothing: the caller lends a
//! scratch of 16-bit numbers for the tables and a list of 32-bit numbers for the places. [`find_all`] lends both itself. The engines compare letters
//! as they stand; the resolver alone folds them, and [`fold_text`] folds for whoever wants to find in the same way, by a [`Page`]: ISO 8859-1 or
//! ISO 8859-15. [`find_moves`] also lists by which rule the window of FJS moved. [`relist`] makes a phrase's list for a text in which a stretch is
//! replaced from its list for the old one.
//!
//! A cue book is 0 to 999 cues, each with a phrase, an ordinal and a title, and some with the [`Days`] on which they play, as those of a second cast, or
//! with a [`Mark`] that says that they are house only: [`write_cue`] writes one, [`read_cue`] reads one, [`read_book`] tests a whole book, and [`title`]
//! shows a title where it stands. [`retitle`] writes a book anew with one title replaced. [`resolve`] finds the place, line and column of each cue that
//! plays on a day in a text, in lent memory too, and reads the text once for each group of cues; the cues must run forward through the text.
//! [`retitle_all`] and [`resolve_all`] lend the memory themselves. A day is a number: [`day`] gives that of a [`Date`], and [`date`] gives the date back.
//! Each of these calls on a book or a cue is told the [`Role`] of who makes it: the operator may do all, a translator may retitle, and a guest may resolve
//! the cues that are not house only.
//!
//! ```
//! use libretto::{find, find_all, Finding, Method, Refusal};
//!
//! // With lent memory: the total and the comparisons are returned, the places are in the list.
//! let mut scratch = [0u16; 260];
//! let mut list = [u32::MAX; 4];
//! let finding = find(Method::Fjs, b"aba", b"ababa", &mut scratch, &mut list)?;
//! assert_eq!(finding, Finding { total: 2, comparisons: 5 });
//! assert_eq!(list, [0, 2, u32::MAX, u32::MAX]);
//!
//! // Without: all places.
//! assert_eq!(find_all(Method::Sunday, b"aba", b"ababa")?, [0, 2]);
//!
//! // What the library does not take is refused, and nothing is written.
//! assert_eq!(find_all(Method::Kmp, b"", b"ababa"), Err(Refusal::NoPhrase));
//! # Ok::<(), Refusal>(())
//! ```

#![deny(unsafe_code)]
#![deny(missing_docs)]

mod calendar;
mod cue_book;
#[allow(unsafe_code)]
mod ffi;
mod find;
mod fold;
mod late_cuts;
mod moves;
mod refusal;
mod resolver;
mod retitle;
mod role;

pub use calendar::{date, date_raw, day, day_raw, Date, RawDate, DAY_MAX};
pub use cue_book::{read_book, read_book_raw, read_cue, read_cue_raw, read_field, read_field_raw, title, title_raw, write_cue, write_cue_raw};
pub use cue_book::{BookError, Cue, Days, Due, Field, Mark, RawCue, RawDays, RawField, RawPart, CUES_MAX, CUE_MAX, ORDINAL_MAX, TITLE_MAX};
pub use find::{find, find_all, find_raw, Finding, Method, RawFinding};
pub use fold::{fold, fold_raw, fold_text, fold_text_raw, Page, RawFolding};
pub use late_cuts::{relist, relist_all, relist_raw};
pub use moves::{find_moves, find_moves_all, find_moves_raw, Move, MovesFinding, RawMovesFinding, Rule, MOVE_ENTRIES};
pub use refusal::{RawAnswer, Refusal};
pub use resolver::{resolve, resolve_all, resolve_raw};
pub use resolver::{CuePlace, RawResolving, ResolverMemory, Resolving, CUE_ENTRIES, RESOLVER_SCRATCH};
pub use retitle::{retitle, retitle_all, retitle_raw};
pub use role::Role;

/// The longest phrase of a find and of a cue, in bytes.
pub const PHRASE_MAX: usize = 1024;

/// The longest text of a find and of the resolver, in bytes.
pub const TEXT_MAX: usize = 32_768;
