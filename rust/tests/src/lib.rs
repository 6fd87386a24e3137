//! Comparing the library with the reference: one call of each on equal dirty memory, and every answer and every lent entry compared.

#![forbid(unsafe_code)]

use std::cell::Cell;
use std::sync::atomic::{AtomicU64, Ordering};

pub mod books;
mod calendar;
mod cue_book;
pub mod evenings;
mod find;
mod fold;
pub mod groups;
mod late_cuts;
mod lent;
pub mod pages;
pub mod programs;
mod resolver;
pub mod roles;
pub mod verses;
pub mod words;
pub mod xml;

pub use calendar::{compare_date, compare_day};
pub use cue_book::{compare_book, compare_cue, compare_field, compare_retitle, compare_write, numbers, Ending};
pub use find::{compare, compare_moves, needed, METHODS};
pub use fold::{compare_fold, compare_letter};
pub use late_cuts::{compare_relists, Cut};
pub use resolver::{compare_resolve, Lengths};
pub use words::Random;

/// The calls compared by all tests of this program.
static COMPARED: AtomicU64 = AtomicU64::new(0);

thread_local! {
    /// The calls compared by this thread, which is by this test.
    static COMPARED_HERE: Cell<u64> = const { Cell::new(0) };
}

/// What is wrong with a compared call.
#[derive(Default)]
struct Faults(Vec<String>);

impl Faults {
    fn when(&mut self, wrong: bool, what: &str) {
        if wrong {
            self.0.push(what.to_string());
        }
    }

    fn extend(&mut self, what: Option<String>) {
        self.0.extend(what);
    }

    /// Ends the test with the whole case if there is any fault, and counts the compared call otherwise.
    fn judge(self, case: impl FnOnce() -> String) {
        if !self.0.is_empty() {
            panic!("{}\n{}", case(), self.0.join("\n"));
        }
        COMPARED.fetch_add(1, Ordering::Relaxed);
        COMPARED_HERE.with(|here| here.set(here.get() + 1));
    }
}

/// Prints how many calls this test compared, and fails if there were fewer than it is meant to compare.
pub fn report(test: &str, at_least: usize) {
    let here = COMPARED_HERE.with(Cell::get);
    println!("{test}: {here} compared calls ({} so far in this program)", COMPARED.load(Ordering::Relaxed));
    assert!(here >= at_least as u64, "{test} compared {here} calls, fewer than {at_least}");
}
