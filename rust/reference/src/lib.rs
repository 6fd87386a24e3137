//! The finding, the cue book and the cue resolver of document 01, as document 02 changes them, written again from their words alone: simple, slow, and
//! independent of the library that it is compared with.
//!
//! [`find`] is the find call; [`find_moves`] is the find by method 4 that also lists which rule moved the window. [`finder_output`] is what the
//! finder program prints. Each engine has a file of its own, with its table's rule and its steps. Tables are made by brute force from their rules;
//! [`kmp_table`] and its like make one by itself, and [`widest_gap`] is what the improved engine's table needs beside the KMP entries. [`read_due`],
//! [`read_cue`], [`read_book`], [`title`], [`write_cue`] and [`retitle`] are the calls of the cue book; [`cues`] and [`read_field`] are what they are made
//! of. [`resolve`] is the resolver, which searches cue by cue, by brute force, and shares nothing with the engines; [`plays`] and [`is_open`] say which
//! cues it takes, [`groups`] are those that its reads are counted by, and [`endings`] and [`line_and_column`] are its line rule. Each call on a book or a
//! cue is told its role. [`day`] and [`date`] are the calendar. [`fold`] and
//! [`fold_text`] fold by a page, and [`folding_rule`] is a page's rule by itself. [`relist`] gives a phrase's list after a late cut, and [`new_text`] the
//! text after it.

#![forbid(unsafe_code)]

mod boyer_moore;
mod calendar;
mod cue_book;
mod double_window;
mod find;
mod finder;
mod fjs;
mod fold;
mod horspool;
mod improved_fjs;
mod kmp;
mod late_cuts;
mod naive;
mod resolver;
mod roles;
mod sunday;
mod tables;

#[cfg(test)]
mod worked_examples;

pub use calendar::{date, day};
pub use cue_book::{cues, read_book, read_cue, read_due, read_field, retitle, title, write_cue, Cue, Field};
pub use find::{find, find_moves};
pub use finder::finder_output;
pub use fold::{fold, fold_text, rule as folding_rule};
pub use late_cuts::{new_text, relist};
pub use resolver::{endings, groups, is_open, line_and_column, plays, resolve, Lent};
pub use tables::{delta1_table, delta2_table, horspool_table, kmp_table, max_shift_table, sunday_table, widest_gap};

/// What an engine gives: the places, rising, counted from 0, and the number of looks at a pair P[j], T[i].
#[derive(Default)]
struct Run {
    places: Vec<u32>,
    comparisons: u32,
}

impl Run {
    /// Looks at one pair of letters: counts 1 and says whether they are equal.
    fn look(&mut self, phrase_letter: u8, text_letter: u8) -> bool {
        self.comparisons += 1;
        phrase_letter == text_letter
    }

    /// Reports an occurrence that starts at this place, counted from 0.
    fn report(&mut self, place: usize) {
        self.places.push(place as u32);
    }
}

/// Keeps the table of the phrase that was asked for last, because tests ask for the same phrase many times. It has no part in any result.
#[derive(Default)]
struct LastTable {
    phrase: Vec<u8>,
    table: Vec<u16>,
}

impl LastTable {
    fn get(&mut self, phrase: &[u8], make: impl Fn(&[u8]) -> Vec<u16>) -> Vec<u16> {
        if self.table.is_empty() || self.phrase != phrase {
            self.table = make(phrase);
            self.phrase = phrase.to_vec();
        }
        self.table.clone()
    }
}
