//! Folding a text by each page, by page 15 beside a loop over a constant table in C, and as the resolver does it.

use crate::books::{Libretto, DAY};
use crate::clock::{rounds, Side};
use crate::lent::Lent;
use crate::statistics::least;
use crate::twins::{Build, BUILDS};
use libretto::{fold_text_raw, resolve_raw, Page, Role};
use std::hint::black_box;

/// Ends the program unless this side folds these letters by page 15 as the reference does, and leaves what is past them.
fn check_side(side: &str, letters: &[u8], fold: impl Fn(&[u8], &mut [u8])) {
    let [mut due, mut given] = [0, 0].map(|_| vec![7; letters.len() + 9]);
    reference::fold_text(Page::Latin9.number(), letters, &mut due[..letters.len()]);
    fold(letters, &mut given[..letters.len()]);
    assert!(given == due, "{side} and the reference fold {} letters differently by page 15", letters.len());
}

/// Folds by the library, which must not refuse, and must fold all letters.
fn fold_by_library(letters: &[u8], target: &mut [u8]) {
    let raw = fold_text_raw(Page::Latin9.number(), letters, target);
    assert_eq!((raw.refusal, raw.number), (0, letters.len()), "the library folds {} letters by page 15", letters.len());
}

/// Ends the program unless the library and every build of the twin fold the text, and every letter, as the reference does.
pub fn check(text: &Libretto) {
    let every_letter: Vec<u8> = (0..=255).collect();
    for letters in [&every_letter, &text.letters] {
        check_side("the library", letters, fold_by_library);
        BUILDS.iter().for_each(|build| check_side("C", letters, |letters, target| build.fold(letters, target)));
    }
}

/// The library's folding of a text by a page.
fn folding(page: Page, text: &Libretto) -> Side<'_> {
    Side::new(move |lent| {
        black_box(fold_text_raw(page.number(), &text.letters, lent.for_resolver().copy));
    })
}

/// The sides of folding.
pub struct Contest<'a> {
    page_1: Side<'a>,
    page_15: Side<'a>,
    twins: Vec<Side<'a>>,
    no_cues: Side<'a>,
}

impl<'a> Contest<'a> {
    /// The library's folding of a text by both pages, the twins by page 15, and a resolve of a book without cues by page 1.
    pub fn new(text: &'a Libretto) -> Contest<'a> {
        let no_cues = Side::new(|lent: &mut Lent| {
            black_box(resolve_raw(Role::Operator.number(), DAY, Page::Latin1.number(), &[], &text.letters, &mut lent.for_resolver()));
        });
        let twin = |build: &'static Build| {
            Side::new(move |lent: &mut Lent| {
                build.fold(&text.letters, black_box(lent.for_resolver().copy));
            })
        };
        let [page_1, page_15] = Page::ALL.map(|page| folding(page, text));
        Contest { page_1, page_15, twins: BUILDS.iter().map(twin).collect(), no_cues }
    }

    /// So many rounds of all sides.
    pub fn run(&mut self, count: usize, lent: &mut Lent) {
        let sides = [&mut self.page_1, &mut self.page_15, &mut self.no_cues].into_iter().chain(&mut self.twins);
        rounds(&mut sides.collect::<Vec<_>>(), count, lent);
    }

    /// The best times so far.
    pub fn times(&self) -> FoldingTimes {
        FoldingTimes {
            page_1: self.page_1.best(),
            page_15: self.page_15.best(),
            twin: least(self.twins.iter().map(Side::best)),
            no_cues: self.no_cues.best(),
        }
    }
}

/// The times of folding a text of 32,768 bytes, in nanoseconds.
pub struct FoldingTimes {
    /// The library by page 1.
    pub page_1: f64,
    /// The library by page 15.
    pub page_15: f64,
    /// The best build of the loop in C by page 15.
    pub twin: f64,
    /// A resolve of a book without cues by page 1, which clears the scratch too.
    pub no_cues: f64,
}

#[cfg(test)]
mod tests {
    use super::*;

    #[test]
    fn all_sides_fold_alike() {
        check(&Libretto::new());
    }

    #[test]
    #[should_panic(expected = "a side that leaves one letter and the reference fold 5 letters differently by page 15")]
    fn a_wrong_side_is_found() {
        check_side("a side that leaves one letter", b"c\xbcur.", |letters, target| {
            fold_by_library(letters, target);
            target[1] = letters[1];
        });
    }
}
