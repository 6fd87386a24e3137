//! How a find's time grows with the text's length and with the phrase's.

use crate::check::Checker;
use crate::clock::{rounds, Side};
use crate::lent::Lent;
use crate::sides::{library, Case};
use crate::texts::{Family, Text};
use libretto::{Method, TEXT_MAX};

/// The text lengths n, doubling.
pub const TEXT_LENGTHS: [usize; 7] = [512, 1024, 2048, 4096, 8192, 16_384, 32_768];

/// The phrase lengths m, doubling.
pub const PHRASE_LENGTHS: [usize; 11] = [1, 2, 4, 8, 16, 32, 64, 128, 256, 512, 1024];

/// The lengths of the phrases that are sought in each text as n grows.
pub const SOUGHT: [usize; 3] = [3, 16, 100];

/// The texts of all families in full length.
pub fn texts() -> Vec<Text> {
    Family::ALL.iter().map(|&family| Text::new(family, TEXT_MAX)).collect()
}

/// A stretch from the text's middle.
fn middle(text: &Text, length: usize) -> Vec<u8> {
    let start = text.letters.len() / 2;
    text.letters[start..start + length].to_vec()
}

/// A family's cases by n. The full text is cut into pieces of n letters, and each is searched: all lengths then read the same letters, and the
/// processor cannot learn a short text by heart.
pub fn cases_by_n<'a>(text: &'a Text, checker: &mut Checker) -> Vec<Case<'a>> {
    let case = |n: usize| Case {
        name: format!("{} cut into {n}", text.family.name()),
        phrases: SOUGHT.iter().map(|&m| middle(text, m)).collect(),
        texts: text.letters.chunks_exact(n).collect(),
    };
    checked(TEXT_LENGTHS.map(case).into(), checker)
}

/// A family's cases by m: one phrase of m letters in the full text.
pub fn cases_by_m<'a>(text: &'a Text, checker: &mut Checker) -> Vec<Case<'a>> {
    let case =
        |m: usize| Case { name: format!("{} by a phrase of {m}", text.family.name()), phrases: vec![middle(text, m)], texts: vec![&text.letters] };
    checked(PHRASE_LENGTHS.map(case).into(), checker)
}

fn checked<'a>(cases: Vec<Case<'a>>, checker: &mut Checker) -> Vec<Case<'a>> {
    cases.iter().for_each(|case| checker.check(case));
    cases
}

/// The library's engines over a family's cases.
pub struct Contest<'a> {
    cases: &'a [Case<'a>],
    sides: Vec<Vec<Side<'a>>>,
}

impl<'a> Contest<'a> {
    /// A side for each engine in each case.
    pub fn new(cases: &'a [Case<'a>]) -> Contest<'a> {
        let engine = |&method: &Method| cases.iter().map(|case| library(method, case)).collect();
        Contest { cases, sides: Method::ALL.iter().map(engine).collect() }
    }

    /// So many rounds of all sides.
    pub fn run(&mut self, count: usize, lent: &mut Lent) {
        let mut sides: Vec<&mut Side> = self.sides.iter_mut().flatten().collect();
        rounds(&mut sides, count, lent);
    }

    /// The best time of one find, in nanoseconds, by engine and then by case.
    pub fn times(&self) -> Vec<Vec<f64>> {
        let one = |(side, case): (&Side, &Case)| side.best() / (case.texts.len() * case.phrases.len()) as f64;
        self.sides.iter().map(|engine| engine.iter().zip(self.cases).map(one).collect()).collect()
    }
}
