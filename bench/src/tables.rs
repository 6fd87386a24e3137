//! Making the tables alone: a find in an empty text fills them and compares nothing.

use crate::check::Checker;
use crate::clock::{rounds, Side};
use crate::lent::Lent;
use crate::sides::{Case, EngineSides, EngineTimes};
use crate::texts::{Family, Text};
use libretto::Method;

/// The lengths of the phrases whose tables are made.
pub const LENGTHS: [usize; 4] = [1, 8, 64, 1024];

/// The families that the phrases come from: usual letters, and those where borders are longest.
const FAMILIES: [Family; 4] = [Family::Verse, Family::Two, Family::One, Family::Fibonacci];

/// The cases, one for each length, with a phrase of each family.
pub fn cases(checker: &mut Checker) -> Vec<Case<'static>> {
    let case = |length: usize| Case {
        name: format!("tables for {length} letters"),
        phrases: FAMILIES.iter().map(|&family| Text::new(family, length).letters).collect(),
        texts: vec![&[]],
    };
    let cases = LENGTHS.map(case);
    cases.iter().for_each(|case| checker.check(case));
    cases.into()
}

/// Each engine's sides in one case.
pub struct Contest<'a>(Vec<EngineSides<'a>>);

impl<'a> Contest<'a> {
    /// The sides that take part in a case.
    pub fn new(case: &'a Case<'a>) -> Contest<'a> {
        Contest(Method::ALL.iter().map(|&method| EngineSides::new(method, case)).collect())
    }

    /// So many rounds of all sides.
    pub fn run(&mut self, count: usize, lent: &mut Lent) {
        let mut sides: Vec<&mut Side> = self.0.iter_mut().flat_map(EngineSides::all).collect();
        rounds(&mut sides, count, lent);
    }

    /// The best times so far for one phrase, in the order of the methods.
    pub fn times(&self) -> Vec<EngineTimes> {
        let one = |times: f64| times / FAMILIES.len() as f64;
        let each = |times: EngineTimes| EngineTimes { library: one(times.library), twin: one(times.twin), ..times };
        self.0.iter().map(|engine| each(engine.times())).collect()
    }
}
