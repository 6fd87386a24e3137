//! Whole finds by each engine, in every class: a kind of phrase in a text of one family and length.

use crate::charts::grouped;
use crate::check::Checker;
use crate::clock::{rounds, Side};
use crate::lent::Lent;
use crate::phrases::Kind;
use crate::sides::{memmem, Case, EngineSides, EngineTimes, MovesSides, MovesTimes};
use crate::texts::{Family, Text};
use libretto::Method;

/// The lengths of the texts.
pub const LENGTHS: [usize; 2] = [32_768, 1024];

/// A class, and what one call of its sides does.
pub struct Class<'a> {
    /// The text's family.
    pub family: Family,
    /// The text's length.
    pub length: usize,
    /// The kind of the phrases.
    pub kind: Kind,
    case: Case<'a>,
}

impl<'a> Class<'a> {
    fn new(text: &'a Text, kind: Kind) -> Class<'a> {
        let length = text.letters.len();
        let name = format!("{} {}: {}", text.family.name(), grouped(length), kind.name());
        Class { family: text.family, length, kind, case: Case { name, phrases: kind.phrases(text), texts: vec![&text.letters] } }
    }

    /// The class in words.
    pub fn name(&self) -> &str {
        &self.case.name
    }
}

/// All texts, by family and then by length.
pub fn texts() -> Vec<Text> {
    Family::ALL.iter().flat_map(|&family| LENGTHS.map(|length| Text::new(family, length))).collect()
}

/// All classes of these texts, checked.
pub fn classes<'a>(texts: &'a [Text], checker: &mut Checker) -> Vec<Class<'a>> {
    let classes: Vec<Class> = texts.iter().flat_map(|text| Kind::ALL.map(|kind| Class::new(text, kind))).collect();
    classes.iter().for_each(|class| checker.check(&class.case));
    classes
}

/// The sides of a class: eight engines with their twins and their references, FJS with a list of its moves, and `memmem`.
pub struct Contest<'a> {
    engines: Vec<EngineSides<'a>>,
    moves: MovesSides<'a>,
    memmem: Side<'a>,
}

impl<'a> Contest<'a> {
    /// The sides that take part in a class.
    pub fn new(class: &'a Class<'a>) -> Contest<'a> {
        let engines = Method::ALL.iter().map(|&method| EngineSides::with_reference(method, &class.case)).collect();
        Contest { engines, moves: MovesSides::new(&class.case), memmem: memmem(&class.case) }
    }

    /// So many rounds of all sides.
    pub fn run(&mut self, count: usize, lent: &mut Lent) {
        let mut sides: Vec<&mut Side> = self.engines.iter_mut().flat_map(EngineSides::all).collect();
        sides.extend(self.moves.all());
        sides.push(&mut self.memmem);
        rounds(&mut sides, count, lent);
    }

    /// The best times so far.
    pub fn times(&self) -> ClassTimes {
        let engines = self.engines.iter().map(EngineSides::times).collect();
        ClassTimes { engines, moves: self.moves.times(), memmem: self.memmem.best() }
    }
}

/// The times of a class, in nanoseconds for all its phrases.
pub struct ClassTimes {
    /// Each engine's, in the order of the methods.
    pub engines: Vec<EngineTimes>,
    /// FJS's with a list of its moves.
    pub moves: MovesTimes,
    /// Those of `memmem`.
    pub memmem: f64,
}
