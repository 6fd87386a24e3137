//! The whole run: every case is made and checked, and then all are timed, in passes over all of them, so that a disturbance of the machine meets no
//! case in every pass.

use crate::books::{self, BookTimes, Libretto};
use crate::check::Checker;
use crate::cuts::{self, CutTimes};
use crate::finds::{self, ClassTimes};
use crate::folding::{self, FoldingTimes};
use crate::growth;
use crate::lent::Lent;
use crate::phrases::Kind;
use crate::random::Random;
use crate::sides::{Case, EngineTimes};
use crate::tables;
use crate::texts::{Family, Text};

/// The passes over all cases.
pub const PASSES: usize = 4;

/// The rounds of a case in each pass.
pub const ROUNDS: usize = 10;

/// The rounds of a pass where the sides have no rival and only their growth is looked at.
const GROWTH_ROUNDS: usize = 4;

/// All that a run measured.
pub struct Results {
    /// Whole finds, class by class.
    pub classes: Vec<ClassResult>,
    /// Tables alone, by the phrase's length: the times of each engine.
    pub tables: Vec<(usize, Vec<EngineTimes>)>,
    /// Late cuts.
    pub cuts: Vec<CutResult>,
    /// Cue books.
    pub books: Vec<BookResult>,
    /// A text of 32,768 bytes folded by each page.
    pub folding: FoldingTimes,
    /// The time of one find by family, engine and the text's length.
    pub by_n: Vec<Grown>,
    /// The time of one find by family, engine and the phrase's length.
    pub by_m: Vec<Grown>,
    /// The calls that were found equal to the library's before the clock started.
    pub checked: u64,
}

/// A class with its times.
pub struct ClassResult {
    /// The text's family.
    pub family: Family,
    /// The text's length.
    pub length: usize,
    /// The kind of the phrases.
    pub kind: Kind,
    /// The class in words.
    pub name: String,
    /// Its times.
    pub times: ClassTimes,
}

/// A late cut with its times.
pub struct CutResult {
    /// The kind of the phrases.
    pub kind: Kind,
    /// The letters of the stretch and of what comes in its place.
    pub lengths: (usize, usize),
    /// The places of all phrases in the old text.
    pub places: usize,
    /// Its times.
    pub times: CutTimes,
}

/// A book with its times.
pub struct BookResult {
    /// The lengths of its phrases, in words.
    pub phrases: &'static str,
    /// The most time of a resolve, in times of as many full finds by FJS in C, where there is such a goal.
    pub goal: Option<f64>,
    /// Its length in bytes.
    pub length: usize,
    /// How often the text is read.
    pub groups: usize,
    /// Its times.
    pub times: BookTimes,
}

/// How a family's times grow.
pub struct Grown {
    /// The family.
    pub family: Family,
    /// The time of one find in nanoseconds, by engine and then by length.
    pub times: Vec<Vec<f64>>,
}

/// Measures everything, and says on the standard error how far it has come.
pub fn everything() -> Results {
    let mut checker = Checker::new();
    let mut lent = Lent::dirty(&mut Random::new(2));
    let classes = finds(&mut checker, &mut lent);
    let tables = tables(&mut checker, &mut lent);
    let cuts = cuts(&mut lent);
    let (books, folding) = books(&mut lent);
    let texts = growth::texts();
    let by_n = grown(&texts, growth::cases_by_n, &mut checker, &mut lent);
    let by_m = grown(&texts, growth::cases_by_m, &mut checker, &mut lent);
    Results { classes, tables, cuts, books, folding, by_n, by_m, checked: checker.checked() }
}

fn finds(checker: &mut Checker, lent: &mut Lent) -> Vec<ClassResult> {
    let texts = finds::texts();
    let classes = finds::classes(&texts, checker);
    let mut contests: Vec<finds::Contest> = classes.iter().map(finds::Contest::new).collect();
    for pass in 1..=PASSES {
        eprintln!("finds in {} classes, pass {pass} of {PASSES}", classes.len());
        contests.iter_mut().for_each(|contest| contest.run(ROUNDS, lent));
    }
    let result = |(class, contest): (&finds::Class, &finds::Contest)| ClassResult {
        family: class.family,
        length: class.length,
        kind: class.kind,
        name: class.name().to_string(),
        times: contest.times(),
    };
    classes.iter().zip(&contests).map(result).collect()
}

fn tables(checker: &mut Checker, lent: &mut Lent) -> Vec<(usize, Vec<EngineTimes>)> {
    let cases = tables::cases(checker);
    let mut contests: Vec<tables::Contest> = cases.iter().map(tables::Contest::new).collect();
    eprintln!("tables alone");
    for _ in 0..PASSES {
        contests.iter_mut().for_each(|contest| contest.run(ROUNDS, lent));
    }
    tables::LENGTHS.into_iter().zip(contests.iter().map(tables::Contest::times)).collect()
}

fn cuts(lent: &mut Lent) -> Vec<CutResult> {
    let cuts = cuts::cuts();
    cuts.iter().for_each(|cut| cut.check(lent));
    let mut contests: Vec<cuts::Contest> = cuts.iter().map(cuts::Contest::new).collect();
    eprintln!("late cuts");
    for _ in 0..PASSES {
        contests.iter_mut().for_each(|contest| contest.run(ROUNDS, lent));
    }
    let result = |(cut, contest): (&cuts::Cut, &cuts::Contest)| CutResult {
        kind: cut.kind,
        lengths: cut.lengths,
        places: cut.places(),
        times: contest.times(),
    };
    cuts.iter().zip(&contests).map(result).collect()
}

fn books(lent: &mut Lent) -> (Vec<BookResult>, FoldingTimes) {
    let text = Libretto::new();
    let books = text.books();
    books.iter().for_each(|book| book.check(&text, lent));
    folding::check(&text);
    let mut contests: Vec<books::Contest> = books.iter().map(|book| books::Contest::new(book, &text)).collect();
    let mut folding = folding::Contest::new(&text);
    eprintln!("cue books and folding");
    for _ in 0..PASSES {
        contests.iter_mut().for_each(|contest| contest.run(ROUNDS, lent));
        folding.run(ROUNDS, lent);
    }
    let result = |(book, contest): (&books::Book, &books::Contest)| BookResult {
        phrases: book.phrases,
        goal: book.goal,
        length: book.bytes.len(),
        groups: book.groups(),
        times: contest.times(),
    };
    (books.iter().zip(&contests).map(result).collect(), folding.times())
}

fn grown<'a>(texts: &'a [Text], cases: impl Fn(&'a Text, &mut Checker) -> Vec<Case<'a>>, checker: &mut Checker, lent: &mut Lent) -> Vec<Grown> {
    let all: Vec<Vec<Case>> = texts.iter().map(|text| cases(text, checker)).collect();
    let mut contests: Vec<growth::Contest> = all.iter().map(|cases| growth::Contest::new(cases)).collect();
    eprintln!("growth");
    for _ in 0..PASSES {
        contests.iter_mut().for_each(|contest| contest.run(GROWTH_ROUNDS, lent));
    }
    texts.iter().zip(&contests).map(|(text, contest)| Grown { family: text.family, times: contest.times() }).collect()
}
