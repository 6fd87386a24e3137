//! The sides of a find: the library, its C twins, the reference and `memmem`, all over the same phrases and texts.

use crate::clock::Side;
use crate::lent::Lent;
use crate::statistics::{largest, least};
use crate::twins::{self, Build, Placement, BUILDS, PLACEMENTS};
use libretto::Method;
use std::hint::black_box;

/// The rounds in which the reference takes part; it is many times slower than the rest, and nothing hangs on its last per cent.
const REFERENCE_SLICES: u32 = 4;

/// What one call of a side does: it seeks each phrase in each text.
pub struct Case<'a> {
    /// The name by which a failed check tells the case.
    pub name: String,
    /// The phrases, taken in turn, so that each find meets the tables of another phrase in its scratch.
    pub phrases: Vec<Vec<u8>>,
    /// The texts.
    pub texts: Vec<&'a [u8]>,
}

impl Case<'_> {
    /// Calls the find for each phrase in each text.
    fn each(&self, mut find: impl FnMut(&[u8], &[u8])) {
        for phrase in &self.phrases {
            for text in &self.texts {
                find(phrase, text);
            }
        }
    }
}

/// The library's side.
pub fn library<'a>(method: Method, case: &'a Case<'a>) -> Side<'a> {
    Side::new(move |lent| {
        case.each(|phrase, text| {
            black_box(libretto::find_raw(method.number(), phrase, text, &mut lent.scratch, &mut lent.list));
        })
    })
}

/// The library's side in one placement of its code.
fn placed<'a>(placement: &'static Placement, method: Method, case: &'a Case<'a>) -> Side<'a> {
    Side::new(move |lent| {
        case.each(|phrase, text| {
            black_box(placement.find(method, phrase, text, lent));
        })
    })
}

/// The side of one build of the C twin.
fn twin<'a>(build: &'static Build, method: Method, case: &'a Case<'a>) -> Side<'a> {
    Side::new(move |lent| {
        case.each(|phrase, text| {
            black_box(build.find(method, phrase, text, lent));
        })
    })
}

/// The sides of a find by FJS with a list of its moves, all as linked: the library's, its twins', and the library's find without that list.
pub struct MovesSides<'a> {
    library: Side<'a>,
    twins: Vec<Side<'a>>,
    plain: Side<'a>,
}

impl<'a> MovesSides<'a> {
    /// The sides that take part in a case.
    pub fn new(case: &'a Case<'a>) -> MovesSides<'a> {
        let with_moves = Side::new(move |lent: &mut Lent| {
            case.each(|phrase, text| {
                black_box(libretto::find_moves_raw(phrase, text, &mut lent.scratch, &mut lent.list, &mut lent.moves));
            })
        });
        let twin = |build: &'static Build| {
            Side::new(move |lent: &mut Lent| {
                case.each(|phrase, text| {
                    black_box(build.find_moves(phrase, text, lent));
                })
            })
        };
        MovesSides { library: with_moves, twins: BUILDS.iter().map(twin).collect(), plain: library(Method::Fjs, case) }
    }

    /// All sides.
    pub fn all(&mut self) -> impl Iterator<Item = &mut Side<'a>> {
        std::iter::once(&mut self.library).chain(&mut self.twins).chain(std::iter::once(&mut self.plain))
    }

    /// The best times so far.
    pub fn times(&self) -> MovesTimes {
        MovesTimes { library: self.library.best(), twin: least(self.twins.iter().map(Side::best)), plain: self.plain.best() }
    }
}

/// The times of a find with a list of moves in nanoseconds, for all phrases in all texts of a case.
#[derive(Clone, Copy, Debug)]
pub struct MovesTimes {
    /// The library where the linker placed it in this program.
    pub library: f64,
    /// The best build of the C twin.
    pub twin: f64,
    /// The library's find without a list of moves, where the linker placed it.
    pub plain: f64,
}

/// The side of `memmem`.
pub fn memmem<'a>(case: &'a Case<'a>) -> Side<'a> {
    Side::new(move |lent| {
        case.each(|phrase, text| {
            black_box(twins::memmem(phrase, text, lent));
        })
    })
}

/// The reference's sides, one for each phrase: it keeps the KMP table of the last phrase it was asked for, and so makes it before the clock starts.
fn references<'a>(method: Method, case: &'a Case<'a>) -> Vec<Side<'a>> {
    let side = |phrase: &'a Vec<u8>| {
        Side::new(move |lent: &mut Lent| {
            for text in &case.texts {
                black_box(reference::find(method.number(), phrase, text, &mut lent.scratch, &mut lent.list));
            }
        })
    };
    case.phrases.iter().map(|phrase| side(phrase).at_most(REFERENCE_SLICES)).collect()
}

/// An engine's sides.
pub struct EngineSides<'a> {
    library: Side<'a>,
    placed: Vec<Side<'a>>,
    twins: Vec<Side<'a>>,
    references: Vec<Side<'a>>,
}

impl<'a> EngineSides<'a> {
    /// The library, as the linker placed it and in other placements, and its twins.
    pub fn new(method: Method, case: &'a Case<'a>) -> EngineSides<'a> {
        let placed = PLACEMENTS.iter().map(|placement| placed(placement, method, case)).collect();
        let twins = BUILDS.iter().map(|build| twin(build, method, case)).collect();
        EngineSides { library: library(method, case), placed, twins, references: Vec::new() }
    }

    /// The library, its twins and the reference.
    pub fn with_reference(method: Method, case: &'a Case<'a>) -> EngineSides<'a> {
        EngineSides { references: references(method, case), ..EngineSides::new(method, case) }
    }

    /// All sides, the library beside its twins.
    pub fn all(&mut self) -> impl Iterator<Item = &mut Side<'a>> {
        std::iter::once(&mut self.library).chain(&mut self.placed).chain(&mut self.twins).chain(&mut self.references)
    }

    /// The best times so far.
    pub fn times(&self) -> EngineTimes {
        EngineTimes {
            library: least(self.placed.iter().map(Side::best)).min(self.library.best()),
            linked: self.library.best(),
            twin: least(self.twins.iter().map(Side::best)),
            worst_twin: largest(self.twins.iter().map(Side::best)),
            reference: self.references.iter().map(Side::best).sum(),
        }
    }
}

/// An engine's times in nanoseconds, for all phrases in all texts of a case.
#[derive(Clone, Copy, Debug)]
pub struct EngineTimes {
    /// The library in the best placement of its code.
    pub library: f64,
    /// The library where the linker placed it in this program.
    pub linked: f64,
    /// The best build of the C twin.
    pub twin: f64,
    /// The worst build of the C twin, which differs from the best in the placement of code alone.
    pub worst_twin: f64,
    /// The reference; 0 where it takes no part.
    pub reference: f64,
}

impl EngineTimes {
    /// The library's time in twin's times.
    pub fn ratio(&self) -> f64 {
        self.library / self.twin
    }
}
