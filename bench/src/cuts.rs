//! Late cuts: a phrase's list made for the text after a cut, beside the same in C and a fresh find.

use crate::clock::{rounds, Side};
use crate::lent::Lent;
use crate::phrases::Kind;
use crate::statistics::least;
use crate::texts::{Family, Text};
use crate::twins::{Build, BUILDS};
use libretto::{find_all, find_raw, relist_raw, Method, TEXT_MAX};
use std::hint::black_box;
use std::ops::Range;

/// The kinds of phrase that are cut.
const KINDS: [Kind; 4] = [Kind::Letter, Kind::Word, Kind::Line, Kind::Recitative];

/// The lengths of the stretch and of the new letters: a line exchanged, and a whole scene.
const LENGTHS: [(usize, usize); 2] = [(100, 120), (4000, 3900)];

/// A cut of a text, and the lists of some phrases in it.
pub struct Cut {
    /// The kind of the phrases.
    pub kind: Kind,
    /// The letters of the stretch and of what comes in its place.
    pub lengths: (usize, usize),
    text: Vec<u8>,
    stretch: Range<usize>,
    letters: Vec<u8>,
    new: Vec<u8>,
    phrases: Vec<(Vec<u8>, Vec<u32>)>,
}

/// All cuts. The texts leave room for the new letters, which are letters of the same verse.
pub fn cuts() -> Vec<Cut> {
    let verse = Text::new(Family::Verse, TEXT_MAX);
    let text = Text { family: Family::Verse, letters: verse.letters[..TEXT_MAX - 200].to_vec() };
    LENGTHS.iter().flat_map(|&lengths| KINDS.map(|kind| Cut::new(kind, lengths, &text))).collect()
}

impl Cut {
    fn new(kind: Kind, lengths: (usize, usize), text: &Text) -> Cut {
        let start = text.letters.len() / 2;
        let stretch = start..start + lengths.0;
        let letters = text.letters[1000..1000 + lengths.1].to_vec();
        let new = [&text.letters[..stretch.start], &letters, &text.letters[stretch.end..]].concat();
        let listed = |phrase: Vec<u8>| {
            let list = find_all(Method::Fjs, &phrase, &text.letters).expect("phrase and text keep the limits");
            (phrase, list)
        };
        let phrases = kind.phrases(text).into_iter().map(listed).collect();
        Cut { kind, lengths, text: text.letters.clone(), stretch, letters, new, phrases }
    }

    /// The places of all phrases in the old text.
    pub fn places(&self) -> usize {
        self.phrases.iter().map(|(_, list)| list.len()).sum()
    }

    /// The library's call for each phrase.
    fn library(&self, mut each: impl FnMut(u32, &[u32]), lent: &mut Lent) {
        for (phrase, list) in &self.phrases {
            let (start, end) = (self.stretch.start, self.stretch.end);
            let raw = relist_raw(phrase, &self.text, list, start, end, &self.letters, &mut lent.moves);
            each(raw.refusal + raw.number, &lent.moves);
        }
    }

    /// The C twin's call for each phrase.
    fn twin(&self, build: &Build, mut each: impl FnMut(u32, &[u32]), lent: &mut Lent) {
        for (phrase, list) in &self.phrases {
            let answer = build.relist(phrase, &self.text, list, self.stretch.clone(), &self.letters, &mut lent.moves);
            each(answer.refusal + answer.number, &lent.moves);
        }
    }

    /// Ends the program unless library and twins give the list of a fresh find in the new text.
    pub fn check(&self, lent: &mut Lent) {
        let due: Vec<Vec<u32>> =
            self.phrases.iter().map(|(phrase, _)| find_all(Method::Fjs, phrase, &self.new).expect("it keeps the limits")).collect();
        let judge = |side: &str, given: Vec<Vec<u32>>| assert_eq!(given, due, "{} {:?}: the list by {side}", self.kind.name(), self.lengths);
        let mut given = Vec::new();
        self.library(|total, answer| given.push(answer[..total as usize].to_vec()), lent);
        judge("the library", given);
        for build in &BUILDS {
            let mut given = Vec::new();
            self.twin(build, |total, answer| given.push(answer[..total as usize].to_vec()), lent);
            judge("C", given);
        }
    }
}

/// The sides of one cut.
pub struct Contest<'a> {
    library: Side<'a>,
    twins: Vec<Side<'a>>,
    finding: Side<'a>,
}

impl<'a> Contest<'a> {
    /// The library, its twins, and a find by method 4 in the new text.
    pub fn new(cut: &'a Cut) -> Contest<'a> {
        let keep = |total, _: &[u32]| {
            black_box(total);
        };
        let twin = |build: &'static Build| Side::new(move |lent: &mut Lent| cut.twin(build, keep, lent));
        let finding = Side::new(|lent: &mut Lent| {
            for (phrase, _) in &cut.phrases {
                black_box(find_raw(Method::Fjs.number(), phrase, &cut.new, &mut lent.scratch, &mut lent.moves));
            }
        });
        Contest { library: Side::new(move |lent| cut.library(keep, lent)), twins: BUILDS.iter().map(twin).collect(), finding }
    }

    /// So many rounds of all sides.
    pub fn run(&mut self, count: usize, lent: &mut Lent) {
        let sides = std::iter::once(&mut self.library).chain(&mut self.twins).chain(std::iter::once(&mut self.finding));
        rounds(&mut sides.collect::<Vec<_>>(), count, lent);
    }

    /// The best times so far.
    pub fn times(&self) -> CutTimes {
        CutTimes { library: self.library.best(), twin: least(self.twins.iter().map(Side::best)), finding: self.finding.best() }
    }
}

/// The times of one cut for all its phrases, in nanoseconds.
#[derive(Clone, Copy, Debug)]
pub struct CutTimes {
    /// The library.
    pub library: f64,
    /// The best build of the C twin.
    pub twin: f64,
    /// A find by method 4 in the new text.
    pub finding: f64,
}
