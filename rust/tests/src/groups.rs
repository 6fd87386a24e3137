//! The groups that cues are resolved in, and what a resolve of cues must come to and answer by them.

use crate::books::{book, Cue};
use crate::evenings::{all_resolved, some_day, Evening};
use crate::pages::PAGES;
use crate::roles::some_resolving;
use crate::verses::{place_of, rising_of_lengths, total, verse, ALPHABETS};
use crate::{compare_resolve, Lengths, Random};
use libretto::RawResolving;

/// The most cues and the most phrase bytes of a group.
pub const GROUP_CUES: usize = 64;
pub const GROUP_BYTES: usize = 4096;

/// The number, from 1, of each cue's group: a cue that would be the 65th of its group, or bring it past 4,096 phrase bytes, begins the next.
pub fn group_numbers(cues: &[Cue]) -> Vec<usize> {
    let (mut number, mut count, mut bytes) = (1, 0, 0);
    let mut take = |cue: &Cue| {
        if count == GROUP_CUES || bytes + cue.phrase.len() > GROUP_BYTES {
            (number, count, bytes) = (number + 1, 0, 0);
        }
        (count, bytes) = (count + 1, bytes + cue.phrase.len());
        number
    };
    cues.iter().map(&mut take).collect()
}

/// What a resolve of cues that are all resolved comes to: all stand in the text and run forward, or the first that does not, by its index.
#[derive(Clone, Copy, Debug, PartialEq, Eq)]
pub enum Outcome {
    Resolved,
    /// The cue's occurrence does not exist.
    Missing(usize),
    /// The cue's place is not above that of the cue before it.
    Backward(usize),
}

impl Outcome {
    /// What these cues come to in the text, by brute force.
    pub fn of(page: u32, cues: &[Cue], text: &[u8]) -> Outcome {
        Outcome::of_places(&cues.iter().map(|cue| place_of(page, cue, text)).collect::<Vec<_>>())
    }

    /// What cues at these places come to; a missing one has none.
    pub fn of_places(places: &[Option<usize>]) -> Outcome {
        let missing = places.iter().position(Option::is_none).unwrap_or(places.len());
        // All cues before the missing one have a place.
        match places[..missing].windows(2).position(|pair| pair[1] <= pair[0]) {
            Some(before) => Outcome::Backward(before + 1),
            None if missing < places.len() => Outcome::Missing(missing),
            None => Outcome::Resolved,
        }
    }

    /// The answer of these cues in a text of n letters.
    pub fn answer(self, cues: &[Cue], n: usize) -> RawResolving {
        let groups = group_numbers(cues);
        let refused = |refusal, cue| RawResolving { refusal, number: cue as u32, reads: (n * groups[cue]) as u32 };
        match self {
            Outcome::Resolved => RawResolving { refusal: 0, number: cues.len() as u32, reads: (n * groups.last().copied().unwrap_or(0)) as u32 },
            Outcome::Missing(cue) => refused(12, cue),
            Outcome::Backward(cue) => refused(15, cue),
        }
    }
}

/// Texts with cues that run forward through them in four groups, by the number of cues and by the bytes, and their pages.
pub fn books_of_four_groups(random: &mut Random) -> Vec<(u32, Vec<u8>, Vec<Cue>)> {
    let lengths = [vec![3; 200], [60, 70, 80].repeat(60), [1000, 900, 1024, 1, 500].repeat(4)];
    let mut book = |(index, lengths): (usize, &Vec<usize>)| {
        let page = PAGES[index % 2];
        let text = [verse(page, ALPHABETS[6], 700, random), random.word(4, 1100)].concat();
        let cues = rising_of_lengths(page, &text, lengths, random);
        assert_eq!(group_numbers(&cues).last(), Some(&4), "phrases of {lengths:?}");
        (page, text, cues)
    };
    lengths.iter().enumerate().map(&mut book).collect()
}

/// Cues of one phrase that stand at each letter of a text of letters a in turn.
pub fn letters(count: usize) -> Vec<Cue> {
    (1..=count).map(|ordinal| Cue::new(b"a", ordinal as u16, b"")).collect()
}

/// What the resolver answers.
pub fn answer(refusal: u32, number: usize, reads: usize) -> RawResolving {
    RawResolving { refusal, number: number as u32, reads: reads as u32 }
}

/// The cue with the ordinal after its phrase's last occurrence in the text.
pub fn past_the_last(page: u32, cue: &Cue, text: &[u8]) -> Cue {
    Cue { ordinal: total(page, &cue.phrase, text) as u16 + 1, ..cue.clone() }
}

/// Resolves the cues for a role and on a day for which all of them are resolved, in memory that is just long enough or somewhat longer.
pub fn resolve(page: u32, cues: &[Cue], text: &[u8], random: &mut Random) -> RawResolving {
    let (role, day) = (some_resolving(random), some_day(random));
    let lengths = Lengths::enough(text.len(), cues.len()).or_more(random);
    compare_resolve(role, day.into(), page, &book(&all_resolved(role, cues, day, random)), text, lengths, random.next())
}

/// Resolves the cues of an evening, which come to this, with the resolved ones counted.
#[track_caller]
pub fn resolve_evening(outcome: Outcome, page: u32, evening: &Evening, text: &[u8], random: &mut Random) {
    let resolved: Vec<Cue> = evening.resolved.iter().map(|&index| evening.cues[index].clone()).collect();
    let lengths = Lengths::enough(text.len(), resolved.len()).or_more(random);
    let answer = compare_resolve(evening.role, evening.day.into(), page, &evening.book(), text, lengths, random.next());
    let mut due = outcome.answer(&resolved, text.len());
    if due.refusal != 0 {
        due.number = evening.number(due.number as usize) as u32;
    }
    assert_eq!(answer, due, "page {page}, {outcome:?}, {evening:?} in \"{}\"", text.escape_ascii());
}

/// Resolves cues that come to this, on an evening on which they are all resolved and others in the book may not be.
#[track_caller]
pub fn resolve_to(outcome: Outcome, page: u32, cues: &[Cue], text: &[u8], random: &mut Random) {
    let evening = Evening::any(cues, random);
    resolve_evening(outcome, page, &evening, text, random);
}

/// Resolves cues that all stand in the text and run forward.
#[track_caller]
pub fn resolve_rising(page: u32, cues: &[Cue], text: &[u8], random: &mut Random) {
    resolve_to(Outcome::Resolved, page, cues, text, random);
}

/// Resolves cues of which this one is the first fault: it does not stand in the text.
#[track_caller]
pub fn resolve_missing(page: u32, cues: &[Cue], missing: usize, text: &[u8], random: &mut Random) {
    resolve_to(Outcome::Missing(missing), page, cues, text, random);
}

/// Resolves cues of which this one is the first fault: its place is not above that of the cue before it.
#[track_caller]
pub fn resolve_backward(page: u32, cues: &[Cue], backward: usize, text: &[u8], random: &mut Random) {
    resolve_to(Outcome::Backward(backward), page, cues, text, random);
}
