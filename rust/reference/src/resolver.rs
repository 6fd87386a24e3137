//! Document 01, "Cue book, folding, lines": the resolver, and "What a refused call hands back", rows 4 to 12. Document 02 (i): the line rule;
//! (iv): the page; (vi): the groups, the reads, and one scratch; (vii): the cues run forward; (viii): the day, and the cues that play; (xiv): the role,
//! and the cues that a guest has.

use crate::roles::{permit, Act};
use crate::{cues, fold, Cue};
use std::ops::Range;

/// The scratch entries that the library states it needs; document 02 (vi) leaves their number to it.
const SCRATCH: usize = 65_535;

/// A page's rule for a letter.
type Rule = fn(u8) -> u8;

/// What is lent to the resolver.
pub struct Lent<'a> {
    pub copy: &'a mut [u8],
    pub scratch: &'a mut [u16],
    pub entries: &'a mut [u32],
}

/// 0, the number of the chosen cues and the reads, or the refusal's number with a cue's number and the reads; and what the lent memory holds afterwards.
pub fn resolve(role: u32, day: u32, page: u32, book: &[u8], text: &[u8], lent: Lent<'_>) -> (u32, u32, u32) {
    let (rule, chosen) = match accepted(role, day, page, book, text.len(), &lent) {
        Ok(accepted) => accepted,
        Err((refusal, cue)) => return (refusal, cue, 0),
    };
    let Lent { copy, scratch, entries } = lent;
    // Finding, forward running and grouping take the chosen cues alone; their numbers are for faults.
    let (numbers, cues): (Vec<usize>, Vec<Cue>) = chosen.into_iter().unzip();

    // The copy's first n bytes are the folded text, and the scratch is 0 throughout, whether a cue meets 12 or 15 or neither.
    let fold_all = |letters: &[u8]| letters.iter().map(|&letter| rule(letter)).collect::<Vec<u8>>();
    let folded = fold_all(text);
    copy[..text.len()].copy_from_slice(&folded);
    scratch.fill(0);

    let (endings, groups) = (endings(text), groups(&cues));
    // n times the groups walked.
    let reads = |walked: usize| (text.len() * walked) as u32;
    let walked_up_to = |k: usize| groups.iter().filter(|group| group.start <= k).count();
    let mut before = None;
    for (k, cue) in cues.iter().enumerate() {
        let found = occurrence(&fold_all(&book[cue.phrase.clone()]), &folded, cue.ordinal);
        // Cue by cue 12 and then 15. The entries of earlier cues stay written; those of this cue and the later ones keep their values. The group of this
        // cue is included.
        let place = match forward(before, found) {
            Ok(place) => place,
            Err(refusal) => return (refusal, numbers[k] as u32, reads(walked_up_to(k))),
        };
        let (line, column) = line_and_column(&endings, place);
        entries[3 * k..3 * k + 3].copy_from_slice(&[place, line, column].map(|number| number as u32));
        before = Some(place);
    }
    (0, cues.len() as u32, reads(groups.len()))
}

/// A page's rule, and the chosen cues, each with its number.
type Accepted = (Rule, Vec<(usize, Cue)>);

/// What is resolved; or the refusals: the role ahead of every other test, then the call's own date, 4 and 5, then 14, then 6, then those of the whole book,
/// then 11, for which nothing is written and nothing is read.
fn accepted(role: u32, day: u32, page: u32, book: &[u8], n: usize, lent: &Lent<'_>) -> Result<Accepted, (u32, u32)> {
    permit(role, Act::Resolve).map_err(|refusal| (refusal, 0))?;
    if day > 36_524 {
        return Err((16, 0));
    }
    if n > 32_768 {
        return Err((4, 0));
    }
    if lent.scratch.len() < SCRATCH {
        return Err((5, 0));
    }
    let rule = fold::rule(page).ok_or((14, 0))?;
    if lent.copy.len() < n {
        return Err((6, 0));
    }
    let chosen = chosen(role, day, cues(book)?);
    // 11 counts the chosen cues.
    if lent.entries.len() < 3 * chosen.len() {
        return Err((11, 0));
    }
    Ok((rule, chosen))
}

/// The cues that are resolved, each with the number by which a fault names it. House cues are passed over for a guest like cues that do not play, and its
/// cue numbers count open cues only; any other number is the index in the book.
fn chosen(role: u32, day: u32, cues: Vec<Cue>) -> Vec<(usize, Cue)> {
    let guest = role == 2;
    let seen = cues.into_iter().filter(|cue| !guest || is_open(cue));
    seen.enumerate().filter(|(_, cue)| plays(cue, day)).collect()
}

/// Whether a cue is open, as it is without the field.
pub fn is_open(cue: &Cue) -> bool {
    cue.house != Some(1)
}

/// Whether a cue plays on this day: its first and last day are both included, and without the field it plays always.
pub fn plays(cue: &Cue, day: u32) -> bool {
    match cue.days {
        Some((first, last)) => first <= day && day <= last,
        None => true,
    }
}

/// The place of a cue, if it was found and is above that of the chosen cue before it; the first one has none before it.
fn forward(before: Option<usize>, found: Option<usize>) -> Result<usize, u32> {
    match (before, found) {
        (_, None) => Err(12),
        (Some(before), Some(place)) if place <= before => Err(15),
        (_, Some(place)) => Ok(place),
    }
}

/// The groups of the cues, each by the indices of its cues: consecutive cues, as many as fit into 64 cues and 4,096 phrase bytes.
pub fn groups(cues: &[Cue]) -> Vec<Range<usize>> {
    let fits = |group: &Range<usize>| group.len() <= 64 && cues[group.clone()].iter().map(|cue| cue.phrase.len()).sum::<usize>() <= 4096;
    let mut groups = Vec::new();
    let mut start = 0;
    while start < cues.len() {
        let mut end = start + 1;
        while end < cues.len() && fits(&(start..end + 1)) {
            end += 1;
        }
        groups.push(start..end);
        start = end;
    }
    groups
}

/// The place of this occurrence; ordinal 1 is the first. Each place in turn is compared with the whole phrase.
fn occurrence(phrase: &[u8], text: &[u8], ordinal: u32) -> Option<usize> {
    (0..text.len()).filter(|&place| text[place..].starts_with(phrase)).nth(ordinal as usize - 1)
}

/// The endings of a text, each by the places that it takes: 10, 13, or the pair 13 10 taken as one.
pub fn endings(text: &[u8]) -> Vec<Range<usize>> {
    let mut endings = Vec::new();
    let mut place = 0;
    while place < text.len() {
        let letters = match text[place..] {
            [13, 10, ..] => 2,
            [10 | 13, ..] => 1,
            _ => 0,
        };
        if letters > 0 {
            endings.push(place..place + letters);
        }
        place += letters.max(1);
    }
    endings
}

/// The line, which is 1 plus the endings wholly before the place, and the column, which is 1 plus the bytes between the last of them, or the text's
/// start, and the place.
pub fn line_and_column(endings: &[Range<usize>], place: usize) -> (usize, usize) {
    let before: Vec<&Range<usize>> = endings.iter().filter(|ending| ending.end <= place).collect();
    let start = before.last().map_or(0, |ending| ending.end);
    (1 + before.len(), 1 + place - start)
}
