//! Finding by FJS with a list of the window's moves, for whoever wants to see why the window jumped.

use crate::{ffi, Method, Refusal, PHRASE_MAX, TEXT_MAX};
use std::fmt;

/// The entries of a move in a lent list: the old start, the new start, and the rule's number.
pub const MOVE_ENTRIES: usize = 3;

/// The rule by which FJS moves its window on.
#[derive(Clone, Copy, Debug, PartialEq, Eq, Hash)]
#[repr(u32)]
pub enum Rule {
    /// Nothing was known to be equal and the last letter differed: by the text letter after the window.
    Sunday = 1,
    /// Letters were compared left to right: by the borders of the phrase.
    Kmp = 2,
}

impl Rule {
    /// The rule's number in a list of moves.
    ///
    /// ```
    /// assert_eq!(libretto::Rule::Kmp.number(), 2);
    /// ```
    pub const fn number(self) -> u32 {
        self as u32
    }

    /// The rule of a number in a list of moves; other numbers than 1 and 2 have none.
    ///
    /// ```
    /// use libretto::Rule;
    /// assert_eq!(Rule::from_number(1), Some(Rule::Sunday));
    /// assert_eq!(Rule::from_number(3), None);
    /// ```
    pub const fn from_number(number: u32) -> Option<Rule> {
        match number {
            1 => Some(Rule::Sunday),
            2 => Some(Rule::Kmp),
            _ => None,
        }
    }

    /// The rule's name.
    pub const fn name(self) -> &'static str {
        match self {
            Rule::Sunday => "Sunday",
            Rule::Kmp => "KMP",
        }
    }
}

impl fmt::Display for Rule {
    fn fmt(&self, f: &mut fmt::Formatter<'_>) -> fmt::Result {
        f.pad(self.name())
    }
}

/// A move of the window: from which start to which, both counted from 0, and by which rule.
#[derive(Clone, Copy, Debug, PartialEq, Eq, Hash)]
pub struct Move {
    /// The start of the window that moved.
    pub old: u32,
    /// The start that it moved to. After the last move the window may pass the text's end.
    pub new: u32,
    /// The rule that moved it.
    pub rule: Rule,
}

/// What [`find_moves`] gives back where the call was not refused.
#[derive(Clone, Copy, Debug, PartialEq, Eq, Hash)]
pub struct MovesFinding {
    /// The number of all occurrences, also where the list is shorter.
    pub total: u32,
    /// The letter comparisons that the engine made.
    pub comparisons: u32,
    /// The number of all moves, also where the list of moves is shorter.
    pub moves: u32,
}

/// What the library's find with moves gives back, as it stands in the C interface.
#[derive(Clone, Copy, Debug, PartialEq, Eq, Hash)]
#[repr(C)]
pub struct RawMovesFinding {
    /// The refusal's number; 0 if the call was not refused.
    pub refusal: u32,
    /// The number of all occurrences; 0 if the call was refused.
    pub total: u32,
    /// The letter comparisons that the engine made; 0 if the call was refused.
    pub comparisons: u32,
    /// The number of all moves; 0 if the call was refused.
    pub moves: u32,
}

/// Finds as [`find`](crate::find) does by [`Method::Fjs`], and lists the moves of the window too, [`MOVE_ENTRIES`] numbers each: the old start, the
/// new start, both counted from 0, and the rule's number.
///
/// Afterwards the list of moves holds the first whole moves that fit; its entries past those keep their values, also one or two at its end that hold
/// no whole move. The number of moves is full also where the list is shorter, and a short list is no refusal. The last move may pass the text's end;
/// where no letter follows the window for Sunday's rule, the engine stops, and that is no move. A refused call leaves all as it was.
///
/// ```
/// use libretto::{find_moves, MovesFinding};
///
/// let (mut scratch, mut list, mut moves) = ([0; 260], [9; 2], [9; 8]);
/// let finding = find_moves(b"aba", b"bbaba", &mut scratch, &mut list, &mut moves)?;
/// assert_eq!(finding, MovesFinding { total: 1, comparisons: 6, moves: 3 });
/// assert_eq!(list, [2, 9]);
/// assert_eq!(moves, [0, 1, 2, 1, 2, 1, 9, 9]);
/// # Ok::<(), libretto::Refusal>(())
/// ```
pub fn find_moves(phrase: &[u8], text: &[u8], scratch: &mut [u16], list: &mut [u32], moves: &mut [u32]) -> Result<MovesFinding, Refusal> {
    let raw = find_moves_raw(phrase, text, scratch, list, moves);
    Refusal::check(raw.refusal)?;
    Ok(MovesFinding { total: raw.total, comparisons: raw.comparisons, moves: raw.moves })
}

/// [`find_moves`] with the refusal's number in place of a [`Refusal`].
///
/// ```
/// let raw = libretto::find_moves_raw(b"", b"ababa", &mut [], &mut [], &mut []);
/// assert_eq!((raw.refusal, raw.total, raw.comparisons, raw.moves), (2, 0, 0, 0));
/// ```
pub fn find_moves_raw(phrase: &[u8], text: &[u8], scratch: &mut [u16], list: &mut [u32], moves: &mut [u32]) -> RawMovesFinding {
    ffi::find_moves(phrase, text, scratch, list, moves)
}

/// All moves of the window, by [`find_moves`]. The memory that the engine needs is allocated here.
///
/// ```
/// use libretto::{find_moves_all, Move, Rule};
///
/// let moves = find_moves_all(b"aba", b"bbaba")?;
/// assert_eq!(moves[1], Move { old: 1, new: 2, rule: Rule::Sunday });
/// assert_eq!(moves.len(), 3);
/// # Ok::<(), libretto::Refusal>(())
/// ```
pub fn find_moves_all(phrase: &[u8], text: &[u8]) -> Result<Vec<Move>, Refusal> {
    // What is longer than the limits is refused, so no more than the limits need is allocated. Each move has a start of its own within the text.
    let m = phrase.len().min(PHRASE_MAX);
    let n = text.len().min(TEXT_MAX);
    let mut scratch = vec![0; Method::Fjs.scratch_entries(m)];
    let mut numbers = vec![0; MOVE_ENTRIES * (n + 1).saturating_sub(m)];
    let finding = find_moves(phrase, text, &mut scratch, &mut [], &mut numbers)?;
    numbers.truncate(MOVE_ENTRIES * finding.moves as usize);
    let rule = |number| Rule::from_number(number).expect("the library lists 1 and 2 alone");
    Ok(numbers.chunks_exact(MOVE_ENTRIES).map(|entries| Move { old: entries[0], new: entries[1], rule: rule(entries[2]) }).collect())
}

#[cfg(test)]
mod tests {
    use super::*;

    #[test]
    fn moves_of_an_example_run() {
        let [sunday, kmp] = [Rule::Sunday, Rule::Kmp];
        let due = [(0, 2, sunday), (2, 4, kmp), (4, 7, kmp), (7, 9, sunday), (9, 12, kmp)];
        assert_eq!(find_moves_all(b"abaaca", b"abababcababbbca"), Ok(due.map(|(old, new, rule)| Move { old, new, rule }).to_vec()));
        assert_eq!(find_moves_all(b"ab", b"a"), Ok(vec![]));
        assert_eq!(find_moves_all(b"a", &[b'a'; 32_768]).map(|moves| moves.len()), Ok(32_768));
    }

    #[test]
    fn refusals_are_passed_on() {
        assert_eq!(find_moves_all(b"", b"a"), Err(Refusal::NoPhrase));
        assert_eq!(find_moves_all(&[b'a'; 1025], b"a"), Err(Refusal::LongPhrase));
        assert_eq!(find_moves_all(b"a", &[b'a'; 32_769]), Err(Refusal::LongText));
        assert_eq!(find_moves(b"abc", b"abc", &mut [0; 259], &mut [], &mut []), Err(Refusal::ShortScratch));
    }

    #[test]
    fn rules_have_numbers_and_names() {
        for (rule, shown) in [(Rule::Sunday, "1 Sunday"), (Rule::Kmp, "2 KMP")] {
            assert_eq!(format!("{} {rule}", rule.number()), shown);
            assert_eq!(Rule::from_number(rule.number()), Some(rule));
        }
        assert_eq!([0, 3].map(Rule::from_number), [None, None]);
    }
}
