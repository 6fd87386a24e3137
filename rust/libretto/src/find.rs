//! Finding by the eight engines.

use crate::{ffi, Refusal, PHRASE_MAX, TEXT_MAX};
use std::fmt;

/// The engines, with their method numbers.
#[derive(Clone, Copy, Debug, PartialEq, Eq, Hash)]
#[repr(u32)]
pub enum Method {
    /// Each start in turn, left to right.
    Naive = 0,
    /// Knuth, Morris and Pratt: left to right, never going back in the text; at most 2n − m comparisons.
    Kmp = 1,
    /// Horspool: right to left, moving by the text letter under the phrase's end.
    Horspool = 2,
    /// Sunday: left to right, moving by the text letter after the window.
    Sunday = 3,
    /// Franek, Jennings and Smyth: Sunday's moves while nothing is matched, those of KMP otherwise; at most 3n − 2m comparisons.
    Fjs = 4,
    /// The text letter under the phrase's end gives the move, and where the phrase lacks it, the letter m places on adds to it.
    DoubleWindow = 5,
    /// Boyer and Moore: right to left, moving by the larger of two values, one of the text letter that differs, one of the letters that are equal.
    BoyerMoore = 6,
    /// FJS as improved in 2019: the letter with the widest gap before it is tried first, and moves the phrase on by that gap where it may.
    ImprovedFjs = 7,
}

impl Method {
    /// All engines, in the order of their numbers.
    pub const ALL: [Method; 8] =
        [Method::Naive, Method::Kmp, Method::Horspool, Method::Sunday, Method::Fjs, Method::DoubleWindow, Method::BoyerMoore, Method::ImprovedFjs];

    /// The method number.
    ///
    /// ```
    /// assert_eq!(libretto::Method::Fjs.number(), 4);
    /// ```
    pub const fn number(self) -> u32 {
        self as u32
    }

    /// The scratch entries that the engine needs for a phrase of `m` bytes.
    ///
    /// ```
    /// use libretto::Method;
    /// assert_eq!(Method::Fjs.scratch_entries(3), 260);
    /// assert_eq!(Method::DoubleWindow.scratch_entries(3), 256);
    /// assert_eq!(Method::BoyerMoore.scratch_entries(3), 259);
    /// assert_eq!(Method::ImprovedFjs.scratch_entries(3), 264);
    /// ```
    pub const fn scratch_entries(self, m: usize) -> usize {
        match self {
            Method::Naive => 0,
            Method::Kmp => m.saturating_add(1),
            Method::Horspool | Method::Sunday | Method::DoubleWindow => 256,
            Method::Fjs => m.saturating_add(257),
            Method::BoyerMoore => m.saturating_add(256),
            Method::ImprovedFjs => m.saturating_mul(2).saturating_add(258),
        }
    }

    /// The engine's name: the word that the finder program prints at the front of its line.
    pub const fn name(self) -> &'static str {
        match self {
            Method::Naive => "naive",
            Method::Kmp => "kmp",
            Method::Horspool => "horspool",
            Method::Sunday => "sunday",
            Method::Fjs => "fjs",
            Method::DoubleWindow => "double",
            Method::BoyerMoore => "bm",
            Method::ImprovedFjs => "improved",
        }
    }
}

impl fmt::Display for Method {
    fn fmt(&self, f: &mut fmt::Formatter<'_>) -> fmt::Result {
        f.pad(self.name())
    }
}

/// What a find that was not refused gives back.
#[derive(Clone, Copy, Debug, PartialEq, Eq, Hash)]
pub struct Finding {
    /// The number of all occurrences, also where the list is shorter.
    pub total: u32,
    /// The letter comparisons that the engine made.
    pub comparisons: u32,
}

/// What the library's find gives back, as it stands in the C interface.
#[derive(Clone, Copy, Debug, PartialEq, Eq, Hash)]
#[repr(C)]
pub struct RawFinding {
    /// The refusal's number; 0 if the call was not refused.
    pub refusal: u32,
    /// The number of all occurrences; 0 if the call was refused.
    pub total: u32,
    /// The letter comparisons that the engine made; 0 if the call was refused.
    pub comparisons: u32,
}

/// Finds every place of the phrase in the text, overlapping ones included, counted from 0. Letters are compared as they stand: a capital letter and
/// its small one differ. To find whatever the case, fold phrase and text first by one page ([`fold_text`](crate::fold_text)), as the resolver does.
///
/// Afterwards the list holds the first places, rising, up to its length; its entries past those keep their values. A short list is no refusal. The
/// scratch's front holds the method's tables ([`Method::scratch_entries`] of them); its entries past them keep their values. A refused call leaves
/// both as they were.
pub fn find(method: Method, phrase: &[u8], text: &[u8], scratch: &mut [u16], list: &mut [u32]) -> Result<Finding, Refusal> {
    let raw = find_raw(method.number(), phrase, text, scratch, list);
    Refusal::check(raw.refusal)?;
    Ok(Finding { total: raw.total, comparisons: raw.comparisons })
}

/// [`find`] with a method number, which need not be that of an engine, and with the refusal's number in place of a [`Refusal`].
///
/// ```
/// let raw = libretto::find_raw(8, b"aba", b"ababa", &mut [], &mut []);
/// assert_eq!((raw.refusal, raw.total, raw.comparisons), (1, 0, 0));
/// ```
pub fn find_raw(method: u32, phrase: &[u8], text: &[u8], scratch: &mut [u16], list: &mut [u32]) -> RawFinding {
    ffi::find(method, phrase, text, scratch, list)
}

/// All places of the phrase in the text, rising, counted from 0, by [`find`]. The memory that the engine needs is allocated here.
///
/// ```
/// use libretto::{find_all, Method};
/// for method in Method::ALL {
///     assert_eq!(find_all(method, b"la", b"la la, tralala")?, [0, 3, 10, 12]);
/// }
/// # Ok::<(), libretto::Refusal>(())
/// ```
///
/// An editor who joins two acts compares lists: the places in the joined text are the first act's, then those that cross the seam, then the second
/// act's moved up by the length of the first. Each list may come by a method of its own.
///
/// ```
/// use libretto::{find_all, Method};
/// let phrase = b"la la";
/// let (first, second) = (&b"la la l"[..], &b"a la la"[..]);
/// let joined = [first, second].concat();
/// let seam = first.len() as u32;
///
/// let first = find_all(Method::Kmp, phrase, first)?;
/// let second = find_all(Method::DoubleWindow, phrase, second)?;
/// let joined = find_all(Method::Fjs, phrase, &joined)?;
/// let crosses = |place: &u32| *place < seam && seam < place + phrase.len() as u32;
/// let crossing: Vec<u32> = joined.iter().copied().filter(crosses).collect();
/// let moved: Vec<u32> = second.iter().map(|place| place + seam).collect();
///
/// assert_eq!(crossing, [3, 6]);
/// assert_eq!(joined, [first, crossing, moved].concat());
/// # Ok::<(), libretto::Refusal>(())
/// ```
pub fn find_all(method: Method, phrase: &[u8], text: &[u8]) -> Result<Vec<u32>, Refusal> {
    // What is longer than the limits is refused, so no more than the limits need is allocated.
    let m = phrase.len().min(PHRASE_MAX);
    let n = text.len().min(TEXT_MAX);
    let mut scratch = vec![0; method.scratch_entries(m)];
    let mut list = vec![0; (n + 1).saturating_sub(m)];
    let finding = find(method, phrase, text, &mut scratch, &mut list)?;
    list.truncate(finding.total as usize);
    Ok(list)
}

#[cfg(test)]
mod tests {
    use super::*;

    #[test]
    fn every_engine_finds_overlapping_places() {
        for method in Method::ALL {
            assert_eq!(find_all(method, b"aba", b"ababa"), Ok(vec![0, 2]), "{method}");
            assert_eq!(find_all(method, b"ab", b"a"), Ok(vec![]), "{method}");
            assert_eq!(find_all(method, b"a", b""), Ok(vec![]), "{method}");
        }
    }

    #[test]
    fn find_all_passes_refusals_on() {
        for method in Method::ALL {
            assert_eq!(find_all(method, b"", b"a"), Err(Refusal::NoPhrase));
            assert_eq!(find_all(method, &[b'a'; 1025], b"a"), Err(Refusal::LongPhrase));
            assert_eq!(find_all(method, b"a", &[b'a'; 32_769]), Err(Refusal::LongText));
            assert_eq!(find_all(method, b"a", &[b'a'; 32_768]).map(|list| list.len()), Ok(32_768));
        }
        assert_eq!(find(Method::Kmp, b"abc", b"abc", &mut [0; 3], &mut []), Err(Refusal::ShortScratch));
        assert_eq!(find(Method::DoubleWindow, b"abc", b"abc", &mut [0; 255], &mut []), Err(Refusal::ShortScratch));
        assert_eq!(find(Method::BoyerMoore, b"abc", b"abc", &mut [0; 258], &mut []), Err(Refusal::ShortScratch));
        assert_eq!(find(Method::ImprovedFjs, b"abc", b"abc", &mut [0; 263], &mut []), Err(Refusal::ShortScratch));
    }

    #[test]
    fn numbers_and_names() {
        let names: Vec<String> = Method::ALL.iter().map(|m| format!("{}{m}", m.number())).collect();
        assert_eq!(names, ["0naive", "1kmp", "2horspool", "3sunday", "4fjs", "5double", "6bm", "7improved"]);
    }
}
