//! The resolver: from the cues of a book to their places in a text.

use crate::{ffi, BookError, Page, Refusal, Role, CUES_MAX, DAY_MAX, TEXT_MAX};

/// The entries that the resolver writes for each cue that it resolves: place, line and column.
pub const CUE_ENTRIES: usize = 3;

/// The scratch entries that the resolver needs, the same for all calls.
pub const RESOLVER_SCRATCH: usize = 65_535;

/// Where a cue stands in the text.
#[derive(Clone, Copy, Debug, PartialEq, Eq, Hash)]
pub struct CuePlace {
    /// The place of the occurrence, counted from 0.
    pub place: u32,
    /// 1 plus the endings wholly before the place: a line ends at 10, at 13, or at the pair 13 10, which is one ending.
    pub line: u32,
    /// 1 plus the bytes between the last of these endings, or the text's start, and the place.
    pub column: u32,
}

/// Memory lent to the resolver. What it held before plays no part.
#[derive(Debug)]
pub struct ResolverMemory<'a> {
    /// At least as long as the text. Afterwards its front is the folded text, and its bytes past that keep their values.
    pub copy: &'a mut [u8],
    /// At least [`RESOLVER_SCRATCH`] entries. More are used too, for more rows of a group's table, which changes nothing but the time. Afterwards it is
    /// 0 throughout.
    pub scratch: &'a mut [u16],
    /// At least [`CUE_ENTRIES`] for each cue that is resolved, which are then its place, line and column, one cue behind another. Entries past those keep
    /// their values.
    pub entries: &'a mut [u32],
}

/// What the resolver gives back if it did not refuse.
#[derive(Clone, Copy, Debug, PartialEq, Eq, Hash)]
pub struct Resolving {
    /// The number of cues that are resolved.
    pub cues: usize,
    /// The letters of the text that were read: as many as it has, for each group of cues.
    pub reads: u32,
}

/// What the resolver gives back, as it stands in the C interface.
#[derive(Clone, Copy, Debug, PartialEq, Eq, Hash)]
#[repr(C)]
pub struct RawResolving {
    /// The refusal's number; 0 if the call was not refused.
    pub refusal: u32,
    /// The number of cues that are resolved, or of the cue that was refused, or 0 where no cue was.
    pub number: u32,
    /// The letters of the text that were read; 0 if the call was refused, except with 12 and 15, where the group of the refused cue was read too.
    pub reads: u32,
}

/// Finds the place of each cue of a book that plays on a day in the text and gives the number of these cues, with the letters that were read. The cues
/// that play are those without days and those whose days hold this one (see [`Cue::plays`](crate::Cue::plays)). The operator resolves all of them, and a
/// guest those that are open (see [`Cue::is_house`](crate::Cue::is_house)); all other cues are passed over. The place is that of the occurrence which the
/// cue's ordinal counts, from 1, of its folded phrase in the folded text, overlapping ones included. Both are folded by the page, as
/// [`fold`](crate::fold) does; a text that was folded by it beforehand gives the same places, lines and columns. The cues run forward: each place must be
/// above that of the cue before it that is resolved.
///
/// The cues are resolved in groups, as many one after another as fit into 64 cues and 4,096 phrase bytes, of those that are resolved alone. The phrases of
/// a group are found together, by one walk over the text that reads each of its letters once.
///
/// A refused call leaves the lent memory as it was, except with [`Refusal::NoOccurrence`] and [`Refusal::NotForward`], which are tested cue by cue, in
/// this order: then the entries of the resolved cues before the refused one are written, its own and the later ones keep their values, and the rest is as
/// after success. With these two a guest is told the cue's index among the open cues, whether they play or not. A translator is refused ahead of all else,
/// and a day above [`DAY_MAX`] next. The whole book is read, also the cues that are passed over.
///
/// ```
/// use libretto::{resolve, write_cue, BookError, Days, Page, Refusal, ResolverMemory, Resolving, Role::{Guest, Operator}, RESOLVER_SCRATCH};
///
/// let book = b"\x01\x00\x02la\x02\x00\x02\x00\x02\x03\x00\x02No";
/// let (mut copy, mut scratch, mut entries) = ([0; 5], vec![0; RESOLVER_SCRATCH], [0; 3]);
/// let mut memory = ResolverMemory { copy: &mut copy, scratch: &mut scratch, entries: &mut entries };
///
/// assert_eq!(resolve(Operator, 9569, Page::Latin1, book, b"LA\nla", &mut memory), Ok(Resolving { cues: 1, reads: 5 }));
/// assert_eq!((&*memory.entries, &*memory.copy), (&[3, 2, 1][..], &b"la\nla"[..]));
///
/// let missing = BookError { refusal: Refusal::NoOccurrence, cue: Some(0) };
/// assert_eq!(resolve(Operator, 9569, Page::Latin1, book, b"la", &mut memory), Err(missing));
///
/// // One cue for the first cast and one for the second, which is house only, at one place: only one of them plays on a day.
/// let mut casts = [0; 100];
/// let first = write_cue(Operator, &mut casts, b"la", 1, b"First", Some(Days { first: 9556, last: 9569 }), false).unwrap();
/// let second = write_cue(Operator, &mut casts[first..], b"la", 1, b"Second", Some(Days { first: 9570, last: 9586 }), true).unwrap();
/// for (day, cues, for_guest) in [(9555, 0, 0), (9569, 1, 1), (9570, 1, 0), (9587, 0, 0)] {
///     for (role, cues) in [(Operator, cues), (Guest, for_guest)] {
///         let resolved = resolve(role, day, Page::Latin1, &casts[..first + second], b"LA\nla", &mut memory);
///         assert_eq!(resolved, Ok(Resolving { cues, reads: 5 * cues as u32 }), "day {day}");
///     }
/// }
/// ```
pub fn resolve(role: Role, day: u32, page: Page, book: &[u8], text: &[u8], memory: &mut ResolverMemory<'_>) -> Result<Resolving, BookError> {
    let raw = resolve_raw(role.number(), day, page.number(), book, text, memory);
    let number = raw.number as usize;
    match Refusal::check(raw.refusal) {
        Ok(()) => Ok(Resolving { cues: number, reads: raw.reads }),
        Err(refusal) => Err(BookError { refusal, cue: names_a_cue(refusal, day).then_some(number) }),
    }
}

/// Whether the number of a call that was refused on this day is a cue's: not where the role, the day, the text, the page or the lent memory was refused.
/// The day is tested before the book, so that any other date that is refused is a cue's.
fn names_a_cue(refusal: Refusal, day: u32) -> bool {
    match refusal {
        Refusal::NotAllowed | Refusal::LongText | Refusal::ShortScratch | Refusal::UnknownPage | Refusal::ShortBuffer | Refusal::ShortEntries => {
            false
        }
        Refusal::BadDate => day <= DAY_MAX,
        _ => true,
    }
}

/// [`resolve`] with numbers as role and page, which need not be those of a role and a page, with the refusal's number in place of a [`Refusal`], and with
/// the reads also where a cue's occurrence does not exist or its place is not above that of the cue before it.
///
/// ```
/// use libretto::{resolve_raw, ResolverMemory, RESOLVER_SCRATCH};
///
/// let book = b"\x01\x00\x02la\x02\x00\x02\x00\x02\x03\x00\x02No";
/// let (mut copy, mut scratch, mut entries) = ([0; 5], vec![0; RESOLVER_SCRATCH], [0; 3]);
/// let mut memory = ResolverMemory { copy: &mut copy, scratch: &mut scratch, entries: &mut entries };
/// let raw = resolve_raw(0, 9569, 1, book, b"la,la", &mut memory);
/// assert_eq!((raw.refusal, raw.number, raw.reads), (0, 1, 5));
/// let raw = resolve_raw(0, 9569, 1, book, b"la", &mut memory);
/// assert_eq!((raw.refusal, raw.number, raw.reads), (12, 0, 2));
///
/// // The same cue twice: the second does not stand behind the first.
/// let mut entries = [0; 6];
/// memory.entries = &mut entries;
/// let raw = resolve_raw(0, 9569, 1, &book.repeat(2), b"la,la", &mut memory);
/// assert_eq!((raw.refusal, raw.number, raw.reads, &*memory.entries), (15, 1, 5, &[3, 1, 4, 0, 0, 0][..]));
///
/// let raw = resolve_raw(0, 9569, 2, book, b"la", &mut memory);
/// assert_eq!((raw.refusal, raw.number, raw.reads), (14, 0, 0));
/// let raw = resolve_raw(0, 36_525, 2, book, b"la", &mut memory);
/// assert_eq!((raw.refusal, raw.number, raw.reads), (16, 0, 0));
/// let raw = resolve_raw(3, 36_525, 2, book, b"la", &mut memory);
/// assert_eq!((raw.refusal, raw.number, raw.reads), (19, 0, 0));
/// ```
pub fn resolve_raw(role: u32, day: u32, page: u32, book: &[u8], text: &[u8], memory: &mut ResolverMemory<'_>) -> RawResolving {
    ffi::resolve(role, day, page, book, text, memory)
}

/// The places of all cues of a book that play on a day in the text, and for a guest are open, in the book's order. The memory that the resolver needs is
/// allocated here.
///
/// ```
/// use libretto::{day, resolve_all, CuePlace, Date, Page, Role};
///
/// let today = day(Date { year: 2026, month: 3, day: 14 }).unwrap();
/// let book = b"\x01\x00\x02la\x02\x00\x02\x00\x02\x03\x00\x02No";
/// assert_eq!(resolve_all(Role::Guest, today, Page::Latin1, book, b"la,\nLa")?, [CuePlace { place: 4, line: 2, column: 1 }]);
/// # Ok::<(), libretto::BookError>(())
/// ```
pub fn resolve_all(role: Role, day: u32, page: Page, book: &[u8], text: &[u8]) -> Result<Vec<CuePlace>, BookError> {
    // A longer text is refused, so it needs no memory. There is room for as many cues as a book can have, since a guest may not ask how many there are.
    let mut copy = vec![0; text.len().min(TEXT_MAX)];
    let mut entries = vec![0; CUE_ENTRIES * CUES_MAX];
    let mut scratch = vec![0; RESOLVER_SCRATCH];
    let mut memory = ResolverMemory { copy: &mut copy, scratch: &mut scratch, entries: &mut entries };
    let resolved = resolve(role, day, page, book, text, &mut memory)?;
    let written = entries.chunks_exact(CUE_ENTRIES).take(resolved.cues);
    Ok(written.map(|entry| CuePlace { place: entry[0], line: entry[1], column: entry[2] }).collect())
}

#[cfg(test)]
mod tests {
    use super::*;
    use crate::Role::{Guest, Operator, Translator};
    use crate::{write_cue, Days};

    /// A day on which all cues without days play.
    const DAY: u32 = 9569;

    /// A phrase and an ordinal, and the first and the last day of a cue that has them.
    type DatedCue<'a> = (&'a [u8], u32, Option<(u32, u32)>);

    /// A book of these cues, each open or house only.
    fn marked_book<'a>(cues: impl IntoIterator<Item = (DatedCue<'a>, bool)>) -> Vec<u8> {
        let mut book = vec![0; 10_000];
        let mut end = 0;
        for ((phrase, ordinal, days), house) in cues {
            let days = days.map(|(first, last)| Days { first, last });
            end += write_cue(Operator, &mut book[end..], phrase, ordinal, b"", days, house).unwrap();
        }
        book.truncate(end);
        book
    }

    fn dated_book(cues: &[DatedCue]) -> Vec<u8> {
        marked_book(cues.iter().map(|&cue| (cue, false)))
    }

    /// A book of these phrases and ordinals.
    fn book(cues: &[(&[u8], u32)]) -> Vec<u8> {
        dated_book(&cues.iter().map(|&(phrase, ordinal)| (phrase, ordinal, None)).collect::<Vec<_>>())
    }

    #[test]
    fn accents_and_overlaps() {
        let book = book(&[(b"\n", 1), (b"\xc9T\xe9", 2), (b"x", 1)]);
        let place = |place, line, column| CuePlace { place, line, column };
        for page in Page::ALL {
            assert_eq!(resolve_all(Operator, DAY, page, &book, b"\n\xe9t\xc9T\xe9 X"), Ok(vec![place(0, 1, 1), place(3, 2, 3), place(7, 2, 7)]));
            assert_eq!(resolve_all(Operator, DAY, page, &[], b"la"), Ok(vec![]));
        }
    }

    #[test]
    fn letters_of_page_15() {
        let book = book(&[(b"c\xbdur", 1)]);
        assert_eq!(resolve_all(Operator, DAY, Page::Latin9, &book, b"C\xbcUR"), Ok(vec![CuePlace { place: 0, line: 1, column: 1 }]));
        let missing = BookError { refusal: Refusal::NoOccurrence, cue: Some(0) };
        assert_eq!(resolve_all(Operator, DAY, Page::Latin1, &book, b"C\xbcUR"), Err(missing));
    }

    #[test]
    fn refusals_name_a_cue_where_there_is_one() {
        let book = book(&[(b"la", 1), (b"la", 3)]);
        let refused = |book: &[u8], text: &[u8]| resolve_all(Operator, DAY, Page::Latin1, book, text).unwrap_err();
        let missing = refused(&book, b"la la");
        assert_eq!(missing, BookError { refusal: Refusal::NoOccurrence, cue: Some(1) });
        assert_eq!(missing.to_string(), "cue 1: the cue's occurrence does not exist");
        let not_forward = refused(&[&book[..], &book].concat(), b"la la la");
        assert_eq!(not_forward, BookError { refusal: Refusal::NotForward, cue: Some(2) });
        assert_eq!(not_forward.to_string(), "cue 2: the cue does not stand behind the cue before it");
        let cut = refused(&book[..book.len() - 1], b"la la la");
        assert_eq!(cut, BookError { refusal: Refusal::CutField, cue: Some(1) });
        let long = refused(&book, &[b'a'; TEXT_MAX + 1]);
        assert_eq!(long, BookError { refusal: Refusal::LongText, cue: None });
        assert_eq!(long.to_string(), "the text has more than 32,768 bytes");
    }

    #[test]
    fn short_memory_names_no_cue() {
        let book = book(&[(b"la", 1)]);
        let refused = |copy, scratch, entries| {
            let (mut copy, mut scratch, mut entries) = (vec![7; copy], vec![7; scratch], vec![7; entries]);
            let mut memory = ResolverMemory { copy: &mut copy, scratch: &mut scratch, entries: &mut entries };
            resolve(Operator, DAY, Page::Latin1, &book, b"la", &mut memory).map_err(|refused| (refused.refusal, refused.cue))
        };
        assert_eq!(refused(2, RESOLVER_SCRATCH, CUE_ENTRIES), Ok(Resolving { cues: 1, reads: 2 }));
        assert_eq!(refused(2, RESOLVER_SCRATCH - 1, CUE_ENTRIES), Err((Refusal::ShortScratch, None)));
        assert_eq!(refused(1, RESOLVER_SCRATCH, CUE_ENTRIES), Err((Refusal::ShortBuffer, None)));
        assert_eq!(refused(2, RESOLVER_SCRATCH, CUE_ENTRIES - 1), Err((Refusal::ShortEntries, None)));
    }

    #[test]
    fn reads_count_the_letters_for_each_group() {
        // So many cues count on through the text, and then these ones follow.
        let reads = |cues: u32, more: &[u32], text: &[u8]| {
            let cues: Vec<(&[u8], u32)> = (1..=cues).chain(more.iter().copied()).map(|ordinal| (&b"la"[..], ordinal)).collect();
            let (mut copy, mut scratch, mut entries) = (vec![7; text.len()], vec![7; RESOLVER_SCRATCH], vec![7; CUE_ENTRIES * cues.len()]);
            let raw =
                resolve_raw(0, DAY, 1, &book(&cues), text, &mut ResolverMemory { copy: &mut copy, scratch: &mut scratch, entries: &mut entries });
            (raw.refusal, raw.number, raw.reads)
        };
        let text = b"la".repeat(129);
        assert_eq!([0, 1, 64, 65, 129].map(|cues| reads(cues, &[], &text)), [(0, 0, 0), (0, 1, 258), (0, 64, 258), (0, 65, 516), (0, 129, 774)]);
        assert_eq!(reads(65, &[], b"tra"), (12, 0, 3));
        // The refused cue is the last of a group or the first of the next one, and others follow it.
        assert_eq!([63, 64].map(|cues| reads(cues, &[130, 129], &text)), [(12, 63, 258), (12, 64, 516)]);
        assert_eq!([63, 64].map(|cues| reads(cues, &[cues, 129], &text)), [(15, 63, 258), (15, 64, 516)]);
    }

    #[test]
    fn refusals_that_name_a_cue() {
        for number in [4, 5, 14, 6, 7, 8, 9, 10, 11, 12, 15, 16, 19] {
            let refusal = Refusal::from_number(number).unwrap();
            assert_eq!(names_a_cue(refusal, DAY_MAX), [7, 8, 9, 10, 12, 15, 16].contains(&number), "{refusal}");
        }
        assert!(!names_a_cue(Refusal::BadDate, DAY_MAX + 1));
    }

    #[test]
    fn cues_that_play() {
        // The second cue is the first cast's, the third the second cast's; they stand at one place. The last one is not in the text.
        let book = dated_book(&[(b"la", 1, None), (b"la", 2, Some((5, 7))), (b"la", 2, Some((8, 8))), (b"so", 1, Some((9, 9)))]);
        let places =
            |day| resolve_all(Operator, day, Page::Latin1, &book, b"la la").map(|places| places.iter().map(|at| at.place).collect::<Vec<_>>());
        for (day, due) in [(0, vec![0]), (4, vec![0]), (5, vec![0, 3]), (7, vec![0, 3]), (8, vec![0, 3]), (10, vec![0]), (DAY_MAX, vec![0])] {
            assert_eq!(places(day), Ok(due), "day {day}");
        }
        // Faults name the index among all cues.
        assert_eq!(places(9), Err(BookError { refusal: Refusal::NoOccurrence, cue: Some(3) }));
        assert_eq!(places(DAY_MAX + 1), Err(BookError { refusal: Refusal::BadDate, cue: None }));
        let late = [&book[..], b"\x01\x00\x02la\x02\x00\x02\x00\x02\x03\x00\x00\x04\x00\x04\x00\x02\x00\x01"].concat();
        let refused = resolve_all(Operator, DAY, Page::Latin1, &late, b"la la").unwrap_err();
        assert_eq!(refused, BookError { refusal: Refusal::BadDate, cue: Some(4) });
    }

    #[test]
    fn entries_for_playing_cues_alone() {
        let book = dated_book(&[(b"la", 1, Some((1, 1))), (b"la", 2, Some((1, 2)))]);
        let given = |day, entries| {
            let (mut copy, mut scratch, mut entries) = (vec![7; 5], vec![7; RESOLVER_SCRATCH], vec![7; entries]);
            let mut memory = ResolverMemory { copy: &mut copy, scratch: &mut scratch, entries: &mut entries };
            (resolve(Operator, day, Page::Latin1, &book, b"la la", &mut memory).map_err(|refused| refused.refusal), entries)
        };
        assert_eq!(given(1, 5), (Err(Refusal::ShortEntries), vec![7; 5]));
        assert_eq!(given(1, 6), (Ok(Resolving { cues: 2, reads: 5 }), vec![0, 1, 1, 3, 1, 4]));
        assert_eq!(given(2, 2), (Err(Refusal::ShortEntries), vec![7; 2]));
        assert_eq!(given(2, 4), (Ok(Resolving { cues: 1, reads: 5 }), vec![3, 1, 4, 7]));
        assert_eq!(given(3, 0), (Ok(Resolving { cues: 0, reads: 0 }), vec![]));
    }
    #[test]
    fn house_cues_are_passed_over_for_a_guest() {
        // The house cues stand at the place of the cue before, and nowhere.
        let cues: [(&[u8], u32, bool); 4] = [(b"la", 1, false), (b"la", 1, true), (b"so", 1, true), (b"la", 2, false)];
        let book = marked_book(cues.map(|(phrase, ordinal, house)| ((phrase, ordinal, None), house)));
        let places =
            |role, text| resolve_all(role, DAY, Page::Latin1, &book, text).map(|places| places.iter().map(|at| at.place).collect::<Vec<_>>());
        let refused = |refusal, cue| Err(BookError { refusal, cue });
        assert_eq!(places(Guest, b"la la"), Ok(vec![0, 3]));
        assert_eq!(places(Operator, b"la la"), refused(Refusal::NotForward, Some(1)));
        assert_eq!(places(Translator, b"la la"), refused(Refusal::NotAllowed, None));
        // A guest's numbers count the open cues, and a fault of the book all cues.
        assert_eq!(places(Guest, b"la"), refused(Refusal::NoOccurrence, Some(1)));
        let cut = resolve_all(Guest, DAY, Page::Latin1, &book[..book.len() - 1], b"la la").unwrap_err();
        assert_eq!(cut, BookError { refusal: Refusal::CutField, cue: Some(3) });
    }
}
