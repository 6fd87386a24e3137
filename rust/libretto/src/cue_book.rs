//! Cue books: reading fields, cues and whole books, titles, and writing a cue.

use crate::{ffi, RawAnswer, Refusal, Role};
use std::error::Error;
use std::fmt;

/// The most cues that a book has.
pub const CUES_MAX: usize = 999;

/// The longest title of a cue, in bytes.
pub const TITLE_MAX: usize = 200;

/// The largest ordinal of a cue; the smallest is 1.
pub const ORDINAL_MAX: u32 = 65_535;

/// The longest cue, in bytes: 11 besides the longest phrase and the longest title, 7 of dates, and 4 of a house mark.
pub const CUE_MAX: usize = 1246;

/// Why a call on a book was refused, and at which cue.
#[derive(Clone, Copy, Debug, PartialEq, Eq, Hash)]
pub struct BookError {
    /// The refusal.
    pub refusal: Refusal,
    /// The cue's index, from 0, among all cues of the book; for a guest, where a cue's occurrence does not exist or its place is not above that of the cue
    /// before it, among the open ones. None where no cue was refused, but the role, the day, the text, the page, a title, an index or lent memory. With
    /// [`Refusal::LongBook`] it is 999, which is where the first cue too many would stand.
    pub cue: Option<usize>,
}

impl fmt::Display for BookError {
    fn fmt(&self, f: &mut fmt::Formatter<'_>) -> fmt::Result {
        match (self.cue, self.refusal) {
            (Some(cue), refusal) => write!(f, "cue {cue}: {refusal}"),
            // Where a cue has no occurrence, it is named.
            (None, Refusal::NoOccurrence) => f.pad("the book has no such cue"),
            (None, refusal) => refusal.fmt(f),
        }
    }
}

impl Error for BookError {}

/// A part of a book, as it stands in the C interface.
#[derive(Clone, Copy, Debug, PartialEq, Eq, Hash)]
#[repr(C)]
pub struct RawPart {
    /// The index of the part's first byte.
    pub start: usize,
    /// The number of its bytes.
    pub len: usize,
}

/// The fields of a cue, with their tags.
#[derive(Clone, Copy, Debug, PartialEq, Eq, Hash)]
#[repr(u32)]
pub enum Due {
    /// The letters to find, 1 to 1,024 of them.
    Phrase = 1,
    /// Which of the phrase's occurrences is meant, as two bytes, high byte first, 1 to 65,535.
    Ordinal = 2,
    /// The letters to show, 0 to 200 of them.
    Title = 3,
    /// The first and the last day on which the cue plays, as two bytes each, high byte first. A cue may have no such field.
    Dates = 4,
    /// One byte: 0 for an open cue, 1 for one that is house only. A cue may have no such field.
    House = 5,
}

impl Due {
    /// All fields, in their order.
    pub const ALL: [Due; 5] = [Due::Phrase, Due::Ordinal, Due::Title, Due::Dates, Due::House];

    /// The field's tag.
    ///
    /// ```
    /// assert_eq!(libretto::Due::Title.tag(), 3);
    /// ```
    pub const fn tag(self) -> u32 {
        self as u32
    }
}

/// A field of a book.
#[derive(Clone, Copy, Debug, PartialEq, Eq, Hash)]
pub struct Field<'a> {
    /// The field's body, as the part of the book where it stands.
    pub body: &'a [u8],
    /// The place after the field.
    pub end: usize,
}

/// A field of a book, as it stands in the C interface.
#[derive(Clone, Copy, Debug, PartialEq, Eq, Hash)]
#[repr(C)]
pub struct RawField {
    /// The refusal's number; 0 if the field was read.
    pub refusal: u32,
    /// The index of the body's first byte; 0 if the field was refused.
    pub start: usize,
    /// The number of the body's bytes; 0 if the field was refused.
    pub len: usize,
    /// The place after the field; 0 if the field was refused.
    pub end: usize,
}

/// The days on which a cue plays, by the numbers that [`day`](crate::day) gives.
#[derive(Clone, Copy, Debug, PartialEq, Eq, Hash)]
pub struct Days {
    /// The first of them.
    pub first: u32,
    /// The last of them, which is included.
    pub last: u32,
}

impl Days {
    /// Whether this day is among them.
    ///
    /// ```
    /// let march = libretto::Days { first: 9556, last: 9586 };
    /// assert_eq!([9555, 9556, 9586, 9587].map(|day| march.contains(day)), [false, true, true, false]);
    /// ```
    pub const fn contains(self, day: u32) -> bool {
        self.first <= day && day <= self.last
    }
}

/// The days of a cue to be written, as they stand in the C interface.
#[derive(Clone, Copy, Debug, PartialEq, Eq, Hash)]
pub struct RawDays {
    /// 0 for a cue without dates, of which the other two play no part; any other number for one with dates.
    pub dated: u32,
    /// The first day.
    pub first: u32,
    /// The last day.
    pub last: u32,
}

impl RawDays {
    /// No dates.
    pub const NONE: RawDays = RawDays { dated: 0, first: 0, last: 0 };
}

impl From<Option<Days>> for RawDays {
    fn from(days: Option<Days>) -> RawDays {
        days.map_or(RawDays::NONE, |Days { first, last }| RawDays { dated: 1, first, last })
    }
}

/// The house mark of a cue that has one.
#[derive(Clone, Copy, Debug, PartialEq, Eq, Hash)]
pub enum Mark {
    /// The cue is open, as it would be without a mark. No cue is written with this mark; one that is read keeps it.
    Open,
    /// The cue is house only: a guest's resolve passes over it.
    House,
}

/// A cue of a book.
#[derive(Clone, Copy, Debug, PartialEq, Eq, Hash)]
pub struct Cue<'a> {
    /// The phrase, as the part of the book where it stands.
    pub phrase: &'a [u8],
    /// Which of the phrase's occurrences is meant, 1 being the first.
    pub ordinal: u16,
    /// The title, as the part of the book where it stands.
    pub title: &'a [u8],
    /// The days on which the cue plays; a cue without them plays always.
    pub days: Option<Days>,
    /// The house mark as it stands in the book; a cue without one is open.
    pub mark: Option<Mark>,
    /// The place after the cue, its dates and its house mark included.
    pub end: usize,
}

impl Cue<'_> {
    /// Whether the cue plays on this day, and has entries where the operator resolves the book for it.
    ///
    /// ```
    /// use libretto::{read_cue, Role};
    ///
    /// let cue = read_cue(Role::Operator, b"\x01\x00\x02la\x02\x00\x02\x00\x02\x03\x00\x02No\x04\x00\x04\x00\x07\x00\x09", 0)?;
    /// assert_eq!([6, 7, 9, 10].map(|day| cue.plays(day)), [false, true, true, false]);
    /// # Ok::<(), libretto::Refusal>(())
    /// ```
    pub fn plays(&self, day: u32) -> bool {
        self.days.is_none_or(|days| days.contains(day))
    }

    /// Whether the cue is house only. If not, it is open: without a mark, or with one that says so.
    ///
    /// ```
    /// use libretto::{read_cue, Mark, Role};
    ///
    /// let bytes = b"\x01\x00\x02la\x02\x00\x02\x00\x02\x03\x00\x02No\x05\x00\x01\x00";
    /// let cue = read_cue(Role::Operator, bytes, 0)?;
    /// assert_eq!((cue.mark, cue.is_house()), (Some(Mark::Open), false));
    /// # Ok::<(), libretto::Refusal>(())
    /// ```
    pub fn is_house(&self) -> bool {
        self.mark == Some(Mark::House)
    }
}

/// A cue of a book, as it stands in the C interface.
#[derive(Clone, Copy, Debug, PartialEq, Eq, Hash)]
#[repr(C)]
pub struct RawCue {
    /// The refusal's number; 0 if the cue was read.
    pub refusal: u32,
    /// The ordinal; 0 if the cue was refused.
    pub ordinal: u32,
    /// 1 if the cue has dates; 0 if it has none or was refused.
    pub dated: u32,
    /// The first day of its dates; 0 without them.
    pub first: u32,
    /// The last day of its dates; 0 without them.
    pub last: u32,
    /// 1 if the cue has a house mark; 0 if it has none or was refused.
    pub marked: u32,
    /// 1 if the cue is house only; 0 if it is open or was refused.
    pub house: u32,
    /// The index of the phrase's first byte; 0 if the cue was refused.
    pub phrase_start: usize,
    /// The number of the phrase's bytes; 0 if the cue was refused.
    pub phrase_len: usize,
    /// The index of the title's first byte; 0 if the cue was refused.
    pub title_start: usize,
    /// The number of the title's bytes; 0 if the cue was refused.
    pub title_len: usize,
    /// The place after the cue, its dates and its house mark included; 0 if the cue was refused.
    pub end: usize,
}

/// The bytes of a part of a book.
fn part(book: &[u8], start: usize, len: usize) -> &[u8] {
    &book[start..start + len]
}

/// Reads the field that is due at a place of a book. A place past the book's end, however large, meets [`Refusal::CutField`].
///
/// ```
/// use libretto::{read_field, Due, Field, Refusal, Role::{Guest, Operator}};
///
/// let book = b"\x01\x00\x02la\x02\x00\x02\x00\x02\x03\x00\x02No";
/// assert_eq!(read_field(Operator, book, 0, Due::Phrase), Ok(Field { body: b"la", end: 5 }));
/// assert_eq!(read_field(Operator, book, 5, Due::Ordinal), Ok(Field { body: b"\x00\x02", end: 10 }));
/// assert_eq!(read_field(Operator, book, 5, Due::Title), Err(Refusal::WrongTag));
/// assert_eq!(read_field(Operator, book, 15, Due::Phrase), Err(Refusal::CutField));
/// assert_eq!(read_field(Guest, book, 0, Due::Phrase), Err(Refusal::NotAllowed));
/// ```
pub fn read_field(role: Role, book: &[u8], place: usize, due: Due) -> Result<Field<'_>, Refusal> {
    let raw = read_field_raw(role.number(), book, place, due.tag());
    Refusal::check(raw.refusal)?;
    Ok(Field { body: part(book, raw.start, raw.len), end: raw.end })
}

/// [`read_field`] with numbers that need not be that of a role and the tag of a field, and with the refusal's number in place of a [`Refusal`]. No byte is
/// the tag of another number, so it meets 7 where three header bytes are not present and 8 otherwise.
///
/// ```
/// let raw = libretto::read_field_raw(0, b"\x03\x00\x02No", 0, 3);
/// assert_eq!((raw.refusal, raw.start, raw.len, raw.end), (0, 3, 2, 5));
/// assert_eq!(libretto::read_field_raw(0, b"\x04\x00\x04\x00\x07\x00\x06", 0, 4).refusal, 16);
/// assert_eq!(libretto::read_field_raw(0, b"\x06\x00\x02No", 0, 6).refusal, 8);
/// assert_eq!(libretto::read_field_raw(3, b"\x03\x00\x02No", 0, 3).refusal, 19);
/// ```
pub fn read_field_raw(role: u32, book: &[u8], place: usize, due: u32) -> RawField {
    ffi::read_field(role, book, place, due)
}

/// Reads the cue at a place of a book. A byte 4 behind its title is the tag of its dates, and a byte 5 behind these, or behind its title where it has none,
/// the tag of its house mark; any other starts the next cue. A place at or past the book's end meets [`Refusal::CutField`]. That a book has at most 999
/// cues is tested where a whole book is read, as by [`read_book`].
///
/// ```
/// use libretto::{read_cue, Cue, Days, Mark, Refusal, Role::{Guest, Operator}};
///
/// let book = b"\x01\x00\x02la\x02\x00\x02\x00\x02\x03\x00\x02No\x04\x00\x04\x25\x54\x25\x72\x05\x00\x01\x01";
/// let plain = Cue { phrase: b"la", ordinal: 2, title: b"No", days: None, mark: None, end: 15 };
/// let days = Some(Days { first: 9556, last: 9586 });
/// assert_eq!(read_cue(Operator, book, 0), Ok(Cue { days, mark: Some(Mark::House), end: 26, ..plain }));
/// assert_eq!(read_cue(Operator, &book[..22], 0), Ok(Cue { days, end: 22, ..plain }));
/// assert_eq!(read_cue(Operator, &book[..15], 0), Ok(plain));
/// assert_eq!(read_cue(Operator, book, 26), Err(Refusal::CutField));
/// assert_eq!(read_cue(Operator, book, 5), Err(Refusal::WrongTag));
/// assert_eq!(read_cue(Guest, book, 0), Err(Refusal::NotAllowed));
/// ```
pub fn read_cue(role: Role, book: &[u8], place: usize) -> Result<Cue<'_>, Refusal> {
    let raw = read_cue_raw(role.number(), book, place);
    Refusal::check(raw.refusal)?;
    Ok(Cue {
        phrase: part(book, raw.phrase_start, raw.phrase_len),
        ordinal: u16::try_from(raw.ordinal).expect("an ordinal has two bytes"),
        title: part(book, raw.title_start, raw.title_len),
        days: (raw.dated != 0).then_some(Days { first: raw.first, last: raw.last }),
        mark: (raw.marked != 0).then_some(if raw.house == 0 { Mark::Open } else { Mark::House }),
        end: raw.end,
    })
}

/// [`read_cue`] as places and lengths in the book, with a number as the role, which need not be that of a role, and with the refusal's number in place of
/// a [`Refusal`].
///
/// ```
/// let raw = libretto::read_cue_raw(0, b"\x01\x00\x02la\x02\x00\x02\x00\x02\x03\x00\x02No\x05\x00\x01\x00", 0);
/// assert_eq!((raw.refusal, raw.ordinal, raw.dated, raw.first, raw.last, raw.marked, raw.house, raw.end), (0, 2, 0, 0, 0, 1, 0, 19));
/// assert_eq!((raw.phrase_start, raw.phrase_len, raw.title_start, raw.title_len), (3, 2, 13, 2));
/// ```
pub fn read_cue_raw(role: u32, book: &[u8], place: usize) -> RawCue {
    ffi::read_cue(role, book, place)
}

/// Reads a whole book and gives its number of cues, open and house only, whenever they play.
///
/// ```
/// use libretto::{read_book, BookError, Refusal, Role::{Operator, Translator}};
///
/// let book = b"\x01\x00\x02la\x02\x00\x02\x00\x02\x03\x00\x02No";
/// assert_eq!(read_book(Operator, book), Ok(1));
/// assert_eq!(read_book(Operator, b""), Ok(0));
/// assert_eq!(read_book(Operator, &book[..14]), Err(BookError { refusal: Refusal::CutField, cue: Some(0) }));
/// assert_eq!(read_book(Translator, &book[..14]), Err(BookError { refusal: Refusal::NotAllowed, cue: None }));
/// ```
pub fn read_book(role: Role, book: &[u8]) -> Result<usize, BookError> {
    let raw = read_book_raw(role.number(), book);
    let number = raw.number as usize;
    match Refusal::check(raw.refusal) {
        Ok(()) => Ok(number),
        Err(refusal) => Err(BookError { refusal, cue: (refusal != Refusal::NotAllowed).then_some(number) }),
    }
}

/// [`read_book`] with a number as the role, which need not be that of a role, and with the refusal's number in place of a [`Refusal`]. The answer's number
/// is the number of cues, or the index of the cue that was refused, or 0 if the role was.
///
/// ```
/// let raw = libretto::read_book_raw(0, b"\x02\x00\x02");
/// assert_eq!((raw.refusal, raw.number), (8, 0));
/// let raw = libretto::read_book_raw(3, b"\x02\x00\x02");
/// assert_eq!((raw.refusal, raw.number), (19, 0));
/// ```
pub fn read_book_raw(role: u32, book: &[u8]) -> RawAnswer {
    ffi::read_book(role, book)
}

/// The title of a cue, by the cue's index from 0, as the part of the book where it stands. Where the role may not have it, and where the whole book is
/// refused or has no such cue, it is the empty part at the book's front.
///
/// ```
/// use libretto::{title, Role::{Guest, Operator}};
///
/// let book = b"\x01\x00\x02la\x02\x00\x02\x00\x02\x03\x00\x02No";
/// assert_eq!(title(Operator, book, 0), b"No");
/// assert_eq!(title(Operator, book, 1), b"");
/// assert_eq!(title(Operator, &book[..14], 0), b"");
/// assert_eq!(title(Guest, book, 0), b"");
/// ```
pub fn title(role: Role, book: &[u8], cue: usize) -> &[u8] {
    // No book has as many cues as the largest 32-bit number, so it stands for every larger index.
    let raw = title_raw(role.number(), book, u32::try_from(cue).unwrap_or(u32::MAX));
    part(book, raw.start, raw.len)
}

/// [`title`] as its place and length in the book, with a number as the role, which need not be that of a role.
///
/// ```
/// let book = b"\x01\x00\x02la\x02\x00\x02\x00\x02\x03\x00\x02No";
/// let part = libretto::title_raw(0, book, 0);
/// assert_eq!((part.start, part.len), (13, 2));
/// ```
pub fn title_raw(role: u32, book: &[u8], cue: u32) -> RawPart {
    ffi::title(role, book, cue)
}

/// Writes a cue at the buffer's start, with its days if it has them, and with a house mark if it is house only, and gives its length; the buffer's bytes
/// past it keep their values. A refused call leaves the buffer as it was. The days are tested ahead of all but the role.
///
/// ```
/// use libretto::{read_book, write_cue, Days, Refusal, Role::{Guest, Operator}, CUE_MAX};
///
/// // A book is its cues, one after the other. The second one is house only.
/// let mut book = [0; 2 * CUE_MAX];
/// let first = write_cue(Operator, &mut book, b"la", 2, b"No", None, false)?;
/// let second = write_cue(Operator, &mut book[first..], b"tralala", 1, b"", Some(Days { first: 9556, last: 9586 }), true)?;
/// assert_eq!((first, second), (15, 29));
/// assert_eq!(read_book(Operator, &book[..first + second]), Ok(2));
///
/// assert_eq!(write_cue(Operator, &mut book, b"la", 0, b"No", None, false), Err(Refusal::BadField));
/// assert_eq!(write_cue(Operator, &mut book[..18], b"la", 2, b"No", None, true), Err(Refusal::LongCue));
/// let reversed = Some(Days { first: 9586, last: 9556 });
/// assert_eq!(write_cue(Operator, &mut book, b"la", 0, b"No", reversed, false), Err(Refusal::BadDate));
/// assert_eq!(write_cue(Guest, &mut book, b"la", 0, b"No", reversed, false), Err(Refusal::NotAllowed));
/// # Ok::<(), Refusal>(())
/// ```
pub fn write_cue(
    role: Role,
    buffer: &mut [u8],
    phrase: &[u8],
    ordinal: u32,
    title: &[u8],
    days: Option<Days>,
    house: bool,
) -> Result<usize, Refusal> {
    let raw = write_cue_raw(role.number(), buffer, phrase, ordinal, title, days.into(), house.into());
    Refusal::check(raw.refusal)?;
    Ok(raw.number as usize)
}

/// [`write_cue`] with numbers for the role, the days and the house mark, and with the refusal's number in place of a [`Refusal`]. A house of 0 is open, 1
/// house only, and any other number refused. The answer's number is the cue's length, and 0 if the call was refused.
///
/// ```
/// use libretto::{write_cue_raw, RawDays};
///
/// let raw = write_cue_raw(0, &mut [], b"", 2, b"No", RawDays { dated: 0, first: 9586, last: 9556 }, 0);
/// assert_eq!((raw.refusal, raw.number), (2, 0));
/// let raw = write_cue_raw(0, &mut [], b"", 2, b"No", RawDays { dated: 1, first: 9586, last: 9556 }, 0);
/// assert_eq!((raw.refusal, raw.number), (16, 0));
/// let raw = write_cue_raw(0, &mut [], b"la", 2, b"No", RawDays::NONE, 2);
/// assert_eq!((raw.refusal, raw.number), (9, 0));
/// ```
pub fn write_cue_raw(role: u32, buffer: &mut [u8], phrase: &[u8], ordinal: u32, title: &[u8], days: RawDays, house: u32) -> RawAnswer {
    ffi::write_cue(role, buffer, phrase, ordinal, title, days, house)
}

#[cfg(test)]
mod tests {
    use super::*;
    use crate::Role::{Guest, Operator, Translator};
    use crate::DAY_MAX;

    const BOOK: &[u8] = b"\x01\x00\x02la\x02\x00\x02\x00\x02\x03\x00\x02No\x01\x00\x01x\x02\x00\x02\x00\x01\x03\x00\x00";

    /// The days that the field below has.
    const DAYS: Days = Days { first: 0x0102, last: 0x8e00 };
    const DATES: &[u8] = b"\x04\x00\x04\x01\x02\x8e\x00";

    /// The marks of a cue that is house only, and of one that says that it is open.
    const HOUSE: &[u8] = b"\x05\x00\x01\x01";
    const OPEN: &[u8] = b"\x05\x00\x01\x00";

    #[test]
    fn titles_are_parts_of_the_book() {
        assert_eq!(title(Operator, BOOK, 0).as_ptr(), BOOK[13..].as_ptr());
        assert_eq!(title(Operator, BOOK, 1).as_ptr(), BOOK[27..].as_ptr());
        for (book, cue) in [(BOOK, 2), (BOOK, usize::MAX), (&BOOK[..26], 0), (&BOOK[..26], 1)] {
            assert_eq!((title(Operator, book, cue).as_ptr(), title(Operator, book, cue).len()), (book.as_ptr(), 0), "cue {cue}");
        }
    }

    #[test]
    fn cues_and_fields_are_parts_of_the_book() {
        let first = read_cue(Operator, BOOK, 0).unwrap();
        assert_eq!((first.phrase.as_ptr(), first.title.as_ptr(), first.end), (BOOK[3..].as_ptr(), BOOK[13..].as_ptr(), 15));
        let second = read_cue(Operator, BOOK, first.end).unwrap();
        assert_eq!((second.phrase, second.ordinal, second.title, second.end), (&b"x"[..], 1, &b""[..], BOOK.len()));
        assert_eq!(second.title.as_ptr(), BOOK[27..].as_ptr());
        for place in [1, BOOK.len(), BOOK.len() + 1, usize::MAX] {
            assert!(read_cue(Operator, BOOK, place).is_err(), "place {place}");
        }
        let mut end = 0;
        for (due, body) in [Due::Phrase, Due::Ordinal, Due::Title].into_iter().zip([3, 8, 13]) {
            let field = read_field(Operator, BOOK, end, due).unwrap();
            assert_eq!((field.body.as_ptr(), field.body.len()), (BOOK[body..].as_ptr(), 2), "{due:?}");
            end = field.end;
        }
        assert_eq!(end, 15);
    }

    #[test]
    fn dates_belong_to_the_cue_before_them() {
        // The dates stand behind the first title, and then behind the second one, at the book's end.
        let dated = [&BOOK[..15], DATES, &BOOK[15..], DATES].concat();
        let first = read_cue(Operator, &dated, 0).unwrap();
        assert_eq!((first.title, first.days, first.end), (&b"No"[..], Some(DAYS), 22));
        let second = read_cue(Operator, &dated, first.end).unwrap();
        assert_eq!((second.title, second.days, second.end), (&b""[..], Some(DAYS), dated.len()));
        let field = read_field(Operator, &dated, 15, Due::Dates).unwrap();
        assert_eq!((field.body, field.end), (&DATES[3..], 22));
        assert_eq!((read_book(Operator, &dated), title(Operator, &dated, 0)), (Ok(2), &b"No"[..]));
        assert_eq!(read_cue(Operator, BOOK, 0).map(|cue| cue.days), Ok(None));

        // A day above the last one, 0x8eac.
        let late = [&BOOK[..15], b"\x04\x00\x04\x01\x02\x8e\xad", &BOOK[15..]].concat();
        assert_eq!((read_cue(Operator, &late, 0), read_field(Operator, &late, 15, Due::Dates)), (Err(Refusal::BadDate), Err(Refusal::BadDate)));
        let refused = read_book(Operator, &[BOOK, &late].concat()).unwrap_err();
        assert_eq!(refused, BookError { refusal: Refusal::BadDate, cue: Some(2) });
        assert_eq!(refused.to_string(), "cue 2: a date is not in the calendar's 2000 to 2099, or the first day is after the last");
    }

    #[test]
    fn cues_without_days_play_always() {
        let cue = read_cue(Operator, BOOK, 0).unwrap();
        assert!([0, DAY_MAX, u32::MAX].iter().all(|&day| cue.plays(day)));
        let dated = Cue { days: Some(DAYS), ..cue };
        assert_eq!([0x0101, 0x0102, 0x8e00, 0x8e01].map(|day| dated.plays(day)), [false, true, true, false]);
    }

    #[test]
    fn refused_books_name_their_cue() {
        let refused = read_book(Operator, &BOOK[..26]).unwrap_err();
        assert_eq!(refused, BookError { refusal: Refusal::CutField, cue: Some(1) });
        assert_eq!(refused.to_string(), "cue 1: the book ends inside a field");
        let long = read_book(Operator, &BOOK.repeat(500)).unwrap_err();
        assert_eq!(long, BookError { refusal: Refusal::LongBook, cue: Some(CUES_MAX) });
    }

    #[test]
    fn the_longest_cue() {
        let mut book = [0; CUE_MAX];
        let (phrase, shown) = ([b'a'; crate::PHRASE_MAX], [b'b'; TITLE_MAX]);
        let days = Some(Days { first: 0, last: DAY_MAX });
        assert_eq!(write_cue(Operator, &mut book, &phrase, ORDINAL_MAX, &shown, days, true), Ok(CUE_MAX));
        let read = read_cue(Operator, &book, 0).unwrap();
        assert_eq!((read.title, read.days, read.is_house(), read.end), (&shown[..], days, true, CUE_MAX));
        assert_eq!(write_cue(Operator, &mut book, &phrase, ORDINAL_MAX, &shown, days, false), Ok(CUE_MAX - HOUSE.len()));
        assert_eq!(write_cue(Operator, &mut book, &phrase, ORDINAL_MAX, &shown, None, true), Ok(CUE_MAX - DATES.len()));
        assert_eq!(write_cue(Operator, &mut book, &phrase, ORDINAL_MAX + 1, &shown, days, true), Err(Refusal::BadField));
    }

    #[test]
    fn days_to_be_written() {
        let mut book = [7; 22];
        assert_eq!(write_cue(Operator, &mut book, b"la", 2, b"No", Some(DAYS), false), Ok(22));
        assert_eq!(book, *[&BOOK[..15], DATES].concat());
        assert_eq!(write_cue(Operator, &mut book[..21], b"la", 2, b"No", Some(DAYS), false), Err(Refusal::LongCue));
        for (first, last) in [(0, DAY_MAX + 1), (DAY_MAX + 1, DAY_MAX + 1), (1, 0), (u32::MAX, 0), (1 << 16, 1 << 16)] {
            assert_eq!(write_cue(Operator, &mut [], b"", 0, b"", Some(Days { first, last }), false), Err(Refusal::BadDate), "{first} to {last}");
        }
    }
    #[test]
    fn marks_belong_to_the_cue_before_them() {
        // Behind a title and behind dates.
        let marked = [&BOOK[..15], OPEN, &BOOK[15..], DATES, HOUSE].concat();
        let first = read_cue(Operator, &marked, 0).unwrap();
        assert_eq!((first.mark, first.is_house(), first.days, first.end), (Some(Mark::Open), false, None, 19));
        let second = read_cue(Operator, &marked, first.end).unwrap();
        assert_eq!((second.mark, second.is_house(), second.days, second.end), (Some(Mark::House), true, Some(DAYS), marked.len()));
        assert_eq!((read_cue(Operator, BOOK, 0).unwrap().mark, read_book(Operator, &marked)), (None, Ok(2)));
        let field = read_field(Operator, &marked, 15, Due::House).unwrap();
        assert_eq!((field.body, field.end), (&b"\0"[..], 19));

        // A mark above 1.
        let wrong = [&BOOK[..15], b"\x05\x00\x01\x02", &BOOK[15..]].concat();
        assert_eq!((read_cue(Operator, &wrong, 0), read_field(Operator, &wrong, 15, Due::House)), (Err(Refusal::BadField), Err(Refusal::BadField)));
        let refused = read_book(Operator, &[BOOK, &wrong].concat()).unwrap_err();
        assert_eq!(refused.to_string(), "cue 2: a field's length is not allowed, the ordinal is not from 1 to 65,535, or the house mark is above 1");
    }

    #[test]
    fn others_are_not_allowed() {
        let refused = Err(Refusal::NotAllowed);
        for role in [Translator, Guest] {
            let mut book = [7; 22];
            assert_eq!(write_cue(role, &mut book, b"la", 2, b"No", None, false), refused);
            assert_eq!(book, [7; 22]);
            assert_eq!(
                (read_cue(role, BOOK, 0).map(|cue| cue.end), read_field(role, BOOK, 0, Due::Phrase).map(|field| field.end)),
                (refused, refused)
            );
            assert_eq!((title(role, BOOK, 0).as_ptr(), title(role, BOOK, 0).len()), (BOOK.as_ptr(), 0));
            let whole = read_book(role, &BOOK[..26]).unwrap_err();
            assert_eq!((whole, &*whole.to_string()), (BookError { refusal: Refusal::NotAllowed, cue: None }, "the role may not do this"));
        }
    }
}
