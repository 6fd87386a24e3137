//! A book written anew with one title replaced.

use crate::{ffi, BookError, RawAnswer, Refusal, Role, TITLE_MAX};

/// Writes a book anew at the buffer's start, with the title of one cue replaced, and gives the new book's length; the buffer's bytes past it keep their
/// values. The cue is told by its index from 0 among all cues of the book. Besides the letters of that title and the two bytes of its length nothing of
/// the book is changed. A buffer as long as the book and the title together is always long enough.
///
/// The operator and a translator may call it. A fault of the book comes with its cue; then a title of more than 200 bytes ([`Refusal::BadField`]), a cue
/// that the book does not have ([`Refusal::NoOccurrence`]) and a buffer that is too short ([`Refusal::LongCue`]) come without one, in this order. A
/// refused call leaves the buffer as it was.
///
/// ```
/// use libretto::{retitle, BookError, Refusal, Role};
///
/// let book = b"\x01\x00\x02la\x02\x00\x02\x00\x02\x03\x00\x02No\x05\x00\x01\x01";
/// let mut buffer = [7; 21];
/// assert_eq!(retitle(Role::Translator, book, 0, b"Non", &mut buffer), Ok(20));
/// assert_eq!(&buffer, b"\x01\x00\x02la\x02\x00\x02\x00\x02\x03\x00\x03Non\x05\x00\x01\x01\x07");
///
/// let refused = |role, book, cue, buffer: &mut [u8]| retitle(role, book, cue, b"Non", buffer).unwrap_err();
/// assert_eq!(refused(Role::Guest, book, 0, &mut buffer), BookError { refusal: Refusal::NotAllowed, cue: None });
/// assert_eq!(refused(Role::Translator, &book[..14], 0, &mut buffer), BookError { refusal: Refusal::CutField, cue: Some(0) });
/// assert_eq!(refused(Role::Translator, book, 1, &mut buffer), BookError { refusal: Refusal::NoOccurrence, cue: None });
/// assert_eq!(refused(Role::Translator, book, 0, &mut buffer[..19]), BookError { refusal: Refusal::LongCue, cue: None });
/// ```
pub fn retitle(role: Role, book: &[u8], cue: usize, title: &[u8], buffer: &mut [u8]) -> Result<usize, BookError> {
    // No book has as many cues as the largest 32-bit number, so it stands for every larger index.
    let raw = retitle_raw(role.number(), book, u32::try_from(cue).unwrap_or(u32::MAX), title, buffer);
    let number = raw.number as usize;
    match Refusal::check(raw.refusal) {
        Ok(()) => Ok(number),
        Err(refusal) => Err(BookError { refusal, cue: names_a_cue(role, book, refusal, title).then_some(number) }),
    }
}

/// Whether the number of a refused call is a cue's index, which it is for a fault of the book. A bad field is the book's or the title's; a call with a
/// title that is not refused tells which.
fn names_a_cue(role: Role, book: &[u8], refusal: Refusal, title: &[u8]) -> bool {
    match refusal {
        Refusal::NotAllowed | Refusal::NoOccurrence | Refusal::LongCue => false,
        Refusal::BadField if title.len() > TITLE_MAX => retitle_raw(role.number(), book, 0, b"", &mut []).refusal == refusal.number(),
        _ => true,
    }
}

/// [`retitle`] with a number as the role, which need not be that of a role, and with the refusal's number in place of a [`Refusal`]. The answer's number is
/// the new book's length, or the index of the cue at which the book was refused, or 0.
///
/// ```
/// let book = b"\x01\x00\x02la\x02\x00\x02\x00\x02\x03\x00\x02No";
/// let raw = libretto::retitle_raw(1, book, 0, b"", &mut [7; 13]);
/// assert_eq!((raw.refusal, raw.number), (0, 13));
/// let raw = libretto::retitle_raw(3, book, 0, b"", &mut [7; 13]);
/// assert_eq!((raw.refusal, raw.number), (19, 0));
/// ```
pub fn retitle_raw(role: u32, book: &[u8], cue: u32, title: &[u8], buffer: &mut [u8]) -> RawAnswer {
    ffi::retitle(role, book, cue, title, buffer)
}

/// The book with the title of one cue replaced, by [`retitle`]. The memory for it is allocated here.
///
/// ```
/// use libretto::{retitle_all, title, Role};
///
/// let book = b"\x01\x00\x02la\x02\x00\x02\x00\x02\x03\x00\x02No";
/// let translated = retitle_all(Role::Translator, book, 0, b"Non")?;
/// assert_eq!(title(Role::Operator, &translated, 0), b"Non");
/// # Ok::<(), libretto::BookError>(())
/// ```
pub fn retitle_all(role: Role, book: &[u8], cue: usize, title: &[u8]) -> Result<Vec<u8>, BookError> {
    // A longer title is refused, so it needs no memory.
    let mut buffer = vec![0; book.len() + title.len().min(TITLE_MAX)];
    let length = retitle(role, book, cue, title, &mut buffer)?;
    buffer.truncate(length);
    Ok(buffer)
}

#[cfg(test)]
mod tests {
    use super::*;

    /// Two cues, of which the second has a house mark of 0.
    const BOOK: &[u8] = b"\x01\x00\x02la\x02\x00\x02\x00\x02\x03\x00\x02No\x01\x00\x01x\x02\x00\x02\x00\x01\x03\x00\x00\x05\x00\x01\x00";

    #[test]
    fn one_title_is_replaced() {
        for role in [Role::Operator, Role::Translator] {
            let first = retitle_all(role, BOOK, 0, b"").unwrap();
            assert_eq!(first, [&BOOK[..11], b"\x00\x00", &BOOK[15..]].concat());
            let second = retitle_all(role, BOOK, 1, &[b't'; TITLE_MAX]).unwrap();
            assert_eq!(second, [&BOOK[..25], b"\x00\xc8", &[b't'; TITLE_MAX], &BOOK[27..]].concat());
        }
        let refused = |cue, title: &[u8]| retitle_all(Role::Translator, BOOK, cue, title).unwrap_err();
        assert_eq!(refused(2, b"").to_string(), "the book has no such cue");
        assert_eq!(refused(usize::MAX, b""), BookError { refusal: Refusal::NoOccurrence, cue: None });
    }

    #[test]
    fn a_bad_field_is_the_books_or_the_titles() {
        // The first cue's ordinal is 0, and then the second one's.
        let [first, second] = [9, 23].map(|place| [&BOOK[..place], b"\x00", &BOOK[place + 1..]].concat());
        let long = [b't'; TITLE_MAX + 1];
        for (book, title, cue) in [(BOOK, &long[..], None), (&first, b"", Some(0)), (&first, &long, Some(0)), (&second, &long, Some(1))] {
            let refused = retitle_all(Role::Translator, book, 0, title).unwrap_err();
            assert_eq!(refused, BookError { refusal: Refusal::BadField, cue });
        }
    }
}
