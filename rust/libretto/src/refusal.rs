//! The refusals, which all functions share.

use std::error::Error;
use std::fmt;

/// Why a call was refused. The library tests in the order of the numbers, and the first that applies is returned; only the role (19) is tested ahead of
/// every other, a date or days that a call is given (16) next, 7 to 9 and a cue's own days (16) come as a book is read, [`resolve`](crate::resolve) tests
/// the page (14) after 5 and before 6, and 12 and 15 cue by cue, and [`relist`](crate::relist) tests the new text's length last.
#[derive(Clone, Copy, Debug, PartialEq, Eq, Hash)]
#[repr(u32)]
pub enum Refusal {
    /// The method number is above 7. No call with a [`Method`](crate::Method) meets this.
    UnknownMethod = 1,
    /// The phrase has 0 bytes.
    NoPhrase = 2,
    /// The phrase has more than 1,024 bytes.
    LongPhrase = 3,
    /// The text, or the new text of a cut, has more than 32,768 bytes.
    LongText = 4,
    /// The scratch has fewer entries than the method or the resolver needs.
    ShortScratch = 5,
    /// The resolver's text copy is shorter than the text.
    ShortBuffer = 6,
    /// The book ends inside a field.
    CutField = 7,
    /// A field's tag is not the one due.
    WrongTag = 8,
    /// A field's length is not allowed, an ordinal is 0 or, to be written, above 65,535, or a house mark is above 1.
    BadField = 9,
    /// Bytes remain after 999 cues.
    LongBook = 10,
    /// The cue entries are fewer than 3 for each cue that is resolved.
    ShortEntries = 11,
    /// A cue's occurrence does not exist; or a book has no cue of the index that is to have another title.
    NoOccurrence = 12,
    /// A cue, or a book with another title, is longer than the buffer that it is to be written to.
    LongCue = 13,
    /// The page is neither 1 nor 15. No call with a [`Page`](crate::Page) meets this.
    UnknownPage = 14,
    /// A cue's place is not above that of the cue before it.
    NotForward = 15,
    /// A day is above 36,524, a first day is after the last, or a date is not in the calendar's 2000 to 2099.
    BadDate = 16,
    /// A stretch ends before it starts, or past the text.
    BadStretch = 17,
    /// A list does not strictly rise, or holds a place where the phrase would pass the text's end.
    BadList = 18,
    /// The role may not make this call, or there is no such role.
    NotAllowed = 19,
}

impl Refusal {
    /// The refusal's number.
    pub const fn number(self) -> u32 {
        self as u32
    }

    /// The refusal of this number, if there is one.
    ///
    /// ```
    /// use libretto::Refusal;
    /// assert_eq!(Refusal::from_number(3), Some(Refusal::LongPhrase));
    /// assert_eq!(Refusal::from_number(0), None);
    /// ```
    pub const fn from_number(number: u32) -> Option<Refusal> {
        match number {
            1 => Some(Refusal::UnknownMethod),
            2 => Some(Refusal::NoPhrase),
            3 => Some(Refusal::LongPhrase),
            4 => Some(Refusal::LongText),
            5 => Some(Refusal::ShortScratch),
            6 => Some(Refusal::ShortBuffer),
            7 => Some(Refusal::CutField),
            8 => Some(Refusal::WrongTag),
            9 => Some(Refusal::BadField),
            10 => Some(Refusal::LongBook),
            11 => Some(Refusal::ShortEntries),
            12 => Some(Refusal::NoOccurrence),
            13 => Some(Refusal::LongCue),
            14 => Some(Refusal::UnknownPage),
            15 => Some(Refusal::NotForward),
            16 => Some(Refusal::BadDate),
            17 => Some(Refusal::BadStretch),
            18 => Some(Refusal::BadList),
            19 => Some(Refusal::NotAllowed),
            _ => None,
        }
    }

    /// The number that a call gave back, as a result: 0 is no refusal.
    pub(crate) fn check(number: u32) -> Result<(), Refusal> {
        match number {
            0 => Ok(()),
            _ => Err(Refusal::from_number(number).expect("the library refuses with the numbers of the table only")),
        }
    }
}

impl fmt::Display for Refusal {
    fn fmt(&self, f: &mut fmt::Formatter<'_>) -> fmt::Result {
        f.pad(match self {
            Refusal::UnknownMethod => "the method number is above 7",
            Refusal::NoPhrase => "the phrase has 0 bytes",
            Refusal::LongPhrase => "the phrase has more than 1,024 bytes",
            Refusal::LongText => "the text has more than 32,768 bytes",
            Refusal::ShortScratch => "the scratch has fewer entries than the method or the resolver needs",
            Refusal::ShortBuffer => "the text copy is shorter than the text",
            Refusal::CutField => "the book ends inside a field",
            Refusal::WrongTag => "a field's tag is not the one due",
            Refusal::BadField => "a field's length is not allowed, the ordinal is not from 1 to 65,535, or the house mark is above 1",
            Refusal::LongBook => "bytes remain after 999 cues",
            Refusal::ShortEntries => "the cue entries are fewer than 3 for each cue that is resolved",
            Refusal::NoOccurrence => "the cue's occurrence does not exist",
            Refusal::LongCue => "what is to be written is longer than its buffer",
            Refusal::UnknownPage => "the page is neither 1 nor 15",
            Refusal::NotForward => "the cue does not stand behind the cue before it",
            Refusal::BadDate => "a date is not in the calendar's 2000 to 2099, or the first day is after the last",
            Refusal::BadStretch => "the stretch ends before it starts, or past the text",
            Refusal::BadList => "the list does not strictly rise, or holds a place where the phrase would pass the text's end",
            Refusal::NotAllowed => "the role may not do this",
        })
    }
}

impl Error for Refusal {}

/// What a call gives back that answers with one number, as it stands in the C interface.
#[derive(Clone, Copy, Debug, PartialEq, Eq, Hash)]
#[repr(C)]
pub struct RawAnswer {
    /// The refusal's number; 0 if the call was not refused.
    pub refusal: u32,
    /// A total of places, a number of cues or of bytes, a cue's index, a letter, or a day; each function names it.
    pub number: u32,
}

#[cfg(test)]
mod tests {
    use super::*;

    #[test]
    fn refusals_have_their_numbers_and_sentences() {
        for number in 1..=19 {
            let refusal = Refusal::from_number(number).unwrap();
            assert_eq!(refusal.number(), number);
            assert!(!refusal.to_string().is_empty());
        }
        for number in [0, 20, u32::MAX] {
            assert_eq!(Refusal::from_number(number), None);
        }
        assert_eq!(Refusal::UnknownPage.to_string(), "the page is neither 1 nor 15");
    }
}
