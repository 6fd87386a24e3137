//! Folding by a page: capital letters become small ones.

use crate::{ffi, RawAnswer, Refusal};

/// The pages that letters are folded by, with their numbers.
#[derive(Clone, Copy, Debug, PartialEq, Eq, Hash)]
#[repr(u32)]
pub enum Page {
    /// ISO 8859-1.
    Latin1 = 1,
    /// ISO 8859-15, which has Š š Ž ž Œ œ Ÿ € where ISO 8859-1 has other signs, as French and Finnish texts need them.
    Latin9 = 15,
}

impl Page {
    /// All pages, in the order of their numbers.
    pub const ALL: [Page; 2] = [Page::Latin1, Page::Latin9];

    /// The page's number, which is that of its standard's part.
    ///
    /// ```
    /// assert_eq!(libretto::Page::Latin9.number(), 15);
    /// ```
    pub const fn number(self) -> u32 {
        self as u32
    }

    /// The page of this number, if there is one.
    ///
    /// ```
    /// use libretto::Page;
    /// assert_eq!(Page::from_number(15), Some(Page::Latin9));
    /// assert_eq!(Page::from_number(9), None);
    /// ```
    pub const fn from_number(number: u32) -> Option<Page> {
        match number {
            1 => Some(Page::Latin1),
            15 => Some(Page::Latin9),
            _ => None,
        }
    }
}

/// What a letter folds to by a page: the small letter of a capital one, and every other byte itself. A letter folded a second time stays as it is.
///
/// By [`Page::Latin1`], 32 is added to 0x41–0x5A and to 0xC0–0xDE except 0xD7. [`Page::Latin9`] has this rule and four pairs besides, the first folding
/// to the second: 0xA6 and 0xA8, 0xB4 and 0xB8, 0xBC and 0xBD, 0xBE and 0xFF.
///
/// ```
/// use libretto::{fold, Page};
/// assert_eq!(fold(Page::Latin1, 0xc9), 0xe9);
/// assert_eq!(fold(Page::Latin1, 0xd7), 0xd7);
///
/// // Œ and œ, which are ¼ and ½ in ISO 8859-1.
/// assert_eq!(fold(Page::Latin9, 0xbc), 0xbd);
/// assert_eq!(fold(Page::Latin1, 0xbc), 0xbc);
/// ```
pub fn fold(page: Page, letter: u8) -> u8 {
    let raw = fold_raw(page.number(), letter);
    Refusal::check(raw.refusal).expect("the library has this page");
    u8::try_from(raw.number).expect("a letter folds to a letter")
}

/// [`fold`] with a page number, which need not be that of a page, and with the refusal's number beside the letter. The answer's number is the folded
/// letter, and 0 if the call was refused.
///
/// ```
/// let raw = libretto::fold_raw(15, 0xbe);
/// assert_eq!((raw.refusal, raw.number), (0, 0xff));
/// let raw = libretto::fold_raw(2, 0xbe);
/// assert_eq!((raw.refusal, raw.number), (14, 0));
/// ```
pub fn fold_raw(page: u32, letter: u8) -> RawAnswer {
    ffi::fold(page, letter)
}

/// What folding a text gives back, as it stands in the C interface.
#[derive(Clone, Copy, Debug, PartialEq, Eq, Hash)]
#[repr(C)]
pub struct RawFolding {
    /// The refusal's number; 0 if the call was not refused.
    pub refusal: u32,
    /// The letters written; 0 if the call was refused.
    pub number: usize,
}

/// Folds the letters of a text by a page into the target's front, as many as it has room for, and gives their number, the smaller of the two lengths.
/// The target's bytes past them keep their values.
///
/// ```
/// use libretto::{fold_text, Page};
///
/// let mut target = *b"......";
/// assert_eq!(fold_text(Page::Latin1, b"L\xc0 La", &mut target), 5);
/// assert_eq!(&target, b"l\xe0 la.");
/// assert_eq!(fold_text(Page::Latin9, b"\xbcUVRE", &mut target[..3]), 3);
/// assert_eq!(&target, b"\xbduvla.");
/// ```
pub fn fold_text(page: Page, text: &[u8], target: &mut [u8]) -> usize {
    let raw = fold_text_raw(page.number(), text, target);
    Refusal::check(raw.refusal).expect("the library has this page");
    raw.number
}

/// [`fold_text`] with a page number, which need not be that of a page, and with the refusal's number beside that of the letters. A refused call leaves
/// the target as it was.
///
/// ```
/// let mut target = *b"..";
/// let raw = libretto::fold_text_raw(16, b"LA", &mut target);
/// assert_eq!((raw.refusal, raw.number, &target), (14, 0, b".."));
/// ```
pub fn fold_text_raw(page: u32, text: &[u8], target: &mut [u8]) -> RawFolding {
    ffi::fold_text(page, text, target)
}

#[cfg(test)]
mod tests {
    use super::*;

    #[test]
    fn pages_have_their_numbers() {
        assert_eq!(Page::ALL.map(Page::number), [1, 15]);
        for page in Page::ALL {
            assert_eq!(Page::from_number(page.number()), Some(page));
        }
        for number in [0, 2, 9, 14, 16, 257, 271, u32::MAX] {
            assert_eq!(Page::from_number(number), None);
        }
    }

    #[test]
    fn both_pages_fold() {
        let folded = |page| [b'A', 0xa6, 0xb4, 0xbc, 0xbe, 0xc9, 0xd7, 0xff].map(|letter| fold(page, letter));
        assert_eq!(folded(Page::Latin1), [b'a', 0xa6, 0xb4, 0xbc, 0xbe, 0xe9, 0xd7, 0xff]);
        assert_eq!(folded(Page::Latin9), [b'a', 0xa8, 0xb8, 0xbd, 0xff, 0xe9, 0xd7, 0xff]);
    }
}
