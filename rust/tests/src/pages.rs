//! Pages for the tests: their numbers, numbers that are no page's, and what sign of Unicode each letter of a page is.

/// The numbers of the pages.
pub const PAGES: [u32; 2] = [1, 15];

/// Numbers that are no page's: all others up to 300, and far ones, some of which end in the bits of a page's number.
pub fn unknown_pages() -> Vec<u32> {
    let near = (0..=300).filter(|page| !PAGES.contains(page));
    near.chain([0x1_0001, 0x1_000f, 1 << 31, (1 << 31) + 1, (1 << 31) + 15, u32::MAX]).collect()
}

/// The sign that a letter of this page is: in ISO 8859-1 that of the same number, and in ISO 8859-15 too except for eight letters.
pub fn sign(page: u32, letter: u8) -> char {
    match (page, letter) {
        (15, 0xa4) => '€',
        (15, 0xa6) => 'Š',
        (15, 0xa8) => 'š',
        (15, 0xb4) => 'Ž',
        (15, 0xb8) => 'ž',
        (15, 0xbc) => 'Œ',
        (15, 0xbd) => 'œ',
        (15, 0xbe) => 'Ÿ',
        _ => char::from(letter),
    }
}

/// The letters of a text by this page, which must have them all.
#[track_caller]
pub fn letters(page: u32, text: &str) -> Vec<u8> {
    let letter = |wanted| (0..=255).find(|&letter| sign(page, letter) == wanted);
    text.chars().map(|wanted| letter(wanted).unwrap_or_else(|| panic!("{wanted:?} is no letter of page {page}"))).collect()
}
