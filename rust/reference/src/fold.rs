//! Document 01, "Cue book, folding, lines": folding. Document 02, (iv): the pages.

/// A page's rule for a letter; there is none for a number that is neither 1 nor 15.
pub fn rule(page: u32) -> Option<fn(u8) -> u8> {
    match page {
        1 => Some(page_1),
        15 => Some(page_15),
        _ => None,
    }
}

/// ISO 8859-1. Adds 32 to 0x41–0x5A and to 0xC0–0xDE except 0xD7; all other bytes stay.
fn page_1(letter: u8) -> u8 {
    match letter {
        0xd7 => letter,
        0x41..=0x5a | 0xc0..=0xde => letter + 32,
        _ => letter,
    }
}

/// ISO 8859-15. Page 1's rule, and four pairs besides: the first folds to the second.
fn page_15(letter: u8) -> u8 {
    match letter {
        0xa6 => 0xa8,
        0xb4 => 0xb8,
        0xbc => 0xbd,
        0xbe => 0xff,
        _ => page_1(letter),
    }
}

/// 0 and what the letter folds to, or 14 and 0 where the page is neither 1 nor 15.
pub fn fold(page: u32, letter: u8) -> (u32, u32) {
    match rule(page) {
        Some(rule) => (0, rule(letter).into()),
        None => (14, 0),
    }
}

/// Folds the letters of a text into the target, as many as it has room for: 0 and how many were written. Another page than 1 and 15 is refused with 14
/// and 0, and nothing is written.
pub fn fold_text(page: u32, text: &[u8], target: &mut [u8]) -> (u32, usize) {
    let Some(rule) = rule(page) else {
        return (14, 0);
    };
    let mut written = 0;
    while written < text.len() && written < target.len() {
        target[written] = rule(text[written]);
        written += 1;
    }
    (0, written)
}
