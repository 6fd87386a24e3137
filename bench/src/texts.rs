//! The texts that are searched: libretto-like verse, random letters, and words with many repeats.

use crate::random::Random;
use crate::verse;

/// The kinds of text.
#[derive(Clone, Copy, Debug, PartialEq, Eq)]
pub enum Family {
    /// Verse in ISO 8859-1, with accents and refrains.
    Verse,
    /// Random letters from an alphabet of 26.
    TwentySix,
    /// Random letters from an alphabet of 4.
    Four,
    /// Random letters from an alphabet of 2.
    Two,
    /// The letter a alone, which is also random from an alphabet of 1.
    One,
    /// ab over and over.
    Pair,
    /// The Fibonacci word abaababa...
    Fibonacci,
}

impl Family {
    /// All families, the most usual text first.
    pub const ALL: [Family; 7] = [Family::Verse, Family::TwentySix, Family::Four, Family::Two, Family::One, Family::Pair, Family::Fibonacci];

    /// The name in tables and charts.
    pub const fn name(self) -> &'static str {
        match self {
            Family::Verse => "verse",
            Family::TwentySix => "26 letters",
            Family::Four => "4 letters",
            Family::Two => "2 letters",
            Family::One => "a^n",
            Family::Pair => "(ab)^n",
            Family::Fibonacci => "Fibonacci",
        }
    }

    /// Short words that a periodic phrase of this text repeats. At least one stands in the text many times over, where any can.
    pub const fn periods(self) -> [&'static [u8]; 3] {
        match self {
            Family::Verse => [b"la ", b"ha, ", b"e"],
            Family::TwentySix | Family::Four => [b"a", b"ab", b"abc"],
            Family::Two => [b"a", b"ab", b"aab"],
            Family::One => [b"a", b"ab", b"aab"],
            Family::Pair => [b"ab", b"ba", b"aab"],
            Family::Fibonacci => [b"ab", b"aba", b"abaab"],
        }
    }
}

/// A text of one family.
pub struct Text {
    /// Its family.
    pub family: Family,
    /// Its letters.
    pub letters: Vec<u8>,
}

impl Text {
    /// The text of this family and length; there is one of each.
    pub fn new(family: Family, length: usize) -> Text {
        let mut random = Random::new(length as u64);
        let letters = match family {
            Family::Verse => verse::libretto(length, &mut random),
            Family::TwentySix => any_of(26, length, &mut random),
            Family::Four => any_of(4, length, &mut random),
            Family::Two => any_of(2, length, &mut random),
            Family::One => repeated(b"a", length),
            Family::Pair => repeated(b"ab", length),
            Family::Fibonacci => fibonacci(length),
        };
        Text { family, letters }
    }
}

/// Letters drawn evenly from the first so many of the alphabet.
fn any_of(alphabet: usize, length: usize, random: &mut Random) -> Vec<u8> {
    (0..length).map(|_| b'a' + random.below(alphabet) as u8).collect()
}

/// The word over and over, up to this length.
pub fn repeated(word: &[u8], length: usize) -> Vec<u8> {
    word.iter().copied().cycle().take(length).collect()
}

/// The front of the word that a → ab, b → a leaves as it is.
fn fibonacci(length: usize) -> Vec<u8> {
    let mut letters = b"ab".to_vec();
    let mut next = 1;
    while letters.len() < length {
        letters.extend_from_slice(if letters[next] == b'a' { b"ab" } else { b"a" });
        next += 1;
    }
    letters.truncate(length);
    letters
}

#[cfg(test)]
mod tests {
    use super::*;

    #[test]
    fn texts_have_their_length_and_letters() {
        for family in Family::ALL {
            assert_eq!(Text::new(family, 1024).letters.len(), 1024, "{}", family.name());
        }
        assert_eq!(fibonacci(13), b"abaababaabaab");
        assert_eq!(repeated(b"ab", 5), b"ababa");
        assert!(Text::new(Family::Four, 500).letters.iter().all(|letter| b"abcd".contains(letter)));
    }

    #[test]
    fn verse_has_accents_lines_and_refrains() {
        let letters = Text::new(Family::Verse, 32_768).letters;
        assert!(letters.iter().filter(|&&letter| letter == b'\n').count() > 500);
        assert!(letters.iter().any(|&letter| letter >= 0xc0));
        assert!(letters.windows(9).filter(|window| window == b"la la la ").count() > 20);
    }
}
