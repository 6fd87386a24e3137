//! The phrases that are searched for: stretches of the text itself, from one letter to a long recitative, phrases that miss it by one letter, and
//! periodic ones.

use crate::random::Random;
use crate::texts::{repeated, Text};

/// The kinds of phrase.
#[derive(Clone, Copy, Debug, PartialEq, Eq)]
pub enum Kind {
    /// One letter of the text.
    Letter,
    /// 2 to 4 letters of the text, as a chorus cries them.
    Cry,
    /// 5 to 12 letters of the text.
    Word,
    /// 20 to 60 letters of the text, a verse line.
    Line,
    /// 200 to 1,000 letters of the text.
    Recitative,
    /// A word, a line and a recitative with one letter changed, so that the text does not have them.
    Absent,
    /// A short word repeated over 12 to 48 letters, whether the text has it or not.
    Periodic,
}

impl Kind {
    /// All kinds.
    pub const ALL: [Kind; 7] = [Kind::Letter, Kind::Cry, Kind::Word, Kind::Line, Kind::Recitative, Kind::Absent, Kind::Periodic];

    /// The name in tables.
    pub const fn name(self) -> &'static str {
        match self {
            Kind::Letter => "letter",
            Kind::Cry => "cry",
            Kind::Word => "word",
            Kind::Line => "line",
            Kind::Recitative => "recitative",
            Kind::Absent => "absent",
            Kind::Periodic => "periodic",
        }
    }

    /// Up to three phrases of this kind, all different, for this text.
    pub fn phrases(self, text: &Text) -> Vec<Vec<u8>> {
        let mut random = Random::new(self as u64);
        let mut phrases: Vec<Vec<u8>> = (0..3).map(|index| self.phrase(text, index, &mut random)).collect();
        phrases.sort();
        phrases.dedup();
        phrases
    }

    fn phrase(self, text: &Text, index: usize, random: &mut Random) -> Vec<u8> {
        match self {
            Kind::Absent => absent(&text.letters, [Kind::Word, Kind::Line, Kind::Recitative][index], random),
            Kind::Periodic => repeated(text.family.periods()[index], [12, 24, 48][index]),
            _ => stretch(&text.letters, self, random),
        }
    }

    /// The fewest and the most letters of a stretch of this kind.
    const fn lengths(self) -> (usize, usize) {
        match self {
            Kind::Letter => (1, 1),
            Kind::Cry => (2, 4),
            Kind::Word => (5, 12),
            Kind::Line => (20, 60),
            _ => (200, 1000),
        }
    }
}

/// A stretch of the text of this kind's length. It starts where a word does, if the text has words.
fn stretch(text: &[u8], kind: Kind, random: &mut Random) -> Vec<u8> {
    let (least, most) = kind.lengths();
    let length = random.between(least, most);
    let drawn = random.between(0, text.len() - length);
    let start = (1..=drawn).rev().find(|&start| text[start - 1] == b' ' || text[start - 1] == b'\n').unwrap_or(drawn);
    text[start..start + length].to_vec()
}

/// A stretch with one letter changed to another of the text's letters or, where the text still has it, to one that no text has.
fn absent(text: &[u8], kind: Kind, random: &mut Random) -> Vec<u8> {
    let mut phrase = stretch(text, kind, random);
    let place = random.below(phrase.len());
    phrase[place] = text[random.below(text.len())];
    if text.windows(phrase.len()).any(|window| window == phrase) {
        phrase[place] = b'#';
    }
    phrase
}

#[cfg(test)]
mod tests {
    use super::*;
    use crate::texts::Family;

    #[test]
    fn phrases_are_of_their_kind() {
        for text in Family::ALL.map(|family| Text::new(family, 1024)) {
            for kind in Kind::ALL {
                for phrase in kind.phrases(&text) {
                    let stands = text.letters.windows(phrase.len()).any(|window| window == phrase);
                    assert!(kind == Kind::Periodic || stands != (kind == Kind::Absent), "{} {}", text.family.name(), kind.name());
                    assert!((1..=1000).contains(&phrase.len()));
                }
            }
        }
    }
}
