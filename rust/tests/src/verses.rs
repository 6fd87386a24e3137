//! Texts with refrains, and cues that stand in them. What a letter's other case is goes by the page.

use crate::books::Cue;
use crate::Random;

/// Alphabets: one letter in both cases, the bytes of line ends among letters, accents in both cases, the letters next to the ranges that folding moves,
/// with those that lie 32 above them, the letters of page 15's own pairs with some next to them, and those among others as a text has them.
pub const ALPHABETS: [&[u8]; 7] = [
    b"aA",
    b"ab\r\n",
    b"la\xc9\xe9 \r\n",
    b"\xc0\xe0\xde\xfe\xd7\xf7\xdf\xff",
    b"@`AaZz[{\xbf\xc0\xd6\xd7\xd8\xde\xdf\xf6\xf7\xf8\xff\r\n",
    b"\xa5\xa6\xa7\xa8\xb4\xb5\xb8\xbc\xbd\xbe\xbf\xdf\xff",
    b"la\xc9\xe9\xa6\xb8\xbc\xbd\xbe\xff \r\n",
];

/// The letter of the other case by this page; a letter without one is itself.
pub fn other_case(page: u32, letter: u8) -> u8 {
    match (page, letter) {
        (15, 0xa6) => 0xa8,
        (15, 0xa8) => 0xa6,
        (15, 0xb4) => 0xb8,
        (15, 0xb8) => 0xb4,
        (15, 0xbc) => 0xbd,
        (15, 0xbd) => 0xbc,
        (15, 0xbe) => 0xff,
        (15, 0xff) => 0xbe,
        (_, 0xd7 | 0xf7) => letter,
        (_, b'A'..=b'Z' | 0xc0..=0xde) => letter + 32,
        (_, b'a'..=b'z' | 0xe0..=0xfe) => letter - 32,
        _ => letter,
    }
}

/// The word with each letter in one case or the other.
pub fn in_any_case(page: u32, word: &[u8], random: &mut Random) -> Vec<u8> {
    word.iter().map(|&letter| if random.below(2) == 0 { letter } else { other_case(page, letter) }).collect()
}

/// A word of letters from this alphabet.
pub fn word(alphabet: &[u8], length: usize, random: &mut Random) -> Vec<u8> {
    (0..length).map(|_| alphabet[random.below(alphabet.len())]).collect()
}

/// Up to three refrains in any case, over and over, often with nothing between, so that they overlap themselves and each other.
pub fn verse(page: u32, alphabet: &[u8], length: usize, random: &mut Random) -> Vec<u8> {
    let count = random.between(1, 3);
    let refrains: Vec<Vec<u8>> = (0..count)
        .map(|_| {
            let letters = random.between(1, 5);
            word(alphabet, letters, random)
        })
        .collect();
    let mut verse = Vec::new();
    while verse.len() < length {
        verse.extend(in_any_case(page, &refrains[random.below(count)], random));
        verse.extend([&b""[..], b"", b"", b"\n", b" "][random.below(5)]);
    }
    verse.truncate(length);
    verse
}

/// The places of the phrase, which is not empty, in the text, in any case.
pub fn places(page: u32, phrase: &[u8], text: &[u8]) -> Vec<usize> {
    let same = |(&a, &b): (&u8, &u8)| a == b || a == other_case(page, b);
    let stands = |window: &[u8]| window.iter().zip(phrase).all(same);
    text.windows(phrase.len()).enumerate().filter(|(_, window)| stands(window)).map(|(place, _)| place).collect()
}

/// How often the phrase occurs in the text, in any case.
pub fn total(page: u32, phrase: &[u8], text: &[u8]) -> usize {
    places(page, phrase, text).len()
}

/// The place of the cue's occurrence in the text, if that exists.
pub fn place_of(page: u32, cue: &Cue, text: &[u8]) -> Option<usize> {
    places(page, &cue.phrase, text).get(usize::from(cue.ordinal) - 1).copied()
}

/// The cue that stands at this place of the text: so many letters in any case, with the ordinal of this occurrence.
pub fn cue_at(page: u32, text: &[u8], place: usize, length: usize, random: &mut Random) -> Cue {
    let stretch = &text[place..place + length];
    let ordinal = total(page, stretch, &text[..place + length]);
    Cue { phrase: in_any_case(page, stretch, random), ordinal: ordinal as u16, title: random.word(2, length % 4), days: None, mark: None }
}

/// A cue that stands in the text, which is not empty: a stretch of up to `longest` letters, at any place.
pub fn standing(page: u32, text: &[u8], longest: usize, random: &mut Random) -> Cue {
    let length = random.between(1, longest.min(text.len()));
    let start = random.between(0, text.len() - length);
    cue_at(page, text, start, length, random)
}

/// So many of the places below the bound, rising; all in turn where there are no more.
pub fn rising_places(count: usize, bound: usize, random: &mut Random) -> Vec<usize> {
    assert!(count <= bound, "{count} places below {bound} cannot rise");
    let mut places = Vec::new();
    for place in 0..bound {
        if random.below(bound - place) < count - places.len() {
            places.push(place);
        }
    }
    places
}

/// So many cues that stand in the text and run forward, each a stretch of up to `longest` letters.
pub fn rising(page: u32, text: &[u8], count: usize, longest: usize, random: &mut Random) -> Vec<Cue> {
    let places = rising_places(count, text.len(), random);
    let mut at = |&place: &usize| {
        let length = random.between(1, longest.min(text.len() - place));
        cue_at(page, text, place, length, random)
    };
    places.iter().map(&mut at).collect()
}

/// Cues that stand in the text and run forward, with phrases of these lengths.
pub fn rising_of_lengths(page: u32, text: &[u8], lengths: &[usize], random: &mut Random) -> Vec<Cue> {
    let longest = lengths.iter().copied().max().unwrap_or(0);
    let places = rising_places(lengths.len(), text.len() + 1 - longest, random);
    places.iter().zip(lengths).map(|(&place, &length)| cue_at(page, text, place, length, random)).collect()
}

/// A cue that stands in the text, but not behind this place: at the place itself, just before it, or anywhere before it.
pub fn not_behind(page: u32, text: &[u8], place: usize, longest: usize, random: &mut Random) -> Cue {
    let start = [place, place.saturating_sub(1), random.between(0, place)][random.below(3)];
    let length = random.between(1, longest.min(text.len() - start));
    cue_at(page, text, start, length, random)
}

/// A cue that does not stand in the text: a stretch of it or a random word, with the ordinal after its last occurrence or a larger one, or a phrase
/// longer than the text.
pub fn missing(page: u32, alphabet: &[u8], text: &[u8], random: &mut Random) -> Cue {
    let phrase = match random.below(3) {
        0 => [text, &text[..text.len().min(3)], b"a"].concat(),
        1 if !text.is_empty() => standing(page, text, 4, random).phrase,
        _ => word(alphabet, 2, random),
    };
    let total = total(page, &phrase, text);
    let ordinal = [total + 1, total + 1, random.between(total + 1, 65_535)][random.below(3)];
    Cue::new(&phrase, ordinal as u16, b"")
}
