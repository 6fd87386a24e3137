//! The resolver over random texts, refrains, line ends, every letter, French and Finnish texts, texts folded beforehand, and the longest of everything.
//! What a call leaves in its memory is compared in every call. Most tests go by one page and the other in turn.

use libretto::{fold_text, resolve_all, CuePlace, Page, Role};
use libretto_tests::books::{book, Cue, CUES, PHRASE};
use libretto_tests::evenings::{all_resolved, some_day};
use libretto_tests::groups::{resolve, resolve_backward, resolve_missing, resolve_rising, resolve_to, Outcome};
use libretto_tests::pages::{letters, PAGES};
use libretto_tests::roles::{GUEST, OPERATOR};
use libretto_tests::verses::{in_any_case, missing, not_behind, place_of, places, rising, total, verse, word, ALPHABETS};
use libretto_tests::words::{fibonacci, periodic};
use libretto_tests::{report, Random};

/// The longest text.
const TEXT: usize = 32_768;

/// A few cues that run forward, in every second round with one at fault among them or as the last: it does not stand in the text, or, where there is a
/// cue before it, not behind that; and what they come to.
fn some_cues(page: u32, alphabet: &[u8], text: &[u8], round: usize, random: &mut Random) -> (Vec<Cue>, Outcome) {
    let count = random.below(7).min(text.len());
    let longest = [2, 6, 40][random.below(3)];
    let mut cues = rising(page, text, count, longest, random);
    if round % 2 != 1 {
        return (cues, Outcome::Resolved);
    }
    let place = random.between(0, count);
    cues.truncate(if random.below(2) == 0 { place } else { count });
    if place > 0 && random.below(2) == 0 {
        let before = place_of(page, &cues[place - 1], text).expect("the cue stands in the text");
        cues.insert(place, not_behind(page, text, before, longest, random));
        return (cues, Outcome::Backward(place));
    }
    cues.insert(place, missing(page, alphabet, text, random));
    (cues, Outcome::Missing(place))
}

fn resolve_some(page: u32, alphabet: &[u8], text: &[u8], round: usize, random: &mut Random) {
    let (cues, outcome) = some_cues(page, alphabet, text, round, random);
    resolve_to(outcome, page, &cues, text, random);
}

/// The page of a round. Both have each alphabet, each kind of length, and cues at fault.
fn page_of(round: usize) -> u32 {
    PAGES[round / 2 % 2]
}

#[test]
fn random_texts() {
    let mut random = Random::new(51);
    for round in 0..60_000 {
        let alphabet = ALPHABETS[round % 7];
        let length = [random.below(12), random.below(80), random.below(400)][round % 3];
        let text = word(alphabet, length, &mut random);
        resolve_some(page_of(round), alphabet, &text, round, &mut random);
    }
    report("random_texts", 60_000);
}

#[test]
fn random_bytes() {
    let mut random = Random::new(52);
    let every_byte: Vec<u8> = (0..=255).collect();
    for round in 0..20_000 {
        let length = random.below(300);
        let text = word(&every_byte, length, &mut random);
        resolve_some(page_of(round), &every_byte, &text, round, &mut random);
    }
    report("random_bytes", 20_000);
}

#[test]
fn refrains() {
    let mut random = Random::new(53);
    for round in 0..60_000 {
        let (page, alphabet) = (page_of(round), ALPHABETS[round % 7]);
        let length = [random.below(30), random.below(150), random.below(900)][round % 3];
        let text = verse(page, alphabet, length, &mut random);
        resolve_some(page, alphabet, &text, round, &mut random);
    }
    report("refrains", 60_000);
}

/// Every occurrence of a phrase as a cue of its own, up to the most cues; then the one after the last.
fn every_occurrence(page: u32, phrase: &[u8], text: &[u8], random: &mut Random) {
    let in_a_case = |ordinal: usize| in_any_case(page, phrase, &mut Random::new(ordinal as u64));
    let cue = |ordinal: usize| Cue::new(&in_a_case(ordinal), ordinal as u16, b"");
    let total = total(page, phrase, text);
    let mut cues: Vec<Cue> = (1..=total.min(CUES)).map(cue).collect();
    resolve_rising(page, &cues, text, random);
    cues.truncate(CUES - 1);
    cues.push(cue(total + 1));
    resolve_missing(page, &cues, cues.len() - 1, text, random);
}

#[test]
fn overlapping_refrains() {
    let mut random = Random::new(54);
    let words: [&[u8]; 6] = [b"a", b"aA\n", b"\xe9a\xc9", b"aab", b"la la\r\n", b"\xbd\xff\xbc\xbe"];
    for n in [1, 2, 7, 30, 144, 500, 1100] {
        for text in words.map(|word| periodic(word, n)).into_iter().chain([fibonacci(n)]) {
            let text = in_any_case(15, &text, &mut random);
            for m in [1, 2, 3, 5, 8, 13, 60] {
                if m <= n {
                    let start = random.between(0, n - m);
                    every_occurrence(PAGES[m % 2], &text[start..start + m], &text, &mut random);
                }
            }
        }
    }
    report("overlapping_refrains", 2 * 7 * 34);
}

/// Every occurrence of each of these phrases, which are of one length, in the order of their places.
fn occurrences(page: u32, phrases: &[&[u8]], text: &[u8]) -> Vec<Cue> {
    let of_phrase = |&phrase: &&[u8]| {
        let cue = move |(index, place)| (place, Cue::new(phrase, index as u16 + 1, b""));
        places(page, phrase, text).into_iter().enumerate().map(cue).collect::<Vec<_>>()
    };
    let mut placed: Vec<(usize, Cue)> = phrases.iter().flat_map(of_phrase).collect();
    placed.sort_by_key(|(place, _)| *place);
    placed.into_iter().map(|(_, cue)| cue).collect()
}

/// Every text of up to eight letters and bytes of line ends, with every occurrence of every phrase of one in one book, and of every phrase of two in
/// another one.
#[test]
fn every_short_text() {
    let mut random = Random::new(55);
    let phrases: [&[u8]; 12] = [b"a", b"\n", b"\r", b"aa", b"a\n", b"a\r", b"\na", b"\n\n", b"\n\r", b"\ra", b"\r\n", b"\r\r"];
    for length in 0..=8 {
        for letters in 0..3usize.pow(length) {
            let text: Vec<u8> = (0..length).map(|k| b"a\n\r"[letters / 3usize.pow(k) % 3]).collect();
            let page = PAGES[letters % 2];
            for of_length in [&phrases[..3], &phrases[3..]] {
                resolve_rising(page, &occurrences(page, of_length, &text), &text, &mut random);
            }
            for phrase in phrases {
                resolve_missing(page, &[Cue::new(phrase, total(page, phrase, &text) as u16 + 1, b"")], 0, &text, &mut random);
            }
        }
    }
    report("every_short_text", 9841 * 14);
}

/// All bytes in one text: which of them are one letter, by each page.
#[test]
fn every_letter_with_every_other() {
    let mut random = Random::new(56);
    let mut text: Vec<u8> = (0..=255).collect();
    for k in (1..256).rev() {
        text.swap(k, random.between(0, k));
    }
    for page in PAGES {
        let rule = reference::folding_rule(page).expect("the reference has the page");
        for letter in 0..=255 {
            let folded_alike = text.iter().filter(|&&other| rule(other) == rule(letter)).count();
            let cues: Vec<Cue> = (1..=folded_alike + 1).map(|ordinal| Cue::new(&[letter], ordinal as u16, b"")).collect();
            resolve_rising(page, &cues[..folded_alike], &text, &mut random);
            resolve_missing(page, &cues, folded_alike, &text, &mut random);
        }
    }
    report("every_letter_with_every_other", 2 * 512);
}

/// Letter by letter the small one, as Unicode has it. On page 1 the bytes of these four are signs without case, so there they stay.
fn small(page: u32, text: &str) -> Vec<char> {
    let stays = |sign| page == 1 && "ŠŽŒŸ".contains(sign);
    let small = |sign: char| sign.to_lowercase().next().expect("a letter has a small one or is its own");
    text.chars().map(|sign| if stays(sign) { sign } else { small(sign) }).collect()
}

/// Where the phrase stands in a text that is kept in ISO 8859-15 and read by this page. A letter is one byte, so a place is a letter's index; lines end
/// at byte 10.
fn places_of(page: u32, phrase: &str, text: &str) -> Vec<CuePlace> {
    let (phrase, text) = (small(page, phrase), small(page, text));
    let stands = |&place: &usize| text[place..].starts_with(&phrase);
    let told = |place: usize| {
        let lines: Vec<&[char]> = text[..place].split(|&sign| sign == '\n').collect();
        CuePlace { place: place as u32, line: lines.len() as u32, column: lines[lines.len() - 1].len() as u32 + 1 }
    };
    (0..text.len()).filter(stands).map(told).collect()
}

const FRENCH: &str = "ŒDIPE\nÔ sœur, mon cœur est las.\nLE CHŒUR\nSŒUR, TON CŒUR EST LAS.\nOn va à L'HAŸ, à l'Haÿ, là-bas,\n\
                      les Vœux, les VŒUX d'été, d'Été.\n";
const FINNISH: &str = "Šakaali ulvoo,\nŠAKAALI nukkuu, šakaali syö;\nDŽONKKI, džonkki keinuu, Džonkki,\npastišši, PASTIŠŠI,\n\
                       yö on pitkä, YÖ ON PITKÄ.\n";

/// Each phrase, with its total by page 15, and with its totals by page 1: as it is written here, in small letters, and in capital ones.
#[test]
fn french_and_finnish_texts() {
    let cases = [
        (FRENCH, "Œdipe", 1, [1, 0, 1]),
        (FRENCH, "cœur", 2, [1, 1, 1]),
        (FRENCH, "Chœur", 1, [0, 0, 1]),
        (FRENCH, "sœur, ", 2, [1, 1, 1]),
        (FRENCH, "l'Haÿ", 2, [1, 1, 1]),
        (FRENCH, "Vœux", 2, [1, 1, 1]),
        (FRENCH, "est las.", 2, [2, 2, 2]),
        (FRENCH, "d'été", 2, [2, 2, 2]),
        (FINNISH, "Šakaali", 3, [2, 1, 2]),
        (FINNISH, "džonkki", 3, [2, 2, 1]),
        (FINNISH, "pastišši", 2, [1, 1, 1]),
        (FINNISH, "yö on pitkä", 2, [2, 2, 2]),
    ];
    let mut random = Random::new(63);
    for (text, phrase, on_15, on_1) in cases {
        for (form, on_1) in [phrase.to_string(), phrase.to_lowercase(), phrase.to_uppercase()].iter().zip(on_1) {
            for (page, total) in [(15, on_15), (1, on_1)] {
                let places = places_of(page, form, text);
                assert_eq!(places.len(), total, "page {page}, \"{form}\": the total by Unicode");
                let (text, form) = (letters(15, text), letters(15, form));
                let cues: Vec<Cue> = (1..=total as u16 + 1).map(|ordinal| Cue::new(&form, ordinal, b"")).collect();
                resolve_rising(page, &cues[..total], &text, &mut random);
                resolve_missing(page, &cues, total, &text, &mut random);
                let day = some_day(&mut random);
                let resolved = book(&all_resolved(GUEST, &cues[..total], day, &mut random));
                let found = resolve_all(Role::Guest, day.into(), Page::from_number(page).expect("the page is known"), &resolved, &text);
                assert_eq!(found, Ok(places), "page {page}, \"{}\"", form.escape_ascii());
            }
        }
    }
    report("french_and_finnish_texts", 12 * 3 * 2 * 2);
}

/// A text that was folded beforehand gives the same places, lines and columns, and the same refusal where a cue is at fault.
#[test]
fn texts_folded_beforehand() {
    let mut random = Random::new(64);
    let mut changed = 0;
    for round in 0..12_000 {
        let (page, alphabet) = (Page::ALL[round / 2 % 2], ALPHABETS[round % 7]);
        let length = [random.below(12), random.below(80), random.below(400)][round % 3];
        let text = if round / 4 % 2 == 0 { verse(page.number(), alphabet, length, &mut random) } else { random.word(256, length) };
        let (cues, _) = some_cues(page.number(), alphabet, &text, round, &mut random);
        let mut folded = vec![b'?'; text.len()];
        assert_eq!(fold_text(page, &text, &mut folded), text.len());
        changed += usize::from(folded != text);

        let answers = [&text, &folded].map(|text| resolve(page.number(), &cues, text, &mut random));
        assert_eq!(answers[0], answers[1], "{page:?}, {cues:?} in \"{}\"", text.escape_ascii());
        let day = some_day(&mut random);
        let book = book(&all_resolved(OPERATOR, &cues, day, &mut random));
        let places = [&text, &folded].map(|text| resolve_all(Role::Operator, day.into(), page, &book, text));
        assert_eq!(places[0], places[1], "{page:?}, {cues:?} in \"{}\"", text.escape_ascii());
    }
    assert!(changed > 8000, "folding changed {changed} texts only");
    report("texts_folded_beforehand", 2 * 12_000);
}

#[test]
fn places_lines_and_columns() {
    let places = |text: &[u8], phrase: &[u8], ordinal| {
        let by_page = |page| {
            let found = resolve_all(Role::Operator, 9569, page, &book(&[Cue::new(phrase, ordinal, b"")]), text);
            found.expect("the cue stands in the text").iter().map(|&CuePlace { place, line, column }| (place, line, column)).next()
        };
        let [by_1, by_15] = Page::ALL.map(by_page);
        assert_eq!(by_1, by_15, "\"{}\" in \"{}\" by the two pages", phrase.escape_ascii(), text.escape_ascii());
        by_1
    };
    assert_eq!(places(b"la\nla", b"la", 2), Some((3, 2, 1)));
    assert_eq!(places(b"la\nla", b"\n", 1), Some((2, 1, 3)));
    assert_eq!(places(b"la\n\nla", b"\n", 2), Some((3, 2, 1)));
    assert_eq!(places(b"\nla la", b"LA", 2), Some((4, 2, 4)));
    // 13 alone, and the pair: before it, between its bytes, and after it.
    assert_eq!(places(b"la\rla", b"la", 2), Some((3, 2, 1)));
    assert_eq!(places(b"la\rla", b"\r", 1), Some((2, 1, 3)));
    assert_eq!(places(b"a\r\na\r\n", b"\r", 2), Some((4, 2, 2)));
    assert_eq!(places(b"a\r\na\r\n", b"\n", 2), Some((5, 2, 3)));
    assert_eq!(places(b"a\r\na\r\n", b"a\r\n", 2), Some((3, 2, 1)));
    // 13 13 10 is two endings, and so is 10 13.
    assert_eq!(places(b"a\r\r\nb", b"\r\n", 1), Some((2, 2, 1)));
    assert_eq!(places(b"a\r\r\nb", b"\n", 1), Some((3, 2, 2)));
    assert_eq!(places(b"a\r\r\nb", b"b", 1), Some((4, 3, 1)));
    assert_eq!(places(b"a\n\rb", b"\r", 1), Some((2, 2, 1)));
    assert_eq!(places(b"a\n\rb", b"b", 1), Some((3, 3, 1)));
    assert_eq!(places(b"\xc9t\xc9T\xe9", b"\xe9t\xe9", 2), Some((2, 1, 3)));
    assert_eq!(places(&[b'\n'; TEXT], b"\n", 32_768), Some((32_767, 32_768, 1)));
    assert_eq!(places(&[b'\r'; TEXT], b"\r", 32_768), Some((32_767, 32_768, 1)));
    assert_eq!(places(&periodic(b"\r\n", TEXT), b"\r", 16_384), Some((32_766, 16_384, 1)));
    assert_eq!(places(&periodic(b"\r\n", TEXT), b"\n", 16_384), Some((32_767, 16_384, 2)));
    assert_eq!(places(&periodic(b"\n\r", TEXT), b"\r", 16_384), Some((32_767, 16_385, 1)));
    assert_eq!(places(&[b'a'; TEXT], b"A", 32_768), Some((32_767, 1, 32_768)));
    assert_eq!(places(&[&b"\n"[..], &[b'a'; TEXT - 1]].concat(), b"aa", 32_766), Some((32_766, 2, 32_766)));
}

/// Each ending after every number of letters up to some blocks of counting: cues before it, in it and after it, and some of them, since a line is
/// counted on from the cue before. Falling they are refused.
#[test]
fn endings_at_every_distance() {
    let mut random = Random::new(60);
    let endings: [&[u8]; 7] = [b"\n", b"\r", b"\r\n", b"\n\r", b"\r\r\n", b"\r\n\r", b"\n\r\n"];
    for distance in 0..=600 {
        for ending in endings {
            let text = [b"b", &vec![b'a'; distance][..], ending, b"b", &vec![b'a'; distance % 200], ending, b"b"].concat();
            let page = PAGES[distance % 2];
            let mut cues = occurrences(page, &[b"b", b"\n", b"\r"], &text);
            resolve_rising(page, &cues, &text, &mut random);
            let mut some = cues.clone();
            some.retain(|_| random.below(2) == 0);
            resolve_rising(page, &some, &text, &mut random);
            cues.reverse();
            resolve_backward(page, &cues, 1, &text, &mut random);
        }
    }
    report("endings_at_every_distance", 601 * 7 * 3);
}

#[test]
fn longest_texts_and_phrases() {
    let mut random = Random::new(57);
    for n in [PHRASE - 1, PHRASE, PHRASE + 1, 5000, TEXT - 1, TEXT] {
        for text in [word(ALPHABETS[6], n, &mut random), periodic(b"aB\r\n", n), fibonacci(n), vec![b'\n'; n]] {
            for m in [1, 2, 255, 256, 257, PHRASE - 1, PHRASE] {
                let page = PAGES[m % 2];
                if m > n {
                    resolve_missing(page, &[Cue::new(&periodic(&text, m), 1, b"")], 0, &text, &mut random);
                    continue;
                }
                let phrase = in_any_case(page, &text[n - m..], &mut random);
                let last = total(page, &phrase, &text) as u16;
                let mut ordinals = vec![1, last / 2 + 1, last, last + 1, 65_535];
                ordinals.dedup();
                let cues: Vec<Cue> = ordinals.iter().map(|&ordinal| Cue::new(&phrase, ordinal, b"title")).collect();
                let found = cues.len() - 2;
                resolve_rising(page, &cues[..found], &text, &mut random);
                resolve_missing(page, &cues, found, &text, &mut random);
                resolve_missing(page, &cues[found + 1..], 0, &text, &mut random);
            }
        }
    }
    report("longest_texts_and_phrases", 4 * 124);
}

/// The most cues, also at every letter of a text.
#[test]
fn most_cues() {
    let mut random = Random::new(58);
    for (page, n) in [(1, CUES), (15, CUES), (15, CUES + 1), (1, 2000), (15, 2000)] {
        let text = verse(page, ALPHABETS[6], n, &mut random);
        let mut cues = rising(page, &text, CUES, 8, &mut random);
        resolve_rising(page, &cues, &text, &mut random);
        for place in [998, 997, 500, 256, 255, 1, 0] {
            cues[place] = Cue::new(b"not in any verse", 1, b"");
            resolve_missing(page, &cues, place, &text, &mut random);
        }
    }
    report("most_cues", 5 * 8);
}

#[test]
fn nothing_to_find_or_to_search() {
    let mut random = Random::new(59);
    for text in [&b""[..], b"A", b"L\xc0\n", &[b'A'; TEXT]] {
        for round in 0..20 {
            resolve_rising(page_of(round), &[], text, &mut random);
        }
    }
    for round in 0..20 {
        let page = page_of(round);
        resolve_missing(page, &[Cue::new(b"a", 1, b"")], 0, b"", &mut random);
        resolve_missing(page, &[Cue::new(b"ab", 1, b""), Cue::new(b"a", 1, b"")], 0, b"a", &mut random);
    }
    report("nothing_to_find_or_to_search", 120);
}
