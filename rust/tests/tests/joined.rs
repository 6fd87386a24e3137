//! Acts joined (document 02, (ix)): texts cut in two at every place. The places in the whole are those of the first part, those that cross the seam, and
//! those of the second part moved up, by whatever methods; and the folded whole is the folded parts joined.

use libretto::{find, fold_text, Method, Page, Refusal};
use libretto_tests::words::{all_words, fibonacci, periodic};
use libretto_tests::Random;

/// The places that a find leaves in a list just long enough for its total.
fn places(method: Method, phrase: &[u8], text: &[u8]) -> Vec<u32> {
    let mut scratch = vec![0xabcd; method.scratch_entries(phrase.len())];
    let total = find(method, phrase, text, &mut scratch, &mut []).unwrap().total;
    let mut list = vec![u32::MAX; total as usize];
    assert_eq!(find(method, phrase, text, &mut scratch, &mut list).unwrap().total, total);
    list
}

/// Where the phrase stands in the whole, starting before the cut and ending after it, by looking at each such place.
fn crossing(phrase: &[u8], text: &[u8], cut: usize) -> Vec<u32> {
    let crosses = |k: &usize| *k < cut && cut < k + phrase.len() && text[*k..].starts_with(phrase);
    (0..text.len()).filter(crosses).map(|k| k as u32).collect()
}

/// Cuts the text at this place and compares. The methods are those of the first part, the second, and the whole.
fn compare_joined(phrase: &[u8], text: &[u8], cut: usize, [first, second, whole]: [Method; 3]) {
    let (front, back) = text.split_at(cut);
    let moved = places(second, phrase, back).into_iter().map(|place| place + cut as u32).collect();
    let joined = [places(first, phrase, front), crossing(phrase, text, cut), moved].concat();
    let found = places(whole, phrase, text);
    assert!(
        found == joined,
        "phrase \"{}\", text \"{}\" cut at {cut}, methods {first}, {second} and {whole}: found {found:?}, joined {joined:?}",
        phrase.escape_ascii(),
        text.escape_ascii()
    );
}

/// All triples of methods, one after another and again from the first.
struct Triples(usize);

impl Triples {
    fn next(&mut self) -> [Method; 3] {
        let number = self.0;
        self.0 += 1;
        [number / 36, number / 6, number].map(|index| Method::ALL[index % 6])
    }
}

/// Every phrase of up to 4 letters in every text of up to 8, over two letters, cut at every place, by the triples in turn.
#[test]
fn every_short_text_at_every_cut() {
    let mut triples = Triples(0);
    for phrase in (1..=4).flat_map(|m| all_words(2, m)) {
        for text in (0..=8).flat_map(|n| all_words(2, n)) {
            for cut in 0..=text.len() {
                compare_joined(&phrase, &text, cut, triples.next());
            }
        }
    }
    assert_eq!(triples.0, 30 * 4_097);
}

/// Refrains that overlap themselves, cut at every place, by every triple of methods.
#[test]
fn periodic_texts_by_every_triple() {
    for text in [periodic(b"a", 20), periodic(b"ab", 21), periodic(b"aab", 22), fibonacci(23)] {
        for m in [1, 2, 3, 5, 8, 13, 21, 30] {
            let phrase = &[&text[..], &text[..]].concat()[1..1 + m];
            for cut in 0..=text.len() {
                let mut triples = Triples(0);
                (0..216).for_each(|_| compare_joined(phrase, &text, cut, triples.next()));
            }
        }
    }
}

/// Random texts over 1 to 256 letters, with phrases from them, often across the seam, and longer than a part.
#[test]
fn random_texts_at_every_cut() {
    let mut random = Random::new(17);
    let mut triples = Triples(0);
    for round in 0..240 {
        let letters = [1, 2, 3, 26, 256][round % 5];
        let length = random.between(1, 120);
        let text = random.word(letters, length);
        let start = random.below(text.len());
        let longest = 1 + random.below(20);
        let end = random.between(start + 1, text.len().min(start + longest));
        for cut in 0..=text.len() {
            compare_joined(&text[start..end], &text, cut, triples.next());
        }
    }
    assert!(triples.0 >= 10_000, "only {} cuts", triples.0);
}

/// The longest text, and the longest phrase, which stands across the seam and on both sides of it.
#[test]
fn the_longest_texts() {
    let phrase = periodic(b"aab", 1024);
    let text = periodic(b"aab", 32_768);
    let mut triples = Triples(0);
    for cut in [0, 1, 2, 1023, 1024, 1025, 16_384, 31_743, 31_744, 31_745, 32_767, 32_768] {
        (0..6).for_each(|_| compare_joined(&phrase, &text, cut, triples.next()));
    }
    // One letter more, though each part is short enough: the whole is refused.
    let longer = periodic(b"aab", 32_769);
    for method in Method::ALL {
        assert_eq!(find(method, &phrase, &longer, &mut [0; 1281], &mut []), Err(Refusal::LongText), "{method}");
    }
}

#[test]
fn folded_parts_joined() {
    let mut random = Random::new(18);
    for _ in 0..200 {
        let length = random.between(0, 200);
        let text = random.word(256, length);
        for page in Page::ALL {
            let folded = |part: &[u8]| {
                let mut target = vec![b'?'; part.len()];
                assert_eq!(fold_text(page, part, &mut target), part.len());
                target
            };
            for cut in 0..=text.len() {
                let (front, back) = text.split_at(cut);
                assert!(folded(&text) == [folded(front), folded(back)].concat(), "{page:?}, text \"{}\" cut at {cut}", text.escape_ascii());
            }
        }
    }
}
