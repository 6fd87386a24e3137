//! Periodic and Fibonacci texts with phrases cut from them: many part matches, borders and overlaps.

use libretto_tests::words::{fibonacci, periodic};
use libretto_tests::{compare, needed, report, Random, METHODS};

const PERIODS: [&[u8]; 7] = [b"a", b"ab", b"aab", b"abb", b"abac", b"aaaab", b"abaab"];

/// A front of Fibonacci's word, the periodic words, and blocks of a with a b between.
fn texts(length: usize) -> Vec<Vec<u8>> {
    let mut texts: Vec<Vec<u8>> = PERIODS.iter().map(|word| periodic(word, length)).collect();
    texts.push(fibonacci(length));
    let mut word = vec![b'a'; length];
    for place in (1..length).map(|k| k * (k + 1) / 2).take_while(|&place| place < length) {
        word[place] = b'b';
    }
    texts.push(word);
    texts
}

/// Phrases of this length from the text: its front, its end, its middle, and each with a letter changed at the front, the middle or the end.
fn phrases(text: &[u8], m: usize) -> Vec<Vec<u8>> {
    let mut phrases = Vec::new();
    for start in [0, text.len() - m, (text.len() - m) / 2] {
        let cut = text[start..start + m].to_vec();
        for place in [0, m / 2, m - 1] {
            let mut changed = cut.clone();
            changed[place] = if cut[place] == b'a' { b'b' } else { b'a' };
            phrases.push(changed);
        }
        phrases.push(cut);
    }
    phrases.sort();
    phrases.dedup();
    phrases
}

fn all_methods(phrase: &[u8], text: &[u8], random: &mut Random) {
    for method in METHODS {
        let list_len = if random.below(4) == 0 { random.below(20) } else { text.len() + 1 };
        compare(method, phrase, text, needed(method, phrase.len()) + random.below(3), list_len, random.next());
    }
}

#[test]
fn short_texts() {
    let mut random = Random::new(5);
    for n in [1, 2, 3, 5, 8, 13, 21, 34, 50, 89, 100, 144] {
        for text in texts(n) {
            for m in [1, 2, 3, 4, 5, 6, 7, 8, 12, 13, 14, 20, 21, 22, 34, 55, 89, 144] {
                if m <= n {
                    for phrase in phrases(&text, m) {
                        all_methods(&phrase, &text, &mut random);
                    }
                }
            }
        }
    }
    report("short_texts", 40_000);
}

#[test]
fn middle_texts() {
    let mut random = Random::new(6);
    for n in [377, 610, 1000, 1024, 1500, 2000] {
        for text in texts(n) {
            for m in [1, 2, 3, 5, 8, 33, 89, 233, 377, 987, 1024] {
                if m <= n {
                    for phrase in phrases(&text, m) {
                        all_methods(&phrase, &text, &mut random);
                    }
                }
            }
        }
    }
    report("middle_texts", 10_000);
}

#[test]
fn longest_texts() {
    let mut random = Random::new(7);
    for text in texts(32_768) {
        for m in [1, 3, 89, 1024] {
            let phrase = &text[text.len() - m..];
            all_methods(phrase, &text, &mut random);
            let mut changed = phrase.to_vec();
            changed[m / 2] = b'z';
            all_methods(&changed, &text, &mut random);
        }
    }
    report("longest_texts", 9 * 4 * 2 * METHODS.count());
}
