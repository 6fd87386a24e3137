//! Random phrases and texts over alphabets of 1, 2, 4, 26 and 256 letters, by all methods. That method 1 makes at most 2n - m comparisons and method 4 at
//! most 3n - 2m is tested in every compared call.

use libretto_tests::{compare, needed, report, Random, METHODS};

/// A text length: mostly short, sometimes long.
fn text_length(random: &mut Random) -> usize {
    match random.below(200) {
        0..=119 => random.between(0, 24),
        120..=183 => random.between(20, 100),
        184..=198 => random.between(100, 600),
        _ => random.between(600, 4000),
    }
}

/// A phrase: often cut from the text, sometimes with one letter changed, sometimes of its own, and now and then longer than the text.
fn phrase(random: &mut Random, letters: usize, text: &[u8]) -> Vec<u8> {
    let length = match random.below(10) {
        0..=5 => random.between(1, 6),
        6..=8 => random.between(1, 40),
        _ => random.between(1, 1024.min(text.len() + 3)),
    };
    let kind = random.below(8);
    if kind < 2 || length > text.len() {
        return random.word(letters, length);
    }
    let start = random.between(0, text.len() - length);
    let mut phrase = text[start..start + length].to_vec();
    if kind == 2 {
        let place = random.below(length);
        phrase[place] = random.word(letters, 1)[0];
    }
    phrase
}

fn over(letters: usize, test: &str) {
    let pairs = 30_000;
    let mut random = Random::new(1000 + letters as u64);
    for _ in 0..pairs {
        let length = text_length(&mut random);
        let text = random.word(letters, length);
        let phrase = phrase(&mut random, letters, &text);
        for method in METHODS {
            let scratch_len = needed(method, phrase.len()) + random.below(4);
            let list_len = match random.below(4) {
                0 => 0,
                1 => random.below(4),
                _ => text.len() + 1,
            };
            compare(method, &phrase, &text, scratch_len, list_len, random.next());
        }
    }
    report(test, pairs * METHODS.count());
}

#[test]
fn one_letter() {
    over(1, "one_letter");
}

#[test]
fn two_letters() {
    over(2, "two_letters");
}

#[test]
fn four_letters() {
    over(4, "four_letters");
}

#[test]
fn twenty_six_letters() {
    over(26, "twenty_six_letters");
}

#[test]
fn all_bytes() {
    over(256, "all_bytes");
}

#[test]
fn long_texts() {
    let mut random = Random::new(77);
    for letters in [1, 2, 4, 26, 256] {
        for length in [8000, 20_000, 32_767, 32_768] {
            let text = random.word(letters, length);
            for m in [1, 2, 3, 10, 100, 1023, 1024] {
                let start = random.between(0, length - m);
                let mut phrase = text[start..start + m].to_vec();
                for change in [false, true] {
                    if change {
                        phrase[m / 2] = random.word(letters, 1)[0];
                    }
                    // One letter and a long phrase make naive, Horspool and Sunday look at n times m pairs: only the longest phrases once.
                    if letters == 1 && (change || (m > 100 && length < 32_768)) {
                        continue;
                    }
                    for method in METHODS {
                        compare(method, &phrase, &text, needed(method, m) + 1, length + 1, random.next());
                    }
                }
            }
        }
    }
    report("long_texts", 1000);
}
