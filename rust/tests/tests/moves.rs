//! A find with a list of moves, document 02, (xi). That it gives and leaves what a find by method 4 does, and that a refused call writes nothing, is
//! tested in every compared call.

use libretto::Refusal;
use libretto_tests::words::{all_words, fibonacci, periodic};
use libretto_tests::{compare_moves, needed, report, Random};

/// Lists of moves of every length from 0 to two moves past the total; what is given does not depend on it. The number of calls.
fn every_length(phrase: &[u8], text: &[u8], seed: u64) -> usize {
    let scratch = needed(4, phrase.len());
    let all = compare_moves(phrase, text, scratch, text.len(), 0, seed);
    let longest = 3 * (all.moves as usize + 2);
    for moves in 1..=longest {
        let given = compare_moves(phrase, text, scratch + moves % 3, moves % (text.len() + 2), moves, seed + moves as u64);
        assert_eq!(given, all, "\"{}\" in \"{}\": the numbers depend on the lists' lengths", phrase.escape_ascii(), text.escape_ascii());
    }
    longest + 1
}

#[test]
fn every_length_of_two_letters() {
    let texts: Vec<Vec<u8>> = (0..=7).flat_map(|length| all_words(2, length)).collect();
    let mut calls = 0;
    for phrase in (1..=4).flat_map(|length| all_words(2, length)) {
        for text in &texts {
            calls += every_length(&phrase, text, calls as u64);
        }
    }
    report("every_length_of_two_letters", calls);
    assert!(calls > 7 * 30 * 255, "{calls} calls");
}

/// Long enough texts that each kind of move follows each other one.
#[test]
fn every_length_of_longer_texts() {
    let mut random = Random::new(21);
    let mut calls = 0;
    for letters in [2, 3, 26] {
        for _ in 0..150 {
            let length = random.between(10, 60);
            let text = random.word(letters, length);
            let m = random.between(1, 6);
            let start = random.between(0, length - m);
            calls += every_length(&text[start..start + m], &text, random.next());
        }
    }
    for (phrase, text) in [(&b"aba"[..], periodic(b"ab", 40)), (b"aab", fibonacci(50)), (b"abaab", fibonacci(60)), (b"aaaa", vec![b'a'; 30])] {
        calls += every_length(phrase, &text, random.next());
    }
    report("every_length_of_longer_texts", calls);
    assert!(calls > 10_000, "{calls} calls");
}

#[test]
fn short_strings_with_room_for_all() {
    let pairs = [(2, 5, 10), (3, 4, 7)];
    let mut calls = 0;
    for (letters, longest_phrase, longest_text) in pairs {
        let texts: Vec<Vec<u8>> = (0..=longest_text).flat_map(|length| all_words(letters, length)).collect();
        for phrase in (1..=longest_phrase).flat_map(|length| all_words(letters, length)) {
            for text in &texts {
                compare_moves(&phrase, text, needed(4, phrase.len()) + calls % 3, text.len() + 1, 3 * text.len() + 3, calls as u64);
                calls += 1;
            }
        }
    }
    report("short_strings_with_room_for_all", 62 * 2047 + 120 * 3280);
}

#[test]
fn random_texts() {
    let mut random = Random::new(22);
    for letters in [1, 2, 4, 26, 256] {
        for _ in 0..4000 {
            let n = if random.below(50) == 0 { random.between(200, 4000) } else { random.between(0, 120) };
            let text = random.word(letters, n);
            let m = random.between(1, 12.min(n + 2));
            let phrase = if m <= n && random.below(4) > 0 {
                let start = random.between(0, n - m);
                text[start..start + m].to_vec()
            } else {
                random.word(letters, m)
            };
            let moves = match random.below(3) {
                0 => random.below(3 * n + 9),
                _ => 3 * n + 3,
            };
            compare_moves(&phrase, &text, needed(4, m) + random.below(3), random.below(n + 2), moves, random.next());
        }
    }
    report("random_texts", 20_000);
}

/// The entries of as many moves as there can be.
const ALL: usize = 3 * 32_768;

#[test]
fn longest_texts() {
    let mut random = Random::new(23);
    let texts = [vec![b'a'; 32_768], periodic(b"ab", 32_768), fibonacci(32_768), random.word(2, 32_768), random.word(26, 32_768)];
    for text in &texts {
        for m in [1, 3, 89, 1024] {
            for mut phrase in [text[text.len() - m..].to_vec(), text[..m].to_vec()] {
                for last in [phrase[m - 1], b'z'] {
                    phrase[m - 1] = last;
                    for moves in [0, 2, 30_000, ALL] {
                        compare_moves(&phrase, text, needed(4, m), 0, moves, random.next());
                    }
                }
            }
        }
    }
    // A move from every place of the longest text, the last of them to its end.
    for moves in [ALL - 1, ALL, ALL + 6] {
        let given = compare_moves(b"a", &texts[0], 258, 32_768, moves, random.next());
        assert_eq!((given.refusal, given.total, given.comparisons, given.moves), (0, 32_768, 32_768, 32_768));
    }
    report("longest_texts", 5 * 4 * 2 * 2 * 4 + 3);
}

/// The order of the refusals; a list of moves of any length is never one.
#[test]
fn refusals() {
    let mut random = Random::new(24);
    let letters = random.word(4, 33_000);
    for m in [0, 1, 2, 1023, 1024, 1025, 3000] {
        for n in [0, 1, 1024, 32_768, 32_769] {
            let enough = needed(4, m);
            for scratch in [0, enough - 1, enough, enough + 1] {
                for moves in [0, 1, 2, 3, 4, 100] {
                    let given = compare_moves(&letters[20..20 + m], &letters[..n], scratch, 2, moves, random.next());
                    let due = match (m, n) {
                        (0, _) => Refusal::NoPhrase.number(),
                        (1025.., _) => Refusal::LongPhrase.number(),
                        (_, 32_769..) => Refusal::LongText.number(),
                        _ if scratch < enough => Refusal::ShortScratch.number(),
                        _ => 0,
                    };
                    assert_eq!(given.refusal, due, "m {m}, n {n}, scratch of {scratch}, moves of {moves}");
                }
            }
        }
    }
    report("refusals", 7 * 5 * 4 * 6);
}
