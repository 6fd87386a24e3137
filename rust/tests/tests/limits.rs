//! The limits of phrase, text, scratch and list, unknown methods, and the order of the refusals. That a refused call writes nothing is tested in every
//! compared call, without the reference.

use libretto::{find_raw, Refusal};
use libretto_tests::{compare, needed, report, Random, METHODS};

/// Numbers that are no method.
const UNKNOWN: [u32; 3] = [*METHODS.end() + 1, *METHODS.end() + 2, u32::MAX];

/// The refusal by the words of the table, 0 for none.
fn due(method: u32, m: usize, n: usize, scratch_len: usize) -> u32 {
    if UNKNOWN.contains(&method) {
        Refusal::UnknownMethod.number()
    } else if m == 0 {
        Refusal::NoPhrase.number()
    } else if m > 1024 {
        Refusal::LongPhrase.number()
    } else if n > 32_768 {
        Refusal::LongText.number()
    } else if scratch_len < needed(method, m) {
        Refusal::ShortScratch.number()
    } else {
        0
    }
}

#[test]
fn every_limit_with_every_other() {
    let mut random = Random::new(8);
    let letters = random.word(4, 40_000);
    for method in METHODS.chain(UNKNOWN) {
        for m in [0, 1, 2, 1023, 1024, 1025, 3000] {
            // The phrase stands in the text, where that is long enough.
            let phrase = &letters[20..20 + m];
            for n in [0, 1, 2, 1023, 1024, 1025, 2000, 32_767, 32_768, 32_769, 40_000] {
                let enough = needed(method, m);
                for scratch_len in [0, 1, enough.saturating_sub(1), enough, enough + 1] {
                    for list_len in [0, 3, n / 2] {
                        let raw = compare(method, phrase, &letters[..n], scratch_len, list_len, random.next());
                        assert_eq!(raw.refusal, due(method, m, n, scratch_len), "method {method}, m {m}, n {n}, scratch of {scratch_len}");
                    }
                }
            }
        }
    }
    report("every_limit_with_every_other", METHODS.chain(UNKNOWN).count() * 7 * 11 * 5 * 3);
}

#[test]
fn phrase_longer_than_text() {
    let mut random = Random::new(9);
    for m in [1, 2, 3, 7, 100, 1024] {
        let phrase = random.word(2, m);
        for n in [0, 1, 2, m / 2, m - 1] {
            if n < m {
                for method in METHODS {
                    let raw = compare(method, &phrase, &phrase[..n], needed(method, m) + 2, 5, random.next());
                    assert_eq!((raw.refusal, raw.total, raw.comparisons), (0, 0, 0));
                }
            }
        }
    }
    report("phrase_longer_than_text", 100);
}

#[test]
fn every_list_length() {
    let mut random = Random::new(10);
    let cases: [(&[u8], &[u8]); 8] = [
        (b"aba", b"ababa"),
        (b"a", b"aaaaaaaaaaaaaaaaaaaaaaa"),
        (b"aa", b"aaaaaaaaaabaaaaaaaaaa"),
        (b"ab", b"abababababababababab"),
        (b"la", b"la la, tralala"),
        (b"x", b"aaaa"),
        (b"abcabc", b"abcabcabcabcabcabc"),
        (b"abc", b"ab"),
    ];
    for (phrase, text) in cases {
        for method in METHODS {
            let total = compare(method, phrase, text, needed(method, phrase.len()), text.len(), 0);
            for list_len in 0..=total.total as usize + 1 {
                let raw = compare(method, phrase, text, needed(method, phrase.len()), list_len, random.next());
                assert_eq!(raw, total, "total and comparisons depend on the list's length");
            }
        }
    }
    report("every_list_length", 400);
}

#[test]
fn every_scratch_length() {
    let mut random = Random::new(11);
    for m in 1..=12 {
        let phrase = random.word(2, m);
        let text = [&phrase[..], &random.word(2, 30), &phrase].concat();
        for method in METHODS {
            let enough = needed(method, m);
            let lengths: Vec<usize> = match method {
                0 => vec![0, 1, 2],
                1 | 4 | 6 | 7 => (0..=enough + 1).collect(),
                _ => vec![0, 1, 255, 256, 257, 2306],
            };
            for scratch_len in lengths {
                let raw = compare(method, &phrase, &text, scratch_len, text.len(), random.next());
                assert_eq!(raw.refusal, if scratch_len < enough { 5 } else { 0 });
            }
        }
    }
    report("every_scratch_length", 3000);
}

#[test]
fn earlier_values_play_no_part() {
    let mut random = Random::new(12);
    for m in [1, 2, 5, 30] {
        let text = random.word(2, 300);
        let phrase = &text[100..100 + m];
        for method in METHODS {
            let first = compare(method, phrase, &text, needed(method, m), 300, 0);
            for seed in 1..20 {
                assert_eq!(compare(method, phrase, &text, needed(method, m), 300, seed * 97), first);
            }
        }
    }
    report("earlier_values_play_no_part", 400);
}

#[test]
fn empty_slices_of_no_buffer() {
    let empty = |method, phrase: &[u8], text: &[u8]| {
        let raw = find_raw(method, phrase, text, &mut [], &mut []);
        (raw.refusal, raw.total, raw.comparisons)
    };
    assert_eq!(empty(0, &[], &[]), (2, 0, 0));
    assert_eq!(empty(0, b"a", &[]), (0, 0, 0));
    assert_eq!(empty(0, b"a", b"aab"), (0, 2, 3));
    for method in METHODS.skip(1) {
        assert_eq!(empty(method, b"a", &[]), (5, 0, 0));
    }
    for method in UNKNOWN {
        assert_eq!(empty(method, &[], &[]), (1, 0, 0));
    }
}
