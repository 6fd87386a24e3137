//! The bounds are reached: aba in n letters a takes 3n - 6 comparisons by method 4, and m - 1 letters a and a b take 2n - m by method 1, m from 2 to n.
//! That they are never passed is tested in every compared call.

use libretto::{find, Finding, Method};
use libretto_tests::words::all_words;
use libretto_tests::{compare, needed, report, Random, METHODS};

#[test]
fn aba_in_letters_a() {
    let text = vec![b'a'; 32_768];
    let mut scratch = [0u16; 260];
    let mut calls = 0;
    let mut check = |n: usize| {
        let finding = find(Method::Fjs, b"aba", &text[..n], &mut scratch, &mut []);
        assert_eq!(finding, Ok(Finding { total: 0, comparisons: 3 * n as u32 - 6 }), "n = {n}");
        calls += 1;
    };
    // Every n that a find takes: 1.6 thousand million looks, by the library only.
    (3..=32_768).for_each(&mut check);
    println!("aba_in_letters_a: {calls} calls of the library, none of the reference");
}

/// m - 1 letters a and a b.
fn aaab(m: usize, a: u8, b: u8) -> Vec<u8> {
    [vec![a; m - 1], vec![b]].concat()
}

/// By library and reference: every n up to 90 and the longest texts, every m up to n and past it; two letters, whichever they are; no list, and lists
/// that are longer.
#[test]
fn letters_a_and_a_b_in_letters_a() {
    let mut random = Random::new(16);
    let mut calls = 0;
    let short = (0..=90).flat_map(|n| (1..=n + 2).map(move |m| (m, n)));
    let long = [1023, 1024, 1025, 32_767, 32_768].into_iter().flat_map(|n| [1, 2, 3, 512, 1022, 1023, 1024].map(|m| (m, n)));
    for (m, n) in short.chain(long) {
        for (a, b) in [(b'a', b'b'), (0, 255), (255, 254)] {
            let raw = compare(1, &aaab(m, a, b), &vec![a; n], needed(1, m) + calls % 3, calls % 4, random.next());
            let comparisons = match m {
                _ if m > n => 0,
                1 => n,
                _ => 2 * n - m,
            };
            assert_eq!((raw.refusal, raw.total, raw.comparisons as usize), (0, 0, comparisons), "m = {m}, n = {n}, letters {a} and {b}");
            calls += 1;
        }
    }
    report("letters_a_and_a_b_in_letters_a", 12_936);
}

/// Every m that a find takes in the longest text, and every n for the longest phrase, by the library only.
#[test]
fn letters_a_and_a_b_at_every_length() {
    let text = vec![b'a'; 32_768];
    let mut scratch = [0u16; 1025];
    let mut calls = 0;
    let mut check = |m: usize, n: usize| {
        let finding = find(Method::Kmp, &aaab(m, b'a', b'b'), &text[..n], &mut scratch, &mut []);
        assert_eq!(finding, Ok(Finding { total: 0, comparisons: (2 * n - m) as u32 }), "m = {m}, n = {n}");
        calls += 1;
    };
    (2..=1024).for_each(|m| check(m, 32_768));
    (1024..=32_768).for_each(|n| check(1024, n));
    println!("letters_a_and_a_b_at_every_length: {calls} calls of the library, none of the reference");
}

/// Of all phrases of m letters in all texts of n, over two letters, the dearest costs 2n - m by method 1, or n for a phrase of one letter.
#[test]
fn the_dearest_of_all_words() {
    let mut seed = 0;
    for m in 1..=5 {
        for n in m..=10 {
            let mut dearest = 0;
            for phrase in all_words(2, m) {
                for text in all_words(2, n) {
                    dearest = dearest.max(compare(1, &phrase, &text, m + 1, n, seed).comparisons as usize);
                    seed += 1;
                }
            }
            assert_eq!(dearest, if m == 1 { n } else { 2 * n - m }, "m = {m}, n = {n}");
        }
    }
    report("the_dearest_of_all_words", 125_612);
}

/// Phrases and texts close to the worst ones.
#[test]
fn near_the_bound() {
    let mut random = Random::new(13);
    for _ in 0..4000 {
        let n = random.between(3, 400);
        let m = random.between(2, 12.min(n));
        let mut text = vec![b'a'; n];
        let mut phrase = vec![b'a'; m];
        let place = random.below(m);
        phrase[place] = b'b';
        for _ in 0..random.below(4) {
            let place = random.below(n);
            text[place] = b'b';
        }
        for method in METHODS {
            compare(method, &phrase, &text, needed(method, m), n, random.next());
        }
    }
    report("near_the_bound", 4000 * METHODS.count());
}
