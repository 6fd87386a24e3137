//! Late cuts, document 02, (xiii): a phrase's list after a stretch of the text is replaced. From the old text's list comes the list that is found afresh
//! in the new text, by whatever methods; other lists, and what is refused, are compared with the reference. That a refused call writes nothing and gives
//! 0 is tested in every compared call, without the reference.

use libretto::{find_all, relist_all, relist_raw, Method};
use libretto_tests::words::{all_words, fibonacci, periodic};
use libretto_tests::{compare_relists, report, Cut, Random};
use reference::new_text;

/// The places of a phrase in a text, by the methods in turn.
fn found(turn: usize, phrase: &[u8], text: &[u8]) -> Vec<u32> {
    let method = Method::ALL[turn % Method::ALL.len()];
    find_all(method, phrase, text).unwrap_or_else(|refusal| panic!("{} letters in {} by {method}: {refusal}", phrase.len(), text.len()))
}

/// Compares a cut that is made with the old text's list, and requires that the answer is the new text's list, found afresh by the methods in turn. The
/// new text and its list.
#[track_caller]
fn recut(phrase: &[u8], text: &[u8], list: &[u32], cut: Cut, turn: usize) -> (Vec<u8>, Vec<u32>) {
    let new = new_text(text, cut.start, cut.end, cut.letters);
    let due = found(turn, phrase, &new);
    let (raw, answer) = compare_relists(phrase, text, list, cut, due.len() + turn % 3, turn as u64);
    let all = relist_all(phrase, text, list, cut.start..cut.end, cut.letters);
    assert!(
        (raw.refusal, raw.number as usize) == (0, due.len()) && answer[..due.len()] == due && all.as_ref() == Ok(&due),
        "phrase \"{}\", text \"{}\", cut from {} to {} with \"{}\": {raw:?}, {answer:?}, all {all:?}, found afresh {due:?}",
        phrase.escape_ascii(),
        text.escape_ascii(),
        cut.start,
        cut.end,
        cut.letters.escape_ascii()
    );
    (new, due)
}

/// All stretches of n letters.
fn stretches(n: usize) -> impl Iterator<Item = (usize, usize)> {
    (0..=n).flat_map(move |start| (start..=n).map(move |end| (start, end)))
}

/// All words of two letters, from the shortest length to the longest.
fn words(shortest: usize, longest: usize) -> Vec<Vec<u8>> {
    (shortest..=longest).flat_map(|length| all_words(2, length)).collect()
}

/// The places where a phrase of m letters does not pass the end of n.
fn accepted(m: usize, n: usize) -> u32 {
    (n + 1).saturating_sub(m) as u32
}

#[test]
fn every_cut_of_short_texts() {
    let (texts, replacements) = (words(0, 6), words(0, 3));
    let mut calls = 0;
    for phrase in words(1, 3) {
        for (turn, text) in texts.iter().enumerate() {
            let list = found(turn, &phrase, text);
            for (start, end) in stretches(text.len()) {
                for letters in &replacements {
                    recut(&phrase, text, &list, Cut { start, end, letters }, calls);
                    calls += 1;
                }
            }
        }
    }
    report("every_cut_of_short_texts", 14 * 2815 * 15);
}

/// Every strictly rising list of places where the phrase does not pass the end, whether it stands there or not.
#[test]
fn every_accepted_list_of_short_texts() {
    let (texts, replacements) = (words(0, 4), words(0, 3));
    let mut seed = 0;
    for phrase in words(1, 3) {
        for text in &texts {
            let places = accepted(phrase.len(), text.len());
            for chosen in 0u32..1 << places {
                let list: Vec<u32> = (0..places).filter(|&place| chosen >> place & 1 == 1).collect();
                for (start, end) in stretches(text.len()) {
                    for letters in &replacements {
                        let most = text.len() - (end - start) + letters.len();
                        let (raw, answer) = compare_relists(&phrase, text, &list, Cut { start, end, letters }, most, seed);
                        assert_eq!(raw.refusal, 0);
                        assert_eq!(relist_all(&phrase, text, &list, start..end, letters).as_deref(), Ok(&answer[..raw.number as usize]));
                        seed += 1;
                    }
                }
            }
        }
    }
    report("every_accepted_list_of_short_texts", 27_566 * 15);
}

/// Lists that are not accepted, made from one that is: a place twice, two places in the wrong order, and a place where the phrase passes the end, at
/// every index: the first such place, those next to the text's end, and those where the sum of 32 bits, or the lowest 16 of it, would be small.
fn spoiled(list: &[u32], m: usize, n: usize) -> Vec<Vec<u32>> {
    let mut lists = Vec::new();
    for k in 0..list.len() {
        lists.push([&list[..=k], &list[k..]].concat());
        for later in k + 1..list.len() {
            let mut list = list.to_vec();
            list.swap(k, later);
            lists.push(list);
        }
    }
    let first = accepted(m, n);
    let wrapped = u32::MAX - m as u32 + 1;
    for place in [first, first + 1, n as u32, n as u32 + 1, 65_536, 1 << 31, wrapped - 1, wrapped, wrapped.saturating_add(1), u32::MAX] {
        lists.extend((0..=list.len()).map(|k| [&list[..k], &[place], &list[k..]].concat()));
    }
    lists
}

/// Wherever the offending place lies: where it would stay, drop out or move.
#[test]
fn lists_that_are_refused() {
    let mut calls = 0;
    let cases: [(&[u8], &[u8]); 7] =
        [(b"ab", b"abababab"), (b"a", b"aaa"), (b"aba", b"ababa"), (b"abab", b"abab"), (b"abc", b"ab"), (b"a", b""), (b"lalala", b"")];
    for (phrase, text) in cases {
        let (m, n) = (phrase.len(), text.len());
        let every: Vec<u32> = (0..accepted(m, n)).collect();
        for list in [vec![], every.iter().copied().take(1).collect(), every.iter().copied().step_by(2).collect(), every] {
            for (start, end) in stretches(n) {
                for letters in [&b""[..], b"b", b"ababab"] {
                    let mut refusal = |list: &[u32]| {
                        calls += 1;
                        compare_relists(phrase, text, list, Cut { start, end, letters }, n, calls as u64).0.refusal
                    };
                    assert_eq!(refusal(&list), 0, "{list:?}");
                    for spoiled in spoiled(&list, m, n) {
                        assert_eq!(refusal(&spoiled), 18, "{spoiled:?} for {m} letters in {n}");
                    }
                }
            }
        }
    }
    report("lists_that_are_refused", calls);
    assert!(calls > 20_000, "{calls} calls");
}

/// The longest lists, with one place that is not accepted.
#[test]
fn long_lists_that_are_refused() {
    let text = vec![b'a'; 32_768];
    let all: Vec<u32> = (0..32_768).collect();
    let longer: Vec<u32> = (0..=32_768).collect();
    let cuts = [(0, 0), (0, 1), (16_000, 16_001), (32_767, 32_768), (32_768, 32_768), (0, 32_768)];
    for (seed, (start, end)) in cuts.into_iter().enumerate() {
        let cut = Cut { start, end, letters: b"" };
        let refusal = |list: &[u32]| compare_relists(b"a", &text, list, cut, 9, seed as u64).0.refusal;
        assert_eq!(refusal(&all), 0);
        assert_eq!(refusal(&longer), 18);
        for index in [0, 1, 15_999, 16_000, 32_766, 32_767] {
            for place in [index as u32 + 1, (index as u32).wrapping_sub(1)] {
                let mut list = all.clone();
                list[index] = place;
                // One less at the front is the largest number; one more at the end passes it.
                assert_eq!(refusal(&list), 18, "{place} at {index}");
            }
        }
    }
    report("long_lists_that_are_refused", 6 * (2 + 6 * 2));
}

#[test]
fn stretches_that_are_refused() {
    let long = vec![b'a'; 32_769];
    let far = [255, 256, 65_535, 65_536, u32::MAX as usize, 1 << 32, (1 << 32) + 1, 1 << 63, usize::MAX - 1, usize::MAX];
    let mut calls = 0;
    for n in 0..=5 {
        let text = periodic(b"ab", n);
        let list = found(n, b"ab", &text);
        let ends: Vec<usize> = (0..=n + 2).chain(far).collect();
        for &start in &ends {
            for &end in &ends {
                for letters in [&b""[..], b"ab", &long] {
                    let (raw, _) = compare_relists(b"ab", &text, &list, Cut { start, end, letters }, 4, calls as u64);
                    let due = match letters.len() {
                        _ if end < start || end > n => 17,
                        32_769 => 4,
                        _ => 0,
                    };
                    assert_eq!(raw.refusal, due, "stretch from {start} to {end} of {n} letters, {} new ones", letters.len());
                    calls += 1;
                }
            }
        }
    }
    report("stretches_that_are_refused", 3 * (13..=18).map(|ends| ends * ends).sum::<usize>());
}

/// Every refusal with every other one that a call can meet too: the first in the order of the words is given.
#[test]
fn the_order_of_the_refusals() {
    let letters = Random::new(31).word(2, 33_000);
    let phrases = [(2, 0), (0, 2), (1025, 3)];
    let texts = [(10, 0), (32_769, 4)];
    let (falls, passes): (&[u32], &[u32]) = (&[0, 8, 2], &[0, 32_768]);
    let lists = [(&[0, 2, 8][..], 0), (falls, 18), (passes, 18)];
    let replacements = [(2, 0), (32_769, 4)];
    let mut seed = 0;
    for (m, by_phrase) in phrases {
        for (n, by_text) in texts {
            for (start, end, by_stretch) in [(3, 5, 0), (5, 3, 17), (3, n + 1, 17), (n + 2, n + 1, 17), (0, usize::MAX, 17)] {
                for (list, by_list) in lists {
                    for (size, by_new_text) in replacements {
                        let cut = Cut { start, end, letters: &letters[..size] };
                        let (raw, _) = compare_relists(&letters[..m], &letters[..n], list, cut, 3, seed);
                        let rows = [by_phrase, by_text, by_stretch, by_list, by_new_text];
                        let due = rows.into_iter().find(|&refusal| refusal != 0).unwrap_or(0);
                        assert_eq!(raw.refusal, due, "m {m}, n {n}, stretch from {start} to {end}, list {list:?}, {size} new letters");
                        seed += 1;
                    }
                }
            }
        }
    }
    report("the_order_of_the_refusals", 3 * 2 * 5 * 3 * 2);
}

/// Phrases, old texts and new texts of the greatest lengths and one past them, and new letters far past them.
#[test]
fn the_longest_texts() {
    let source = Random::new(32).word(2, 140_000);
    let mut turn = 0;
    for m in [1, 2, 1024, 1025] {
        let phrase = &source[20..20 + m];
        for n in [0, 1, 100, 32_766, 32_767, 32_768, 32_769] {
            let text = &source[..n];
            let list = if m <= 1024 && n <= 32_768 { found(turn, phrase, text) } else { vec![] };
            for start in [0, n / 2, n] {
                // Nothing, one letter or all that follows is taken out.
                for end in [start, n.min(start + 1), n] {
                    let kept = n - (end - start);
                    for new_len in [kept, 32_767, 32_768, 32_769, 65_536, 65_537, 131_072] {
                        let Some(size) = new_len.checked_sub(kept) else { continue };
                        let cut = Cut { start, end, letters: &source[m..m + size] };
                        let due = match (m, n) {
                            (1025, _) => 3,
                            (_, 32_769) => 4,
                            _ if new_len > 32_768 => 4,
                            _ => 0,
                        };
                        if due == 0 {
                            recut(phrase, text, &list, cut, turn);
                        } else {
                            let (raw, _) = compare_relists(phrase, text, &list, cut, 5, turn as u64);
                            assert_eq!(raw.refusal, due, "m {m}, n {n}, stretch from {start} to {end}, {size} new letters");
                        }
                        turn += 1;
                    }
                }
            }
        }
    }
    report("the_longest_texts", turn);
    assert!(turn > 1500, "{turn} cuts");
}

/// The longest phrase at every place of the longest text: each call gives all places once, those that stay, the fresh ones and those moved.
#[test]
fn the_longest_phrase_at_every_place() {
    let letters = vec![b'a'; 32_768];
    let phrase = &letters[..1024];
    let cuts =
        [(32_768, 0, 32_768, 32_768), (32_768, 16_000, 16_001, 1), (32_767, 0, 0, 1), (32_767, 16_000, 16_000, 1), (32_767, 32_767, 32_767, 1)];
    let longer = [(30_720, 16_000, 16_000, 2048), (32_768, 2000, 4000, 2000), (1023, 0, 0, 31_745), (0, 0, 0, 32_768)];
    for (turn, (n, start, end, size)) in cuts.into_iter().chain(longer).enumerate() {
        let list: Vec<u32> = (0..accepted(1024, n)).collect();
        let (new, places) = recut(phrase, &letters[..n], &list, Cut { start, end, letters: &letters[..size] }, turn);
        assert_eq!((new.len(), places), (32_768, (0..31_745).collect()));
    }
    report("the_longest_phrase_at_every_place", 9);
}

/// New letters fewer than the phrase's, as many, and more, at either end of the text and about a phrase's length from it, in texts that are shorter and
/// longer than the phrase. In texts of one letter the phrase stands at every place, before the seams, across them and after them; a b among the new
/// letters ends that. In texts of one word over and over it stands where the new letters go on with the word.
fn letters_about_the_phrase(m: usize, turn: &mut usize) {
    let word = Random::new(33 + m as u64).word(3, m);
    for word in [&b"a"[..], &word] {
        let phrase = periodic(word, m);
        for n in [0, 1, m - 1, m, 3 * m] {
            let text = periodic(word, n);
            let list = found(*turn, &phrase, &text);
            let mut starts: Vec<usize> = [0, 1, m - 1, m, n / 2, (n + 1).saturating_sub(m), n].into_iter().filter(|&start| start <= n).collect();
            let mut sizes = vec![0, 1, m.saturating_sub(2), m - 1, m, m + 1, 2 * m];
            for lengths in [&mut starts, &mut sizes] {
                lengths.sort_unstable();
                lengths.dedup();
            }
            for &start in &starts {
                for end in [start, n.min(start + 1), n] {
                    for &size in &sizes {
                        let going_on = periodic(&periodic(word, start + word.len())[start..], size);
                        for changed in [None, Some(0), Some(size / 2), Some(size.wrapping_sub(1))] {
                            let mut letters = going_on.clone();
                            match changed {
                                Some(index) if index < size => letters[index] = b'b',
                                Some(_) => continue,
                                None => (),
                            }
                            recut(&phrase, &text, &list, Cut { start, end, letters: &letters }, *turn);
                            *turn += 1;
                        }
                    }
                }
            }
        }
    }
}

/// Up to 65 letters the library lays them out in less room than for longer phrases.
#[test]
fn letters_about_a_short_phrase() {
    let mut turn = 0;
    (1..=9).chain(64..=67).for_each(|m| letters_about_the_phrase(m, &mut turn));
    report("letters_about_a_short_phrase", turn);
    assert!(turn > 10_000, "{turn} cuts");
}

#[test]
fn letters_about_the_longest_phrase() {
    let mut turn = 0;
    [1023, 1024].into_iter().for_each(|m| letters_about_the_phrase(m, &mut turn));
    report("letters_about_the_longest_phrase", turn);
    assert!(turn > 2000, "{turn} cuts");
}

/// Answers of every length from 0 to three past the total; what is given does not depend on it. The number of calls.
fn every_length(phrase: &[u8], text: &[u8], list: &[u32], cut: Cut, seed: u64) -> usize {
    let (all, _) = compare_relists(phrase, text, list, cut, 0, seed);
    assert_eq!(all.refusal, 0);
    let longest = all.number as usize + 3;
    for length in 1..=longest {
        let (given, _) = compare_relists(phrase, text, list, cut, length, seed + length as u64);
        assert_eq!(given, all, "the numbers depend on the answer's length");
    }
    longest + 1
}

#[test]
fn every_answer_length() {
    let (texts, replacements) = (words(0, 4), words(0, 2));
    let mut calls = 0;
    for phrase in words(1, 2) {
        for (turn, text) in texts.iter().enumerate() {
            let list = found(turn, &phrase, text);
            for (start, end) in stretches(text.len()) {
                for letters in &replacements {
                    calls += every_length(&phrase, text, &list, Cut { start, end, letters }, calls as u64);
                }
            }
        }
    }
    for (phrase, text) in [(&b"aba"[..], periodic(b"ab", 40)), (b"abaab", fibonacci(60)), (b"aaaa", vec![b'a'; 30])] {
        let every: Vec<u32> = (0..accepted(phrase.len(), text.len())).collect();
        for list in [found(calls, phrase, &text), every] {
            for (start, end) in [(0, 0), (0, 9), (11, 11), (11, 12), (8, 21), (text.len(), text.len()), (0, text.len())] {
                for letters in [&b""[..], b"a", b"aba", b"aaaaaaa", b"abaababaabaab"] {
                    calls += every_length(phrase, &text, &list, Cut { start, end, letters }, calls as u64);
                }
            }
        }
    }
    report("every_answer_length", calls);
    assert!(calls > 50_000, "{calls} calls");
}

/// A length up to the longest: mostly short, sometimes long.
fn any_length(random: &mut Random, longest: usize) -> usize {
    match random.below(20) {
        0..=12 => random.between(0, 24),
        13..=17 => random.between(0, 200),
        _ => random.between(0, longest),
    }
}

/// Random letters out of one to four, the Fibonacci word, or a short word over and over.
fn any_word(random: &mut Random, kind: usize, length: usize) -> Vec<u8> {
    match kind {
        1..=4 => random.word(kind, length),
        5 => fibonacci(length),
        _ => {
            let period = random.between(1, 5);
            periodic(&random.word(2, period), length)
        }
    }
}

/// A stretch of n letters.
fn any_stretch(random: &mut Random, n: usize) -> (usize, usize) {
    let start = random.between(0, n);
    let length = any_length(random, n).min(n - start);
    (start, start + length)
}

/// New letters: words of their own, or a stretch of the text or the phrase, so that the phrase stands again or in part.
fn any_letters(random: &mut Random, kind: usize, phrase: &[u8], text: &[u8], longest: usize) -> Vec<u8> {
    let length = any_length(random, longest);
    match random.below(5) {
        0 | 1 => any_word(random, kind, length),
        2 => text[random.between(0, text.len())..].iter().copied().take(length).collect(),
        3 => periodic(phrase, length),
        _ => phrase[random.below(phrase.len())..].to_vec(),
    }
}

/// A phrase, cut from the text or, where that is too short, of its own, and sometimes with one letter changed.
fn any_phrase(random: &mut Random, kind: usize, text: &[u8]) -> Vec<u8> {
    let m = 1 + any_length(random, 1023);
    let mut phrase = if m <= text.len() {
        let start = random.between(0, text.len() - m);
        text[start..start + m].to_vec()
    } else {
        any_word(random, kind, m)
    };
    if random.below(8) == 0 {
        phrase[random.below(m)] = b'b';
    }
    phrase
}

#[test]
fn random_cuts() {
    let mut random = Random::new(34);
    for round in 0..12_000 {
        let kind = 1 + round % 7;
        let n = any_length(&mut random, 3000);
        let text = any_word(&mut random, kind, n);
        let phrase = any_phrase(&mut random, kind, &text);
        let letters = any_letters(&mut random, kind, &phrase, &text, 2000);
        let (start, end) = any_stretch(&mut random, n);
        let cut = Cut { start, end, letters: &letters };
        if random.below(2) == 0 {
            let list = found(round, &phrase, &text);
            recut(&phrase, &text, &list, cut, random.below(4096));
        } else {
            let one_of = random.between(1, 6);
            let list: Vec<u32> = (0..accepted(phrase.len(), n)).filter(|_| random.below(one_of) == 0).collect();
            let most = n - (end - start) + letters.len();
            let answer_len = [0, random.below(4), random.below(most + 2), most + 1][random.below(4)];
            let (raw, _) = compare_relists(&phrase, &text, &list, cut, answer_len, random.next());
            assert_eq!(raw.refusal, 0);
        }
    }
    report("random_cuts", 12_000);
}

/// Twenty cuts one after another, each with the text and the list that the one before it gave.
#[test]
fn cuts_one_after_another() {
    let mut random = Random::new(35);
    let mut listed = 0;
    for chain in 0..140 {
        let kind = 1 + chain % 7;
        let n = random.between(0, 600);
        let mut text = any_word(&mut random, kind, n);
        let m = random.between(1, 1 + n.min(12));
        let phrase = if m <= n { text[n - m..].to_vec() } else { any_word(&mut random, kind, m) };
        let mut list = found(chain, &phrase, &text);
        for _ in 0..20 {
            let letters = any_letters(&mut random, kind, &phrase, &text, 400);
            let (start, end) = any_stretch(&mut random, text.len());
            (text, list) = recut(&phrase, &text, &list, Cut { start, end, letters: &letters }, random.below(4096));
            listed += list.len();
        }
    }
    report("cuts_one_after_another", 140 * 20);
    assert!(listed > 20_000, "{listed} places listed");
}

/// An empty vector's slice points to no memory at all.
#[test]
fn slices_without_memory() {
    let (bytes, places): (Vec<u8>, Vec<u32>) = (Vec::new(), Vec::new());
    let cut = |phrase: &[u8], text: &[u8], letters: &[u8]| {
        let raw = relist_raw(phrase, text, &places, 0, 0, letters, &mut Vec::new());
        (raw.refusal, raw.number)
    };
    assert_eq!(cut(&bytes, &bytes, &bytes), (2, 0));
    assert_eq!(cut(b"a", &bytes, &bytes), (0, 0));
    assert_eq!(cut(b"a", &bytes, b"aba"), (0, 2));
    assert_eq!(cut(b"ab", b"b", b"aba"), (0, 2));
    assert_eq!(cut(b"ab", b"b", &bytes), (0, 0));
}
