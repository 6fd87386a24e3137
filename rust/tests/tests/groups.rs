//! Books resolved in groups, each by one automaton: phrases that are parts of each other, groups at their limits and many of them, faults in each part of
//! a group, and every length of scratch. The reads are known here by a count of the groups that is not the reference's.

use libretto::{resolve_all, CuePlace, Page, RawResolving, Role};
use libretto_tests::books::{book, Cue, CUES, PHRASE};
use libretto_tests::evenings::{all_resolved, some_day};
use libretto_tests::groups::{books_of_four_groups, group_numbers, past_the_last, Outcome, GROUP_BYTES, GROUP_CUES};
use libretto_tests::groups::{resolve, resolve_missing, resolve_rising, resolve_to};
use libretto_tests::pages::PAGES;
use libretto_tests::roles::{some_resolving, GUEST};
use libretto_tests::verses::{cue_at, in_any_case, missing, not_behind, place_of, rising, rising_of_lengths, total, verse, word, ALPHABETS};
use libretto_tests::words::{all_words, fibonacci, periodic};
use libretto_tests::{compare_resolve, report, Lengths, Random};
use std::collections::BTreeMap;

/// The longest text, and the least scratch.
const TEXT: usize = 32_768;
const SCRATCH: usize = 65_535;

fn cue(phrase: &[u8], ordinal: usize) -> Cue {
    Cue::new(phrase, ordinal as u16, b"")
}

/// These entries in another order.
fn shuffle<T>(entries: &mut [T], random: &mut Random) {
    for k in (1..entries.len()).rev() {
        entries.swap(k, random.between(0, k));
    }
}

/// How often the calls of a test came to each refusal at each cue; with 0 the cue is the number of all.
#[derive(Debug, Default)]
struct Met(BTreeMap<(u32, u32), usize>);

impl Met {
    fn count(&mut self, answer: RawResolving) {
        *self.0.entry((answer.refusal, answer.number)).or_default() += 1;
    }

    /// Fails unless each of these was met so often.
    #[track_caller]
    fn each(&self, answers: &[(u32, u32)], at_least: usize) {
        assert!(answers.iter().all(|answer| self.0.get(answer) >= Some(&at_least)), "the calls met too little: {self:?}");
    }
}

/// Resolves the cues, compares with what they come to, and counts it.
fn resolve_any(page: u32, cues: &[Cue], text: &[u8], met: &mut Met, random: &mut Random) {
    let outcome = Outcome::of(page, cues, text);
    resolve_to(outcome, page, cues, text, random);
    met.count(outcome.answer(cues, text.len()));
}

/// All words of up to three letters a and b.
fn short_phrases() -> Vec<Vec<u8>> {
    (1..=3).flat_map(|length| all_words(2, length)).collect()
}

/// These phrases with each ordinal up to three.
fn short_cues() -> Vec<Cue> {
    short_phrases().iter().flat_map(|phrase| (1..=3).map(|ordinal| cue(phrase, ordinal))).collect()
}

/// Every book of one or two cues with phrases of up to three letters and ordinals up to three, in every text of up to five letters.
#[test]
fn every_book_of_two_short_cues() {
    let mut random = Random::new(71);
    let mut met = Met::default();
    let cues = short_cues();
    let pairs = cues.iter().flat_map(|first| cues.iter().map(move |second| vec![first.clone(), second.clone()]));
    let books: Vec<Vec<Cue>> = cues.iter().map(|cue| vec![cue.clone()]).chain(pairs).collect();
    for text in (0..=5).flat_map(|length| all_words(2, length)) {
        for (index, cues) in books.iter().enumerate() {
            resolve_any(PAGES[index % 2], cues, &text, &mut met, &mut random);
        }
    }
    met.each(&[(0, 1), (0, 2), (12, 0), (12, 1), (15, 1)], 400);
    report("every_book_of_two_short_cues", 63 * (42 + 42 * 42));
}

/// Every book of three such cues, each in one text of up to 16 letters.
#[test]
fn every_book_of_three_short_cues() {
    let mut random = Random::new(70);
    let mut met = Met::default();
    let cues = short_cues();
    for code in 0..42 * 42 * 42 {
        let book = [code % 42, code / 42 % 42, code / 1764].map(|k| cues[k].clone());
        let (page, text) = (PAGES[random.below(2)], random.word(2, code % 17));
        resolve_any(page, &book, &text, &mut met, &mut random);
    }
    met.each(&[(0, 3), (12, 0), (12, 1), (12, 2), (15, 1), (15, 2)], 400);
    report("every_book_of_three_short_cues", 42 * 42 * 42);
}

/// Every three phrases of up to three letters in every text of six. At each place where one of them stands, one that does is a cue, and each phrase gets
/// its turn. Behind these are one occurrence more of each, which do not exist, so that all three phrases are in the group.
#[test]
fn every_three_short_phrases() {
    let mut random = Random::new(72);
    let phrases = short_phrases();
    for text in all_words(2, 6) {
        let totals: Vec<usize> = phrases.iter().map(|phrase| total(1, phrase, &text)).collect();
        for code in 0..14 * 14 * 14 {
            let mut chosen = [code % 14, code / 14 % 14, code / 196];
            chosen.rotate_left(code % 3);
            let mut cues = Vec::new();
            for place in 0..6 {
                chosen.rotate_left(1);
                let stands = |&k: &usize| text[place..].starts_with(&phrases[k]);
                cues.extend(chosen.into_iter().find(stands).map(|k| cue_at(1, &text, place, phrases[k].len(), &mut random)));
            }
            let rest = cues.len();
            cues.extend(chosen.map(|k| cue(&phrases[k], totals[k] + 1)));
            resolve_missing(PAGES[code % 2], &cues, rest, &text, &mut random);
        }
    }
    report("every_three_short_phrases", 64 * 14 * 14 * 14);
}

/// Copies of a word of ten letters, with some letters between them, and where each starts.
fn copies(page: u32, word: &[u8], random: &mut Random) -> (Vec<u8>, Vec<usize>) {
    let (mut text, mut starts) = (Vec::new(), Vec::new());
    for _ in 0..word.len() {
        let between = random.below(8);
        text.extend(verse(page, ALPHABETS[6], between, random));
        starts.push(text.len());
        text.extend(in_any_case(page, word, random));
    }
    (text, starts)
}

/// All parts of a word of ten letters, as the copy, the start within it and the length: so that they run forward, each part that has one start with
/// others stands in a copy of its own. The order of the lengths is the copies' order.
fn parts(mut order: impl FnMut(&mut Vec<usize>)) -> Vec<(usize, usize, usize)> {
    let mut parts = Vec::new();
    for start in 0..10 {
        let mut lengths: Vec<usize> = (1..=10 - start).collect();
        order(&mut lengths);
        parts.extend(lengths.into_iter().enumerate().map(|(copy, length)| (copy, start, length)));
    }
    parts.sort();
    parts
}

/// All parts of a word are phrases of one group: fronts, ends, middles, and those that stand in it more than once, which are copies of each other.
#[test]
fn parts_of_a_word() {
    let mut random = Random::new(73);
    let words: [&[u8]; 8] = [
        b"abracadabr",
        b"aaaaaaaaaa",
        b"ababababab",
        b"aabaabaaab",
        b"abaababaab",
        b"la la\r\nla ",
        b"\xc9t\xe9\xbc\xbd\xff\xbe\xe9t\xc9",
        b"abcdefghij",
    ];
    for round in 0..120 {
        let (word, page) = (words[round % 8], PAGES[round / 8 % 2]);
        let (text, starts) = copies(page, word, &mut random);
        for parts in [parts(|_| ()), parts(|lengths| lengths.reverse()), parts(|lengths| shuffle(lengths, &mut random))] {
            let part = |&(copy, start, length): &(usize, usize, usize)| cue_at(page, &text, starts[copy] + start, length, &mut random);
            let mut cues: Vec<Cue> = parts.iter().map(part).collect();
            assert_eq!(group_numbers(&cues)[54], 1, "all parts are in one group");
            resolve_rising(page, &cues, &text, &mut random);
            let fault = random.below(55);
            cues[fault] = past_the_last(page, &cues[fault], &text);
            resolve_missing(page, &cues, fault, &text, &mut random);
        }
    }
    report("parts_of_a_word", 3 * 2 * 120);
}

/// 64 phrases that all end at one letter, so that all bits of the number are set there: the ends of a word, and powers of one letter. They rise from the
/// longest to the shortest, or the other way, since each stands in a copy of its own.
#[test]
fn all_phrases_end_at_one_letter() {
    let mut random = Random::new(74);
    for (round, word) in [fibonacci(64), vec![b'a'; 64], periodic(b"ab", 64), random.word(26, 64)].into_iter().enumerate() {
        let page = PAGES[round % 2];
        let text = in_any_case(page, &[&b"b"[..], &word.repeat(64)].concat(), &mut random);
        let orders: [fn(usize) -> usize; 2] = [|copy| copy, |copy| 63 - copy];
        for start in orders {
            let end = |copy: usize| cue_at(page, &text, 1 + 64 * copy + start(copy), 64 - start(copy), &mut random);
            let mut cues: Vec<Cue> = (0..64).map(end).collect();
            resolve_rising(page, &cues, &text, &mut random);
            for fault in [63, 62, 48, 47, 32, 31, 16, 15, 1, 0] {
                cues[fault] = past_the_last(page, &cues[fault], &text);
                resolve_missing(page, &cues, fault, &text, &mut random);
            }
        }
    }
    report("all_phrases_end_at_one_letter", 4 * 2 * 11);
}

/// One phrase in all cues: each occurrence in turn from the first on, up to the last one, and spread over all; and then the last cue is missing. Where
/// the ordinals do not rise, the places do not: one for all cues, falling ones, two in turn, and the last but one twice.
#[test]
fn equal_phrases() {
    let mut random = Random::new(75);
    for (phrase, text) in [(&b"aA"[..], periodic(b"Aa", 140)), (b"la", periodic(b"LalA\n", 400)), (b"\xc9", periodic(b"\xe9\r\n\xc9", 260))] {
        for count in [1, 2, 63, 64, 65, 130] {
            let page = PAGES[count % 2];
            let most = total(page, phrase, &text);
            let mut of_ordinals = |ordinal: &dyn Fn(usize) -> usize| -> Vec<Cue> {
                (0..count).map(|k| cue(&in_any_case(page, phrase, &mut random), ordinal(k))).collect()
            };
            let rising = [of_ordinals(&|k| k + 1), of_ordinals(&|k| most - count + 1 + k), of_ordinals(&|k| 1 + k * most / count)];
            // With the first cue that would be at fault.
            let backward = [
                (of_ordinals(&|_| most), 1),
                (of_ordinals(&|k| most - k), 1),
                (of_ordinals(&|k| 1 + k % 2), 2),
                (of_ordinals(&|k| (1 + k).min(count.max(2) - 1)), count.max(2) - 1),
            ];
            for mut cues in rising {
                resolve_rising(page, &cues, &text, &mut random);
                cues[count - 1].ordinal = most as u16 + 1;
                resolve_missing(page, &cues, count - 1, &text, &mut random);
            }
            for (cues, fault) in backward {
                let outcome = if fault < count { Outcome::Backward(fault) } else { Outcome::Resolved };
                resolve_to(outcome, page, &cues, &text, &mut random);
            }
        }
    }
    report("equal_phrases", 3 * 6 * (3 * 2 + 4));
}

/// Books of every number of cues up to four groups, with a fault in the last cue or none.
#[test]
fn every_number_of_cues() {
    let mut random = Random::new(76);
    for count in 0..=4 * GROUP_CUES + 1 {
        let (page, alphabet) = (PAGES[count % 2], ALPHABETS[count % 7]);
        let text = verse(page, alphabet, 300, &mut random);
        let mut cues = rising(page, &text, count, 6, &mut random);
        let answer = resolve(page, &cues, &text, &mut random);
        assert_eq!(answer.reads as usize, 300 * count.div_ceil(GROUP_CUES), "{count} cues in a text of 300 letters");
        resolve_rising(page, &cues, &text, &mut random);
        cues.push(missing(page, alphabet, &text, &mut random));
        resolve_missing(page, &cues, count, &text, &mut random);
    }
    report("every_number_of_cues", 3 * 258);
}

/// Books just within 4,096 phrase bytes and just past them, with the groups that they have: the lengths of the phrases, and how many groups.
fn books_at_the_bytes_of_a_group() -> Vec<(Vec<usize>, usize)> {
    vec![
        (vec![PHRASE; 4], 1),
        ([vec![PHRASE; 4], vec![1]].concat(), 2),
        ([vec![1], vec![PHRASE; 4]].concat(), 2),
        ([vec![PHRASE; 3], vec![PHRASE - 1, 1]].concat(), 1),
        ([vec![PHRASE; 3], vec![PHRASE - 1, 2]].concat(), 2),
        ([vec![PHRASE; 3], vec![PHRASE - 1, 1, 1]].concat(), 2),
        (vec![64; 64], 1),
        ([vec![64; 63], vec![65]].concat(), 2),
        ([vec![65; 63], vec![1]].concat(), 1),
        ([vec![65; 63], vec![2]].concat(), 2),
        (vec![65; 64], 2),
        ([vec![64; 64], vec![64; 64]].concat(), 2),
        ([vec![64; 64], vec![64; 64], vec![1]].concat(), 3),
        // A long phrase that does not fit begins a group, also where a later short one would fit into the one before.
        (vec![1000, 1024, 1024, 1024, 1000, 24, 1000], 2),
        (vec![1024, 1024, 1024, 1000, 1024, 1024, 1024, 1024, 24], 3),
        (vec![1024; 13], 4),
    ]
}

#[test]
fn groups_at_their_bytes() {
    let mut random = Random::new(77);
    let texts = [random.word(256, 3000), verse(15, ALPHABETS[6], 3000, &mut random), fibonacci(2500), vec![b'A'; 1100]];
    for (lengths, groups) in books_at_the_bytes_of_a_group() {
        for (text, page) in texts.iter().flat_map(|text| PAGES.map(|page| (text, page))) {
            let mut cues = rising_of_lengths(page, text, &lengths, &mut random);
            let answer = resolve(page, &cues, text, &mut random);
            assert_eq!((answer.refusal, answer.reads as usize), (0, groups * text.len()), "phrases of {lengths:?} in {} letters", text.len());
            let last = cues.len() - 1;
            for fault in [last, last - 1, last / 2, 0] {
                cues[fault] = past_the_last(page, &cues[fault], text);
                resolve_missing(page, &cues, fault, text, &mut random);
            }
        }
    }
    report("groups_at_their_bytes", 16 * 8 * 5);
}

/// A fault at each cue of books with several groups, by the number of cues and by the bytes: before it all is written, and behind it nothing, also in
/// its own group.
#[test]
fn a_fault_at_every_cue() {
    let mut random = Random::new(78);
    for (page, text, cues) in books_of_four_groups(&mut random) {
        resolve_rising(page, &cues, &text, &mut random);
        for fault in 0..cues.len() {
            // A later fault is not told, also not one in the same group.
            let mut changed = cues.clone();
            changed[fault] = past_the_last(page, &changed[fault], &text);
            let later = random.between(fault, cues.len() - 1);
            changed[later] = cue(b"in no verse", 1);
            resolve_missing(page, &changed, fault, &text, &mut random);
        }
    }
    report("a_fault_at_every_cue", 3 + 200 + 180 + 20);
}

/// Phrases that share no front, with 4,096 letters in all, so that the automaton has as many states as it can have: each begins with a letter of its
/// own. Behind them stands a phrase that begins the next group.
#[test]
fn groups_with_the_most_states() {
    let mut random = Random::new(84);
    for (page, letters) in PAGES.into_iter().flat_map(|page| [2, 26, 256].map(|letters| (page, letters))) {
        for count in [4, 16, GROUP_CUES] {
            // Folding leaves the letters below 64 as they are.
            let phrase = |first: u8| [vec![first], random.word(letters, GROUP_BYTES / count - 1)].concat();
            let phrases: Vec<Vec<u8>> = (0..count as u8).map(phrase).collect();
            let text = [phrases.concat(), random.word(letters, 500), phrases.concat()].concat();
            // The first ones stand in the phrases' first copy and the others in their second.
            let (length, first) = (GROUP_BYTES / count, random.between(0, count));
            let place = |k: usize| k * length + if k < first { 0 } else { GROUP_BYTES + 500 };
            let mut cues: Vec<Cue> = (0..count).map(|k| cue_at(page, &text, place(k), length, &mut random)).collect();
            resolve_rising(page, &cues, &text, &mut random);
            cues.push(cue_at(page, &text, text.len() - 1, 1, &mut random));
            assert_eq!(group_numbers(&cues)[count..], [2], "the last cue is a group of its own");
            resolve_rising(page, &cues, &text, &mut random);
            cues[count - 1] = past_the_last(page, &cues[count - 1], &text);
            resolve_missing(page, &cues, count - 1, &text, &mut random);
        }
    }
    report("groups_with_the_most_states", 6 * 3 * 3);
}

/// A book that is refused behind whole groups, whose cues do not run forward either: nothing of the text is read, and nothing is written.
#[test]
fn a_fault_of_the_book_behind_groups() {
    let mut random = Random::new(85);
    for count in [1, 64, 65, 128, 500, CUES - 1] {
        let whole = book(&vec![cue(b"La", 2); count]);
        let last = cue(b"la", 1).bytes();
        for (refusal, damaged) in [(7, last[..last.len() - 1].to_vec()), (8, [&b"\x02"[..], &last[1..]].concat()), (9, b"\x01\x00\x00".to_vec())] {
            for page in PAGES {
                let lengths = Lengths::enough(8, count + 1).or_more(&mut random);
                let answer = compare_resolve(
                    some_resolving(&mut random),
                    some_day(&mut random).into(),
                    page,
                    &[&whole[..], &damaged].concat(),
                    b"la la\nla",
                    lengths,
                    random.next(),
                );
                assert_eq!(answer, RawResolving { refusal, number: count as u32, reads: 0 }, "page {page}, {count} cues before the refused one");
            }
        }
    }
    report("a_fault_of_the_book_behind_groups", 6 * 3 * 2);
}

/// 999 cues in as few groups as there can be, and in as many.
#[test]
fn most_cues_in_groups() {
    let mut random = Random::new(79);
    for (page, length, groups) in [(1, 1, 16), (15, 4, 16), (1, 64, 16), (15, 65, 16), (1, 66, 17), (15, 500, 125), (1, 1024, 250)] {
        let text = [verse(page, ALPHABETS[6], 1100, &mut random), random.word(256, 1000)].concat();
        let mut cues = rising_of_lengths(page, &text, &[length; CUES], &mut random);
        let answer = resolve(page, &cues, &text, &mut random);
        assert_eq!((answer.refusal, answer.number), (0, 999), "phrases of {length} letters");
        assert_eq!(answer.reads, 2100 * groups, "phrases of {length} letters");
        for fault in [998, 997, 960, 959, 512, 511, 500, 64, 63, 4, 3, 0] {
            cues[fault] = past_the_last(page, &cues[fault], &text);
            resolve_missing(page, &cues, fault, &text, &mut random);
        }
    }
    report("most_cues_in_groups", 7 * 13);
}

/// Resolves the cues with a scratch of this length and a copy that may be longer than the text.
fn with_scratch(page: u32, cues: &[Cue], text: &[u8], scratch: usize, random: &mut Random) -> RawResolving {
    let lengths = Lengths { copy: text.len() + random.below(300), scratch, ..Lengths::enough(text.len(), cues.len()) };
    let day = some_day(random);
    let role = some_resolving(random);
    compare_resolve(role, day.into(), page, &book(&all_resolved(role, cues, day, random)), text, lengths, random.next())
}

/// Scratches just too short, just long enough and longer, for groups with few states and with the most, and with few letters and with all.
#[test]
fn every_length_of_scratch() {
    let mut random = Random::new(80);
    let one_group = |length: usize| vec![length; (GROUP_BYTES / length).min(GROUP_CUES)];
    for letters in [1, 2, 26, 256] {
        for length in [1, 2, 16, 64, 300, 1024] {
            let page = PAGES[random.below(2)];
            let text = in_any_case(page, &random.word(letters, 6000), &mut random);
            let cues = rising_of_lengths(page, &text, &[&one_group(length)[..], &[5; 70]].concat(), &mut random);
            let told = format!("page {page}, {letters} letters, phrases of {length}");
            for scratch in [0, 1281, 33_032, 65_534] {
                let answer = with_scratch(page, &cues, &text, scratch, &mut random);
                assert_eq!(answer, RawResolving { refusal: 5, number: 0, reads: 0 }, "{told}, scratch {scratch}");
            }
            for scratch in [SCRATCH, 65_536, 65_537, 65_791, 66_000, 80_000, 131_072, 200_000] {
                let answer = with_scratch(page, &cues, &text, scratch, &mut random);
                assert_eq!(answer, Outcome::Resolved.answer(&cues, text.len()), "{told}, scratch {scratch}");
            }
        }
    }
    report("every_length_of_scratch", 4 * 6 * 12);
}

/// Texts of every kind in full length, with cues that reach their end.
#[test]
fn longest_texts() {
    let mut random = Random::new(81);
    let kinds = [random.word(256, TEXT), random.word(2, TEXT), verse(15, ALPHABETS[6], TEXT, &mut random), vec![b'A'; TEXT], fibonacci(TEXT)];
    for (round, text) in kinds.iter().enumerate() {
        for (page, lengths) in [(1, vec![1; 3]), (15, vec![2, 3, 5, 8, 13, 21, 400]), (PAGES[round % 2], vec![1024; 5])] {
            let mut cues = rising_of_lengths(page, &text[..TEXT - 700], &lengths, &mut random);
            for last in [700, 1] {
                cues.push(cue_at(page, text, TEXT - last, last, &mut random));
            }
            resolve_rising(page, &cues, text, &mut random);
            cues[1] = past_the_last(page, &cues[1], text);
            resolve_missing(page, &cues, 1, text, &mut random);
        }
    }
    report("longest_texts", 5 * 3 * 2);
}

/// Nothing is read of an empty text, whichever cue of however many groups is asked for; and a book without cues has no groups.
#[test]
fn empty_texts_and_books() {
    let mut random = Random::new(82);
    for count in [1, 64, 65, 300, CUES] {
        for page in PAGES {
            let cues = vec![cue(b"A", 1); count];
            let answer = resolve(page, &cues, b"", &mut random);
            assert_eq!(answer, RawResolving { refusal: 12, number: 0, reads: 0 }, "page {page}, {count} cues in an empty text");
        }
    }
    for (n, scratch) in [0, 1, 100, TEXT].into_iter().flat_map(|n| [SCRATCH, 65_536, 200_000].map(|scratch| (n, scratch))) {
        for page in PAGES {
            let answer = with_scratch(page, &[], &vec![b'A'; n], scratch, &mut random);
            assert_eq!(answer, RawResolving { refusal: 0, number: 0, reads: 0 }, "page {page}, no cues in {n} letters, scratch {scratch}");
        }
    }
    report("empty_texts_and_books", 5 * 2 + 4 * 3 * 2);
}

/// Random books of up to 300 cues: all run forward, or one does not stand in the text, or one stands not behind the cue before it, or the cues stand in
/// any order.
#[test]
fn random_books() {
    let mut random = Random::new(83);
    let mut met = Met::default();
    for round in 0..4000 {
        let (page, alphabet) = (Page::ALL[round / 2 % 2], ALPHABETS[round % 7]);
        let n = [random.between(1, 30), random.between(1, 300), random.between(1, 1500)][round % 3];
        let text = if round / 4 % 2 == 0 { verse(page.number(), alphabet, n, &mut random) } else { word(alphabet, n, &mut random) };
        let (most, longest) = ([5, 70, 300][random.below(3)], [3, 20, 200, 1024][random.below(4)]);
        let count = random.between(1, most.min(n));
        let mut cues = rising(page.number(), &text, count, longest, &mut random);
        let fault = random.below(count);
        match random.below(4) {
            0 => resolve_in_full(page, &cues, &text, &mut random),
            1 => {
                let missing = missing(page.number(), alphabet, &text[..n.min(1000)], &mut random);
                cues[fault] = past_the_last(page.number(), &missing, &text);
            }
            2 if fault > 0 => {
                let before = place_of(page.number(), &cues[fault - 1], &text).expect("the cue stands in the text");
                cues[fault] = not_behind(page.number(), &text, before, longest, &mut random);
            }
            _ => shuffle(&mut cues, &mut random),
        }
        resolve_any(page.number(), &cues, &text, &mut met, &mut random);
    }
    let of = |refusal| met.0.iter().filter(|((met, _), _)| *met == refusal).map(|(_, count)| count).sum::<usize>();
    assert!([0, 12, 15].into_iter().all(|refusal| of(refusal) > 800), "the calls met too little: {met:?}");
    report("random_books", 4000);
}

/// Resolves cues that run forward over the interface that lends the memory itself, and compares all places.
fn resolve_in_full(page: Page, cues: &[Cue], text: &[u8], random: &mut Random) {
    resolve_rising(page.number(), cues, text, random);
    let day = some_day(random);
    let found = resolve_all(Role::Guest, day.into(), page, &book(&all_resolved(GUEST, cues, day, random)), text).expect("all cues stand in the text");
    let due = cues.iter().map(|cue| place_of(page.number(), cue, text));
    let given = found.iter().map(|&CuePlace { place, .. }| Some(place as usize));
    assert!(given.eq(due), "{page:?}, {cues:?} in \"{}\": {found:?}", text.escape_ascii());
}
