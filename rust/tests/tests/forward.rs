//! Cues that run forward and cues that do not: every place beside every other, within a group and from one group to the next, a cue that does not run
//! forward at every index, and it beside a missing one. What a call leaves in its memory is compared in every call.

use libretto_tests::books::{Cue, CUES, PHRASE};
use libretto_tests::groups::{books_of_four_groups, group_numbers, past_the_last, Outcome, GROUP_CUES};
use libretto_tests::groups::{resolve_backward, resolve_missing, resolve_rising, resolve_to};
use libretto_tests::pages::PAGES;
use libretto_tests::verses::{cue_at, place_of, rising_of_lengths, verse, word, ALPHABETS};
use libretto_tests::words::{fibonacci, periodic};
use libretto_tests::{report, Random};

/// The longest text.
const TEXT: usize = 32_768;

/// A cue at this place, of up to so many letters.
fn some_cue_at(page: u32, text: &[u8], place: usize, longest: usize, random: &mut Random) -> Cue {
    let length = random.between(1, longest.min(text.len() - place));
    cue_at(page, text, place, length, random)
}

/// Resolves cues at these places, whose phrases may overlap.
fn resolve_at(page: u32, text: &[u8], places: &[usize], random: &mut Random) -> Outcome {
    let cues: Vec<Cue> = places.iter().map(|&place| some_cue_at(page, text, place, 6, random)).collect();
    let outcome = Outcome::of_places(&places.iter().map(|&place| Some(place)).collect::<Vec<_>>());
    resolve_to(outcome, page, &cues, text, random);
    outcome
}

/// Three cues at every three places of a short text: each is compared with the one before it, and not with the first one or with the ends of phrases.
#[test]
fn every_three_places() {
    let mut random = Random::new(91);
    let mut met = [0; 3];
    for text in [&b"abcdefghijkl"[..], b"aaaaaaaaaaaa", b"ab\r\nab\r\nab\r\n", b"\xe9\xc9\xbc\xbd\xe9\xc9\xbc\xbd\xe9\xc9\xbc\xbd"] {
        for code in 0..12 * 12 * 12 {
            let places = [code % 12, code / 12 % 12, code / 144];
            for page in PAGES {
                met[match resolve_at(page, text, &places, &mut random) {
                    Outcome::Backward(cue) => cue,
                    _ => 0,
                }] += 1;
            }
        }
    }
    // Of 12 places three rise in 220 ways, and two in 66 ways, behind which the third does not in 66 * 12 - 220.
    assert_eq!(met, [220, 144 * 12 - 66 * 12, 66 * 12 - 220].map(|ways| 4 * 2 * ways));
    report("every_three_places", 4 * 2 * 12 * 12 * 12);
}

/// Two cues at every two of these places of a long text, at which the numbers need another byte or come to an end.
#[test]
fn far_places() {
    let mut random = Random::new(92);
    let places = [0, 1, 2, 127, 128, 254, 255, 256, 257, 511, 512, 4095, 4096, 16_383, 16_384, 32_511, 32_512, 32_766, 32_767];
    let text = word(ALPHABETS[6], TEXT, &mut random);
    for (index, first) in places.iter().enumerate() {
        for second in places {
            for page in PAGES {
                resolve_at(page, &text, &[*first, second], &mut random);
                // The same between the first place and the last one.
                resolve_at(page, &text, &[0, *first, second, 32_767], &mut random);
            }
        }
        resolve_at(PAGES[index % 2], &text, &[*first], &mut random);
    }
    report("far_places", 19 * (19 * 2 * 2 + 1));
}

/// Whole groups, and behind them a cue at places all over the text and at each one near the last cue's: it is compared with that last cue.
#[test]
fn places_behind_a_group() {
    let mut random = Random::new(93);
    let mut met = [0; 2];
    // 64 cues, 4,096 phrase bytes, and two groups.
    for lengths in [vec![2; GROUP_CUES], vec![PHRASE; 4], [vec![PHRASE; 4], vec![64; GROUP_CUES]].concat()] {
        for page in PAGES {
            let text = verse(page, ALPHABETS[6], 1200, &mut random);
            let group = rising_of_lengths(page, &text, &lengths, &mut random);
            let last = places_of(page, &group, &text)[group.len() - 1];
            for place in (0..1199).step_by(7).chain(last - 3..=(last + 3).min(1198)) {
                let behind = some_cue_at(page, &text, place, 6, &mut random);
                let more = some_cue_at(page, &text, 1199, 6, &mut random);
                let cues = [&group[..], &[behind, more]].concat();
                let groups = group_numbers(&cues);
                assert!(groups[group.len()] > groups[group.len() - 1], "the cue begins a group");
                let outcome = if place <= last { Outcome::Backward(group.len()) } else { Outcome::Resolved };
                resolve_to(outcome, page, &cues, &text, &mut random);
                met[usize::from(outcome == Outcome::Resolved)] += 1;
            }
        }
    }
    assert!(met.iter().all(|&count| count > 100), "the calls met too little: {met:?}");
    report("places_behind_a_group", 3 * 2 * (172 + 4));
}

/// The places of cues that all stand in the text.
fn places_of(page: u32, cues: &[Cue], text: &[u8]) -> Vec<usize> {
    cues.iter().map(|cue| place_of(page, cue, text).expect("the cue stands in the text")).collect()
}

/// A cue that does not run forward at each cue of books with several groups, by the number of cues and by the bytes: at the place of the cue before
/// it, at the one below, and at the first cue's. Before it all is written, and behind it nothing, also in its own group.
#[test]
fn a_backward_cue_at_every_index() {
    let mut random = Random::new(94);
    let [mut first, mut last] = [0; 2];
    for (page, text, cues) in books_of_four_groups(&mut random) {
        let (places, groups) = (places_of(page, &cues, &text), group_numbers(&cues));
        for fault in 1..cues.len() {
            first += usize::from(groups[fault] > groups[fault - 1]);
            last += usize::from(groups.get(fault + 1) != Some(&groups[fault]));
            for place in [places[fault - 1], places[fault - 1].saturating_sub(1), places[0]] {
                // A later fault is not told, also not one in the same group.
                let mut changed = cues.clone();
                let later = random.between(fault, cues.len() - 1);
                changed[later] = [past_the_last(page, &cues[later], &text), cues[0].clone(), cues[later].clone()][random.below(3)].clone();
                changed[fault] = cue_at(page, &text, place, cues[fault].phrase.len(), &mut random);
                resolve_backward(page, &changed, fault, &text, &mut random);
            }
        }
    }
    assert_eq!([first, last], [9, 12], "three books of four groups, and the first cue of all is at no fault");
    report("a_backward_cue_at_every_index", 3 * (199 + 179 + 19));
}

/// Every two cues of some at fault, each missing or not running forward, in a book of three groups: the first one is told, whichever its fault is.
#[test]
fn two_faults() {
    let mut random = Random::new(95);
    let faults = [1, 2, 31, 62, 63, 64, 65, 100, 127, 128, 129, 149];
    for page in PAGES {
        let text = verse(page, ALPHABETS[6], 900, &mut random);
        let cues = rising_of_lengths(page, &text, &[4; 150], &mut random);
        let places = places_of(page, &cues, &text);
        resolve_rising(page, &cues, &text, &mut random);
        for (one, other) in faults.iter().enumerate().flat_map(|(k, &one)| faults[k + 1..].iter().map(move |&other| (one, other))) {
            for kinds in 0..4 {
                let mut changed = cues.clone();
                let mut at_fault = |fault: usize, missing: bool| {
                    let backward = cue_at(page, &text, places[fault - 1], 4, &mut random);
                    changed[fault] = if missing { past_the_last(page, &cues[fault], &text) } else { backward };
                };
                at_fault(other, kinds / 2 == 0);
                at_fault(one, kinds % 2 == 0);
                let outcome = if kinds % 2 == 0 { Outcome::Missing(one) } else { Outcome::Backward(one) };
                resolve_to(outcome, page, &changed, &text, &mut random);
            }
        }
    }
    report("two_faults", 2 * (1 + 66 * 4));
}

/// A missing cue behind one that stands as late as it can, at every index up to the second group's end: it has no place, so that it meets 12 alone.
#[test]
fn missing_behind_the_last_place() {
    let mut random = Random::new(96);
    for (page, letter) in PAGES.into_iter().flat_map(|page| [(page, b'a'), (page, b'\n')]) {
        for count in 0..=2 * GROUP_CUES {
            // Each letter of the text is a cue's place, and there is none behind the last.
            let text = vec![letter; count];
            let ordinals = (1..=count).chain([count + 1, 1]);
            let cues: Vec<Cue> = ordinals.map(|ordinal| Cue::new(&[letter], ordinal as u16, b"")).collect();
            resolve_rising(page, &cues[..count], &text, &mut random);
            resolve_missing(page, &cues, count, &text, &mut random);
            resolve_missing(page, &[&cues[..count], &[Cue::new(b"so", 1, b"")]].concat(), count, &text, &mut random);
        }
    }
    report("missing_behind_the_last_place", 4 * 129 * 3);
}

/// Phrases that overlap the one before them, down to one letter's distance, run forward all the same; the same book with one of them twice does not.
#[test]
fn overlapping_phrases() {
    let mut random = Random::new(97);
    for (round, text) in [fibonacci(1400), vec![b'a'; 1400], periodic(b"la la\r\n", 1400), random.word(256, 1400)].iter().enumerate() {
        let page = PAGES[round % 2];
        for (length, distance, count) in [(2, 1, 999), (300, 1, 999), (400, 3, 300), (PHRASE, 1, 300), (PHRASE, 100, 4), (65, 64, 20)] {
            let cues: Vec<Cue> = (0..count).map(|k| cue_at(page, text, k * distance, length, &mut random)).collect();
            resolve_rising(page, &cues, text, &mut random);
            let twice = random.below(count);
            let mut changed = [&cues[..=twice], &cues[twice..]].concat();
            changed.truncate(CUES);
            let outcome = if twice + 1 < changed.len() { Outcome::Backward(twice + 1) } else { Outcome::Resolved };
            resolve_to(outcome, page, &changed, text, &mut random);
        }
    }
    report("overlapping_phrases", 4 * 6 * 2);
}
