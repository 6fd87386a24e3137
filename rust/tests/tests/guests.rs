//! A guest's resolve: house cues are passed over like cues that do not play, wherever they stand and whatever is wrong with them; its numbers count the open
//! cues, and faults of the book all of them; and books that differ in house cues alone give it the same. What a call leaves in its memory is compared in
//! every call. The tests of days, entries, groups and forward running have guests and house cues too.

use libretto::{
    resolve, resolve_all, resolve_raw, BookError, CuePlace, Page, RawResolving, Refusal, ResolverMemory, Resolving, Role, RESOLVER_SCRATCH,
};
use libretto_tests::books::{book, resolved_of, Cue, CUES, MARKS, MORE, PHRASE};
use libretto_tests::evenings::{all_resolved, days_around, days_beside, some_day, Evening};
use libretto_tests::groups::{answer, letters, past_the_last, resolve_evening, Outcome};
use libretto_tests::pages::PAGES;
use libretto_tests::roles::{GUEST, OPERATOR, RESOLVING};
use libretto_tests::verses::{missing, not_behind, place_of, rising, verse, ALPHABETS};
use libretto_tests::{compare_resolve, report, Lengths, Random};

/// The evening of these cues for a role and a day, by their own days and marks.
fn evening(role: u32, day: u16, cues: &[Cue]) -> Evening {
    let plays = |cue: &Cue| cue.days.is_none_or(|(first, last)| first <= day && day <= last);
    let is_resolved = |&index: &usize| plays(&cues[index]) && (role == OPERATOR || !cues[index].is_house());
    Evening { role, day, cues: cues.to_vec(), resolved: (0..cues.len()).filter(is_resolved).collect() }
}

/// Resolves these cues for a role and a day, and tells what they come to.
fn resolve_cues(role: u32, day: u16, page: u32, cues: &[Cue], text: &[u8], random: &mut Random) -> Outcome {
    let evening = evening(role, day, cues);
    let resolved: Vec<Cue> = evening.resolved.iter().map(|&index| cues[index].clone()).collect();
    let outcome = Outcome::of(page, &resolved, text);
    resolve_evening(outcome, page, &evening, text, random);
    outcome
}

/// Five cues, of which each plays or does not, and has every mark: those that are passed over for a guest are missing, at the place of the one before, or at
/// the last place of all, so that any of them that was found, compared, counted or written would show. Each of the others may be missing too.
#[test]
fn every_choice_of_house_cues() {
    let mut random = Random::new(151);
    let mut met = [0; 3];
    for code in 0..6usize.pow(5) {
        let day = some_day(&mut random);
        let kinds = [0, 1, 2, 3, 4].map(|k| code / 6usize.pow(k) % 6);
        let mut cues = letters(5);
        for (k, kind) in kinds.into_iter().enumerate() {
            let plays = kind < 3;
            let passed_over = !plays || kind == 2;
            let (phrase, ordinal) = [(&b"b"[..], 1), (b"a", k.max(1)), (b"a", 5), (b"a", 6)][random.below(4)];
            if passed_over || random.below(20) == 0 {
                cues[k] = Cue::new(phrase, ordinal as u16, b"off");
            }
            let days = if plays { days_around(day, &mut random) } else { days_beside(day, &mut random) };
            cues[k].days = (!plays || random.below(2) == 0).then_some(days);
            cues[k].mark = MARKS[kind % 3];
        }
        for role in RESOLVING {
            let outcome = resolve_cues(role, day, PAGES[code % 2], &cues, b"aAaAa", &mut random);
            met[match outcome {
                Outcome::Resolved => 0,
                Outcome::Missing(_) => 1,
                Outcome::Backward(_) => 2,
            }] += 1;
        }
    }
    assert!(met.iter().all(|&count| count > 400), "the calls met too little: {met:?}");
    report("every_choice_of_house_cues", 2 * 7776);
}

/// The number of a fault for each role: so many house cues, so many open cues that do not play and so many that do, before the one at fault.
#[test]
fn numbers_of_faults() {
    let mut random = Random::new(152);
    for (house, off, before) in (0..5 * 5 * 5).map(|code| (code % 5, code / 5 % 5, code / 25)) {
        for (refusal, fault) in [(12, Cue::new(b"b", 1, b"")), (15, Cue::new(b"a", before.max(1) as u16, b""))] {
            if refusal == 15 && before == 0 {
                continue;
            }
            // The house cues are not in the text; for the operator the first of them is the fault.
            let mut cues = [vec![Cue::new(b"~", 1, b"").marked(1); house], vec![Cue::new(b"~", 1, b"").on(1, 1); off], letters(before)].concat();
            let mark = MARKS[random.below(2)];
            cues.push(Cue { mark, ..fault.clone() });
            cues.push(Cue::new(b"~", 1, b"").marked(1));
            let lengths = Lengths::enough(9, before + 1);
            let guest = compare_resolve(GUEST, 2, 1, &book(&cues), b"aAaAaAaAa", lengths, random.next());
            assert_eq!(guest, answer(refusal, off + before, 9), "{house} house cues, {off} that do not play, {before} that do, and {fault:?}");
            let lengths = Lengths::enough(9, cues.len());
            let operator = compare_resolve(OPERATOR, 2, 1, &book(&cues), b"aAaAaAaAa", lengths, random.next());
            let due = if house > 0 { answer(12, 0, 9) } else { answer(refusal, off + before, 9) };
            assert_eq!(operator, due, "{house} house cues, {off} that do not play, {before} that do, and {fault:?}");
        }
    }
    report("numbers_of_faults", 2 * (125 + 100));
}

/// Many house cues between so many open ones, with phrases of one letter and of many: the reads count the groups of the open ones.
#[test]
fn groups_of_the_open_cues() {
    let mut random = Random::new(154);
    for (open, groups) in [(1, 1), (63, 1), (64, 1), (65, 2), (128, 2), (129, 3)] {
        for house in [1, 63, 64, 65, 300, CUES - open] {
            for phrase in [1, 65, PHRASE] {
                let mut cues = letters(open);
                for _ in 0..house {
                    let at = random.between(0, cues.len());
                    cues.insert(at, Cue::new(&vec![b'a'; phrase], random.between(1, 300) as u16, b"house").marked(1));
                }
                let text = vec![b'A'; open];
                let given = compare_resolve(GUEST, 2, 15, &book(&cues), &text, Lengths::enough(open, open), random.next());
                assert_eq!(given, answer(0, open, open * groups), "{open} open cues, {house} house cues of {phrase} letters");
            }
        }
    }
    report("groups_of_the_open_cues", 6 * 6 * 3);
}

/// What a guest's call gives and leaves, in memory of these lengths that is dirty before, by the seed.
fn left_for_guest(day: u16, page: u32, book: &[u8], text: &[u8], lengths: Lengths, seed: u64) -> (RawResolving, Vec<u8>, Vec<u16>, Vec<u32>) {
    let mut random = Random::new(seed);
    let mut copy = random.word(256, lengths.copy);
    let mut scratch = vec![random.next() as u16; lengths.scratch];
    let mut entries: Vec<u32> = (0..lengths.entries).map(|_| random.next() as u32).collect();
    let memory = &mut ResolverMemory { copy: &mut copy, scratch: &mut scratch, entries: &mut entries };
    (resolve_raw(GUEST, day.into(), page, book, text, memory), copy, scratch, entries)
}

/// Open cues with any days, among them some at fault, and the text in which they stand.
fn open_cues(page: u32, alphabet: &[u8], day: u16, random: &mut Random) -> (Vec<Cue>, Vec<u8>) {
    let n = random.between(1, 120);
    let text = verse(page, alphabet, n, random);
    let count = random.between(0, n.min(80));
    let mut cues = all_resolved(GUEST, &rising(page, &text, count, 9, random), day, random);
    if count > 1 && random.below(2) == 0 {
        let fault = random.between(1, count - 1);
        let before = place_of(page, &cues[fault - 1], &text).expect("the cue stands in the text");
        let other = if random.below(2) == 0 { missing(page, alphabet, &text, random) } else { not_behind(page, &text, before, 9, random) };
        cues[fault] = Cue { mark: cues[fault].mark, days: cues[fault].days, ..other };
    }
    // Some do not play.
    for cue in &mut cues {
        if random.below(6) == 0 {
            cue.days = Some(days_beside(day, random));
        }
    }
    (cues, text)
}

/// The cues with house cues between them, in any number and place, with any phrases, ordinals, titles and days.
fn with_house(open: &[Cue], day: u16, random: &mut Random) -> Vec<Cue> {
    let mut cues = open.to_vec();
    for _ in 0..[0, 1, random.below(9), random.below(200)][random.below(4)] {
        let near = open.get(random.below(open.len() + 1)).filter(|_| random.below(2) == 0);
        let house = near.cloned().unwrap_or_else(|| Cue::random(random));
        let days = [None, Some(days_around(day, random)), Some(days_beside(day, random))][random.below(3)];
        let letters = random.below(9);
        let title = random.word(256, letters);
        cues.insert(random.between(0, cues.len()), Cue { days, title, ..house.marked(1) });
    }
    cues
}

/// Pairs of books that differ in house cues alone: a guest has the same answer, entries, copy and scratch from both, whatever the open cues come to.
#[test]
fn books_that_differ_in_house_cues() {
    let mut random = Random::new(155);
    let mut met = [0; 16];
    let mut different = 0;
    for round in 0..4000 {
        let (page, day) = (PAGES[round % 2], some_day(&mut random));
        let (open, text) = open_cues(page, ALPHABETS[round % 7], day, &mut random);
        let [one, other] = [0, 1].map(|_| with_house(&open, day, &mut random));
        different += usize::from(one.len() != other.len());
        let resolved = resolved_of(GUEST, &book(&open), day.into(), open.len());
        let enough = Lengths::enough(text.len(), resolved);
        let short = Lengths { entries: (3 * resolved).saturating_sub(1), ..enough };
        let lengths = if round % 10 == 0 { short } else { enough.or_more(&mut random) };
        let seed = random.next();
        let [left_one, left_other, left_open] = [&one, &other, &open].map(|cues| left_for_guest(day, page, &book(cues), &text, lengths, seed));
        assert!(left_one == left_other, "{:?} and {:?} from {one:?} and {other:?} in {text:?}, {lengths:?}", left_one.0, left_other.0);
        assert!(left_one == left_open, "{:?} and {:?} from {one:?} and {open:?} in {text:?}, {lengths:?}", left_one.0, left_open.0);
        assert_eq!(compare_resolve(GUEST, day.into(), page, &book(&one), &text, lengths, seed), left_one.0);
        met[left_one.0.refusal as usize] += 1;
    }
    assert!(different > 2000 && [0, 11, 12, 15].iter().all(|&refusal| met[refusal] > 100), "the books met too little: {met:?}, {different}");
    report("books_that_differ_in_house_cues", 4000);
}

/// A fault of the book in a house cue, an open one and one that does not play: a guest is told its index among all cues, and nothing is written.
#[test]
fn faults_of_the_book() {
    let mut random = Random::new(156);
    for count in [1, 2, 3, 65, CUES] {
        for fault in [0, count / 2, count - 1] {
            let cues: Vec<Cue> = (0..count).map(|k| Cue { mark: MARKS[k % 3], ..Cue::new(b"b", 1, b"") }).collect();
            let (before, after) = (book(&cues[..fault]), book(&cues[fault + 1..]));
            for mark in MARKS {
                let cue = Cue { mark, ..Cue::new(b"b", 1, b"") };
                let mut damages = vec![
                    (8, [&[2], &cue.bytes()[1..]].concat()),
                    (9, Cue { ordinal: 0, ..cue.clone() }.bytes()),
                    (9, cue.clone().marked(2).bytes()),
                    (9, cue.clone().marked(255).bytes()),
                    (16, cue.clone().on(2, 1).bytes()),
                    (16, cue.clone().on(0, 36_525).bytes()),
                ];
                if fault + 1 == count {
                    damages.push((7, cue.clone().marked(1).bytes()[..15].to_vec()));
                    damages.push((7, cue.bytes()[..11].to_vec()));
                }
                for (refusal, damaged) in damages {
                    let bytes = [&before[..], &damaged, &after].concat();
                    let lengths = Lengths::enough(3, count).or_more(&mut random);
                    let given = compare_resolve(GUEST, 9569, PAGES[fault % 2], &bytes, b"AaA", lengths, random.next());
                    assert_eq!(given, answer(refusal, fault, 0), "cue {fault} of {count} is {damaged:?}");
                }
            }
        }
    }
    let long = [Cue::new(b"b", 1, b"").marked(1).bytes().repeat(CUES), MORE.to_vec()].concat();
    let given = compare_resolve(GUEST, 9569, 1, &long, b"AaA", Lengths::enough(3, 0), random.next());
    assert_eq!(given, answer(10, CUES, 0));
    report("faults_of_the_book", 5 * 3 * 3 * 6 + 1);
}

/// Where no open cue plays, a guest's call reads nothing, and copy and scratch are as after success.
#[test]
fn no_cue_for_a_guest() {
    let mut random = Random::new(157);
    for count in [0, 1, 2, 64, 65, CUES] {
        for text in [&b""[..], b"A", b"L\xc0 la\r\n", &[b'A'; 32_768]] {
            for page in PAGES {
                // House cues that stand in the text and that do not, and open ones that do not play.
                let cues: Vec<Cue> =
                    (0..count).map(|k| [Cue::new(b"a", 1, b""), Cue::new(b"in no verse", 1, b"No")][k % 2].clone().marked(1)).collect();
                let mixed: Vec<Cue> =
                    cues.iter().enumerate().map(|(k, cue)| if k % 3 == 0 { cue.clone().on(1, 1).marked(0) } else { cue.clone() }).collect();
                for cues in [cues, mixed] {
                    let lengths = Lengths::enough(text.len(), 0).or_more(&mut random);
                    let given = compare_resolve(GUEST, 2, page, &book(&cues), text, lengths, random.next());
                    assert_eq!(given, answer(0, 0, 0), "page {page}, {count} cues in {} letters", text.len());
                }
            }
        }
    }
    report("no_cue_for_a_guest", 6 * 4 * 2 * 2);
}

/// What calls of the operator and of a guest leave, without the reference.
#[test]
fn a_song_for_both() {
    let text = b"Tra\nLa la\nLALA";
    let cue = |phrase: &[u8], ordinal, mark| Cue { mark, ..Cue::new(phrase, ordinal, b"") };
    let cues = [cue(b"tra", 1, None), cue(b"la", 1, Some(1)), cue(b"a l", 1, Some(0)), cue(b"la", 2, Some(1)), cue(b"lala", 1, None)];
    let rows = [[0, 1, 1], [4, 2, 1], [5, 2, 2], [7, 2, 4], [10, 3, 1]];
    for (role, seen) in [(Role::Operator, &[0, 1, 2, 3, 4][..]), (Role::Guest, &[0, 2, 4])] {
        for page in Page::ALL {
            let (mut copy, mut scratch, mut entries) = ([7; 16], vec![7; RESOLVER_SCRATCH + 3], [7; 20]);
            let mut memory = ResolverMemory { copy: &mut copy, scratch: &mut scratch, entries: &mut entries };
            assert_eq!(resolve(role, 0, page, &book(&cues), text, &mut memory), Ok(Resolving { cues: seen.len(), reads: 14 }), "{role:?}, {page:?}");
            let written: Vec<u32> = seen.iter().flat_map(|&cue| rows[cue]).collect();
            assert_eq!((&entries[..written.len()], &copy), (&written[..], b"tra\nla la\nlala\x07\x07"), "{role:?}, {page:?}");
            assert!(entries[written.len()..].iter().all(|&entry| entry == 7) && scratch.iter().all(|&entry| entry == 0), "{role:?}, {page:?}");
            let places = resolve_all(role, 0, page, &book(&cues), text);
            assert_eq!(places, Ok(seen.iter().map(|&cue| CuePlace { place: rows[cue][0], line: rows[cue][1], column: rows[cue][2] }).collect()));
        }
    }
    // The last cue is missing: it is the fifth of all, and the third of the open ones.
    let mut missing = cues;
    missing[4] = past_the_last(1, &missing[4], text);
    for (role, cue) in [(Role::Operator, 4), (Role::Guest, 2)] {
        let refused = resolve_all(role, 0, Page::Latin1, &book(&missing), text);
        assert_eq!(refused, Err(BookError { refusal: Refusal::NoOccurrence, cue: Some(cue) }), "{role:?}");
    }
}
