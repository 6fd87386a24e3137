//! Books of which some cues play on a day and others do not: days at, before and after each cue's own, cues that are passed over wherever they stand and
//! whatever is wrong with them, groups of the playing cues alone, and faults of the book in cues that do not play. What a call leaves in its memory is
//! compared in every call. That a number that is no day comes before every other refusal is tested with the resolver's other limits.

use libretto::{resolve, resolve_all, BookError, CuePlace, Page, RawResolving, Refusal, ResolverMemory, Resolving, Role, RESOLVER_SCRATCH};
use libretto_tests::books::{book, resolved_of, Cue, CUES, LAST_DAY, PHRASE};
use libretto_tests::evenings::{all_resolved, days_beside, passed_over, some_day, Evening};
use libretto_tests::groups::{answer, group_numbers, letters, past_the_last, resolve_evening, Outcome, GROUP_BYTES, GROUP_CUES};
use libretto_tests::pages::PAGES;
use libretto_tests::roles::{some_resolving, OPERATOR, RESOLVING};
use libretto_tests::verses::{missing, not_behind, place_of, rising, rising_of_lengths, verse, ALPHABETS};
use libretto_tests::{compare_resolve, report, Lengths, Random};

/// The longest text.
const TEXT: usize = 32_768;

/// Resolves a book on a day, in memory that is just long enough for so many playing cues.
fn resolve_on(day: u32, page: u32, cues: &[Cue], text: &[u8], playing: usize, random: &mut Random) -> RawResolving {
    compare_resolve(some_resolving(random), day, page, &book(cues), text, Lengths::enough(text.len(), playing), random.next())
}

/// Each of three cues with days from each day to each other, on every day around them.
#[test]
fn every_day_around_the_days() {
    let mut random = Random::new(101);
    // The calendar's front and end, and where a day's low byte turns over.
    for start in [0, 254, 510, LAST_DAY - 4] {
        for code in 0..15 * 15 {
            // All pairs of a first day that is not after the last, of five days.
            let pairs: Vec<(u16, u16)> = (0..5).flat_map(|first| (first..5).map(move |last| (start + first, start + last))).collect();
            let days = [Some(pairs[code % 15]), None, Some(pairs[code / 15])];
            let cues: Vec<Cue> = letters(3).into_iter().zip(days).map(|(cue, days)| Cue { days, ..cue }).collect();
            for day in start.saturating_sub(1)..=(start + 5).min(LAST_DAY) {
                let plays = |cue: &&Cue| cue.days.is_none_or(|(first, last)| first <= day && day <= last);
                let places: Vec<u32> = cues.iter().filter(plays).map(|cue| u32::from(cue.ordinal) - 1).collect();
                let count = places.len();
                assert_eq!(resolve_on(day.into(), 1, &cues, b"AaA", count, &mut random), answer(0, count, 3), "day {day}, {cues:?}");
                let found = resolve_all(Role::Guest, day.into(), Page::Latin9, &book(&cues), b"AaA");
                let due = places.iter().map(|&place| CuePlace { place, line: 1, column: place + 1 }).collect();
                assert_eq!(found, Ok(due), "day {day}, {cues:?}");
            }
        }
    }
    report("every_day_around_the_days", 4 * 225 * 6);
}

/// A cue on one day, resolved on each day of the calendar, and a cue on all days but one, as two.
#[test]
fn every_day_of_the_calendar() {
    let mut random = Random::new(102);
    for own in [0, 1, 255, 256, 9569, 36_268, LAST_DAY - 1, LAST_DAY] {
        let alone = [Cue::new(b"a", 1, b"").on(own, own)];
        let mut others = Vec::new();
        others.extend((own > 0).then(|| Cue::new(b"a", 2, b"").on(0, own - 1)));
        others.extend((own < LAST_DAY).then(|| Cue::new(b"a", 2, b"").on(own + 1, LAST_DAY)));
        let both = [&alone[..], &others].concat();
        // Each day near the one, and some of all others.
        for day in (0..=LAST_DAY).filter(|&day| day.abs_diff(own) < 300 || day % 97 == 0 || day == LAST_DAY) {
            let on = usize::from(day == own);
            assert_eq!(resolve_on(day.into(), 15, &alone, b"A a", on, &mut random), answer(0, on, 3 * on), "day {day}, own {own}");
            assert_eq!(resolve_on(day.into(), 15, &both, b"A a", 1, &mut random), answer(0, 1, 3), "day {day}, own {own}");
        }
    }
    report("every_day_of_the_calendar", 8 * 2 * 600);
}

/// Every choice of which of six cues play. Those that do not are missing, at the place of the one before, or at the last place of all, so that any of
/// them that was found, compared or written would show.
#[test]
fn every_choice_of_playing_cues() {
    let mut random = Random::new(103);
    let text = b"aAaAaA";
    for choice in 0..64usize {
        for kind in 0..4 {
            for (page, role) in PAGES.into_iter().flat_map(|page| RESOLVING.map(|role| (page, role))) {
                let day = some_day(&mut random);
                let mut evening = Evening { role, day, cues: all_resolved(role, &letters(6), day, &mut random), resolved: Vec::new() };
                for k in 0..6 {
                    if choice >> k & 1 == 1 {
                        evening.resolved.push(k);
                        continue;
                    }
                    let (phrase, ordinal): (&[u8], u16) = [(&b"b"[..], 1), (b"a", 7), (b"a", k.max(1) as u16), (b"a", 6)][kind];
                    let (first, last) = days_beside(day, &mut random);
                    evening.cues[k] = Cue::new(phrase, ordinal, b"off").on(first, last);
                }
                resolve_evening(Outcome::Resolved, page, &evening, text, &mut random);
            }
        }
    }
    report("every_choice_of_playing_cues", 64 * 4 * 4);
}

/// A fault at each resolved cue, with cues that are passed over before it, between and behind: the index is that in the book, and for a guest that among
/// its open cues.
#[test]
fn faults_name_the_index_in_the_book() {
    let mut random = Random::new(104);
    for round in 0..3000 {
        let (page, alphabet) = (PAGES[round % 2], ALPHABETS[round % 7]);
        let n = random.between(8, 200);
        let text = verse(page, alphabet, n, &mut random);
        let count = random.between(1, 8);
        let mut cues = rising(page, &text, count, 6, &mut random);
        let fault = random.below(count);
        let before = fault.checked_sub(1).and_then(|before| place_of(page, &cues[before], &text));
        let outcome = match before {
            Some(before) if random.below(2) == 0 => {
                cues[fault] = not_behind(page, &text, before, 6, &mut random);
                Outcome::Backward(fault)
            }
            _ => {
                cues[fault] = missing(page, alphabet, &text, &mut random);
                Outcome::Missing(fault)
            }
        };
        let evening = Evening::mixed(&cues, random.between(1, 4), &mut random);
        resolve_evening(outcome, page, &evening, &text, &mut random);
    }
    report("faults_name_the_index_in_the_book", 3000);
}

/// Three cues at every three places, of which the middle one plays on every second day: on the others the last is compared with the first.
#[test]
fn forward_over_a_cue_that_does_not_play() {
    let mut random = Random::new(105);
    let mut met = [0; 4];
    for code in 0..7 * 7 * 7 {
        let ordinals = [code % 7 + 1, code / 7 % 7 + 1, code / 49 + 1];
        let mut cues: Vec<Cue> = ordinals.iter().map(|&ordinal| Cue::new(b"a", ordinal as u16, b"")).collect();
        cues[1].days = Some((7, 7));
        for (day, falls) in [(7, ordinals[1] <= ordinals[0]), (8, false)] {
            let before = if day == 7 { ordinals[1] } else { ordinals[0] };
            let due = if falls {
                answer(15, 1, 7)
            } else if ordinals[2] <= before {
                answer(15, 2, 7)
            } else {
                answer(0, if day == 7 { 3 } else { 2 }, 7)
            };
            let playing = if day == 7 { 3 } else { 2 };
            assert_eq!(resolve_on(day, 1, &cues, b"aaaaaaa", playing, &mut random), due, "day {day}, ordinals {ordinals:?}");
            met[(due.refusal / 15 * due.number) as usize + usize::from(day == 8 && due.refusal == 0) * 3] += 1;
        }
    }
    assert!(met.iter().all(|&count| count > 30), "the cues met too little: {met:?}");
    report("forward_over_a_cue_that_does_not_play", 343 * 2);
}

/// Entries for exactly the resolved cues are enough, and one fewer is refused with zeros, however many cues the book has. The others do not play, or are
/// house only for a guest, or both.
#[test]
fn entries_for_the_resolved_cues() {
    let mut random = Random::new(106);
    let books = [(1, 1), (2, 2), (7, 2), (130, 3), (CUES, 2), (CUES, 10), (CUES, CUES)];
    for ((count, every), role) in books.into_iter().flat_map(|book| RESOLVING.map(|role| (book, role))) {
        let day = some_day(&mut random);
        let text = vec![b'a'; count];
        // One cue in so many is resolved.
        let mut cues = all_resolved(role, &letters(count), day, &mut random);
        for (_, cue) in cues.iter_mut().enumerate().filter(|(k, _)| k % every != 0) {
            *cue = passed_over(role, cue.clone(), day, &mut random);
        }
        let resolved = count.div_ceil(every);
        let reads = count * resolved.div_ceil(GROUP_CUES);
        for entries in (0..3 * resolved + 4).rev().take(12).chain([0, 1, 3 * count, 3 * count - 1]) {
            let lengths = Lengths { entries, ..Lengths::enough(count, resolved) };
            let given = compare_resolve(role, day.into(), PAGES[entries % 2], &book(&cues), &text, lengths, random.next());
            let due = if entries < 3 * resolved { answer(11, 0, 0) } else { answer(0, resolved, reads) };
            assert_eq!(given, due, "role {role}, {resolved} of {count} cues are resolved, {entries} entries");
        }
    }
    report("entries_for_the_resolved_cues", 14 * 10);
}

/// Books of many cues in which those that are passed over would change the groups, by their number or by their bytes: the reads count the resolved ones'.
#[test]
fn groups_of_the_resolved_cues() {
    let mut random = Random::new(107);
    // The lengths of the resolved cues' phrases, and how many groups these are.
    let books = [
        (vec![1; GROUP_CUES], 1),
        (vec![1; GROUP_CUES + 1], 2),
        (vec![2; 2 * GROUP_CUES], 2),
        (vec![3; 2 * GROUP_CUES + 1], 3),
        (vec![64; GROUP_CUES], 1),
        (vec![65; GROUP_CUES], 2),
        (vec![PHRASE; 4], 1),
        ([vec![PHRASE; 4], vec![1]].concat(), 2),
        ([vec![PHRASE; 3], vec![PHRASE - 1, 1]].concat(), 1),
        ([vec![PHRASE; 3], vec![PHRASE - 1, 2]].concat(), 2),
        (vec![PHRASE; 13], 4),
    ];
    for (round, (lengths, groups)) in books.into_iter().enumerate() {
        let page = PAGES[round % 2];
        let text = [verse(page, ALPHABETS[6], 700, &mut random), random.word(4, 1100)].concat();
        let cues = rising_of_lengths(page, &text, &lengths, &mut random);
        assert_eq!(group_numbers(&cues).last(), Some(&groups), "phrases of {lengths:?}");
        for off in [1, 63, 64, 65, 300] {
            for (phrase, everywhere) in [(1, false), (1, true), (PHRASE, false), (GROUP_BYTES / GROUP_CUES + 1, true)] {
                let evening = crowded(&cues, off, phrase, everywhere, &mut random);
                resolve_evening(Outcome::Resolved, page, &evening, &text, &mut random);
                // The last resolved cue is missing, and then the first of the last group or the one before it.
                let group = group_numbers(&cues).iter().position(|&number| number == groups).expect("there is a last group");
                for fault in [cues.len() - 1, group, group.saturating_sub(1)] {
                    let mut changed = cues.clone();
                    changed[fault] = past_the_last(page, &cues[fault], &text);
                    let evening = crowded(&changed, off, phrase, everywhere, &mut random);
                    resolve_evening(Outcome::Missing(fault), page, &evening, &text, &mut random);
                }
            }
        }
    }
    report("groups_of_the_resolved_cues", 11 * 5 * 4 * 4);
}

/// These cues, which are resolved, and so many that are passed over, with phrases of this length: all in one gap, or spread over the gaps.
fn crowded(cues: &[Cue], off: usize, phrase: usize, everywhere: bool, random: &mut Random) -> Evening {
    let mut evening = Evening::empty(some_resolving(random), random);
    let gap = random.between(0, cues.len());
    let mut left = off.min(CUES - cues.len());
    let each = left.div_ceil(cues.len() + 1);
    for (k, cue) in cues.iter().map(Some).chain([None]).enumerate() {
        let here = if everywhere {
            each.min(left)
        } else if k == gap {
            left
        } else {
            0
        };
        left -= here;
        for _ in 0..here {
            let off = Cue::new(&vec![b'x'; phrase], 1, b"");
            evening.cues.push(passed_over(evening.role, off, evening.day, random));
        }
        if let Some(cue) = cue {
            evening.resolve(cue.clone());
        }
    }
    evening
}

/// Where no cue plays, nothing is read, and copy and scratch are as after success, whatever the cues are and however many.
#[test]
fn no_cue_plays() {
    let mut random = Random::new(108);
    for count in [1, 2, 63, 64, 65, 300, CUES] {
        for text in [&b""[..], b"A", b"L\xc0 la\r\n", &[b'A'; TEXT]] {
            for (page, day) in PAGES.into_iter().flat_map(|page| [0, 9569, LAST_DAY].map(|day| (page, day))) {
                let off = |k: usize, random: &mut Random| {
                    let (first, last) = days_beside(day, random);
                    [Cue::new(b"a", 1, b""), Cue::new(b"in no verse", 1, b"No")][k % 2].clone().on(first, last)
                };
                let cues: Vec<Cue> = (0..count).map(|k| off(k, &mut random)).collect();
                let given = resolve_on(day.into(), page, &cues, text, 0, &mut random);
                assert_eq!(given, answer(0, 0, 0), "page {page}, day {day}, {count} cues in {} letters", text.len());
                let lengths = Lengths { copy: text.len() + 9, scratch: 80_000, entries: 7 };
                let given = compare_resolve(some_resolving(&mut random), day.into(), page, &book(&cues), text, lengths, random.next());
                assert_eq!(given, answer(0, 0, 0), "page {page}, day {day}, {count} cues in {} letters, {lengths:?}", text.len());
            }
        }
    }
    report("no_cue_plays", 7 * 4 * 6 * 2);
}

/// What such a call leaves, without the reference.
#[test]
fn no_cue_plays_and_all_is_left() {
    let cues = [Cue::new(b"la", 1, b"").on(0, 9568), Cue::new(b"so", 1, b"").on(9570, LAST_DAY)];
    for page in Page::ALL {
        let (mut copy, mut scratch, mut entries) = ([7; 9], vec![7; RESOLVER_SCRATCH + 5], [7; 6]);
        let mut memory = ResolverMemory { copy: &mut copy, scratch: &mut scratch, entries: &mut entries };
        assert_eq!(resolve(Role::Operator, 9569, page, &book(&cues), b"La La", &mut memory), Ok(Resolving { cues: 0, reads: 0 }));
        assert_eq!((copy, entries), (*b"la la\x07\x07\x07\x07", [7; 6]), "{page:?}");
        assert!(scratch.iter().all(|&entry| entry == 0), "{page:?}: the scratch is not 0 throughout");
    }
}

/// What a call leaves on days on which one or the other cast plays, without the reference.
#[test]
fn two_casts() {
    let text = b"Tra\nLa la\nLALA";
    let cast = |phrase: &[u8], ordinal, first, last| Cue::new(phrase, ordinal, b"").on(first, last);
    let always = |phrase: &[u8], ordinal| Cue::new(phrase, ordinal, b"");
    // The first cast leaves the second cue out; the second one has another for the third.
    let cues = [always(b"tra", 1), cast(b"la", 1, 11, 20), cast(b"la", 2, 1, 10), cast(b"a l", 1, 11, 20), always(b"lala", 1)];
    let rows = [[0, 1, 1], [4, 2, 1], [7, 2, 4], [5, 2, 2], [10, 3, 1]];
    for (day, playing) in [(0, &[0, 4][..]), (1, &[0, 2, 4]), (10, &[0, 2, 4]), (11, &[0, 1, 3, 4]), (20, &[0, 1, 3, 4]), (21, &[0, 4])] {
        for page in Page::ALL {
            let (mut copy, mut scratch, mut entries) = ([7; 14], vec![7; RESOLVER_SCRATCH], [7; 20]);
            let mut memory = ResolverMemory { copy: &mut copy, scratch: &mut scratch, entries: &mut entries };
            let given = resolve(Role::Operator, day, page, &book(&cues), text, &mut memory);
            assert_eq!(given, Ok(Resolving { cues: playing.len(), reads: 14 }), "{page:?}, day {day}");
            let written: Vec<u32> = playing.iter().flat_map(|&cue| rows[cue]).collect();
            assert_eq!(entries[..written.len()], written, "{page:?}, day {day}");
            assert!(entries[written.len()..].iter().all(|&entry| entry == 7), "{page:?}, day {day}: {entries:?}");
            assert_eq!(copy, *b"tra\nla la\nlala", "{page:?}, day {day}");
            assert!(scratch.iter().all(|&entry| entry == 0), "{page:?}, day {day}");
        }
    }
    // Both casts at once do not run forward: the third cue stands behind the fourth.
    let overlapping = [always(b"tra", 1), cast(b"la", 1, 5, 20), cast(b"la", 2, 1, 10), cast(b"a l", 1, 5, 20), always(b"lala", 1)];
    let refused = BookError { refusal: Refusal::NotForward, cue: Some(3) };
    assert_eq!(resolve_all(Role::Operator, 7, Page::Latin1, &book(&overlapping), text), Err(refused));
}

/// A fault of the book in a cue that does not play: the whole book is read first, so that it is refused with that cue's index, and nothing is written.
#[test]
fn faults_of_the_book_in_cues_that_do_not_play() {
    let mut random = Random::new(109);
    for count in [1, 2, 64, 65, 130, CUES] {
        for fault in [0, count / 2, count - 1] {
            let day = some_day(&mut random);
            // No cue plays but the one behind the fault, and that one is missing.
            let mut cues: Vec<Cue> = (0..count)
                .map(|_| {
                    let (first, last) = days_beside(day, &mut random);
                    Cue::new(b"a", 1, b"No").on(first, last)
                })
                .collect();
            if fault + 1 < count {
                cues[fault + 1] = Cue::new(b"b", 1, b"");
            }
            let (before, after) = (book(&cues[..fault]), book(&cues[fault + 1..]));
            let cue = cues[fault].bytes();
            let damaged = |place: usize, byte: u8| {
                let mut damaged = cue.clone();
                damaged[place] = byte;
                damaged
            };
            // The cue is of 14 bytes and 7 of dates: 01 00 01 a, 02 00 02 00 01, 03 00 02 N o, 04 00 04 and the days.
            let mut damages = vec![
                (8, damaged(0, 2)),
                (9, damaged(2, 0)),
                (8, damaged(4, 4)),
                (9, damaged(8, 0)),
                (9, damaged(10, 1)),
                (9, damaged(16, 3)),
                (9, damaged(15, 4)),
                (16, damaged(17, 0xff)),
                (16, damaged(19, 0xff)),
            ];
            // With all of it cut behind, the book ends inside the dates, or inside their header.
            if fault + 1 == count {
                damages.extend([15, 16, 17, 20].map(|length| (7, cue[..length].to_vec())));
            }
            for (refusal, damaged) in damages {
                let bytes = [&before[..], &damaged, &after].concat();
                for page in PAGES {
                    let lengths = Lengths::enough(3, 1).or_more(&mut random);
                    let given = compare_resolve(some_resolving(&mut random), day.into(), page, &bytes, b"AaA", lengths, random.next());
                    assert_eq!(given, answer(refusal, fault, 0), "page {page}, day {day}, cue {fault} of {count} is {damaged:?}");
                }
            }
        }
        // Bytes behind 999 cues of which none plays.
        if count == CUES {
            let day = some_day(&mut random);
            let (first, last) = days_beside(day, &mut random);
            let full = book(&vec![Cue::new(b"b", 1, b"").on(first, last); CUES]);
            for rest in [&[1][..], &[4], &Cue::new(b"b", 1, b"").on(first, last).bytes()] {
                let lengths = Lengths::enough(3, 0).or_more(&mut random);
                let given = compare_resolve(some_resolving(&mut random), day.into(), 1, &[&full, rest].concat(), b"AaA", lengths, random.next());
                assert_eq!(given, answer(10, CUES, 0), "{rest:?} behind {CUES} cues");
            }
        }
    }
    report("faults_of_the_book_in_cues_that_do_not_play", 6 * 3 * 9 * 2 + 3);
}

/// The dates of the 999th cue count too: on days within them it plays, on others it does not.
#[test]
fn the_last_cue_of_999() {
    let mut random = Random::new(110);
    let text = vec![b'a'; CUES];
    for (last, before) in [(Some((5, 7)), None), (Some((5, 7)), Some((6, 9))), (None, Some((6, 9)))] {
        let mut cues = letters(CUES);
        cues[CUES - 1].days = last;
        cues[CUES - 2].days = before;
        for day in 4..=10 {
            let plays = |days: Option<(u16, u16)>| usize::from(days.is_none_or(|(first, last)| first <= day && day <= last));
            let playing = CUES - 2 + plays(last) + plays(before);
            let given = resolve_on(day.into(), PAGES[usize::from(day) % 2], &cues, &text, playing, &mut random);
            assert_eq!(given, answer(0, playing, CUES * 16), "day {day}, the last two on {before:?} and {last:?}");
        }
    }
    report("the_last_cue_of_999", 3 * 7);
}

/// One book of random cues with random days, resolved on many days, on each of which it is another evening.
#[test]
fn random_books_on_many_days() {
    let mut random = Random::new(113);
    let mut met = [0; 16];
    let mut off = 0;
    for round in 0..700 {
        let (page, alphabet) = (PAGES[round % 2], ALPHABETS[round % 7]);
        let n = random.between(3, 400);
        let text = verse(page, alphabet, n, &mut random);
        let count = random.between(1, n.min([5, 30, 90][round % 3]));
        let mut cues = rising(page, &text, count, [3, 20, 200][random.below(3)], &mut random);
        // Days of a season, so that each day has some cues and not others; some cues are at fault on their days.
        for cue in &mut cues {
            let first = 9000 + random.below(12);
            cue.days = (random.below(4) > 0).then(|| (first as u16, (first + random.below(12)) as u16));
            if random.below(40) == 0 {
                *cue = Cue { days: cue.days, ..past_the_last(page, cue, &text) };
            }
        }
        let place = random.below(count);
        let moved = cues[place].clone();
        cues.insert(random.between(0, count), moved);
        for day in 8999..=9024u16 {
            let plays = |cue: &Cue| cue.days.is_none_or(|(first, last)| first <= day && day <= last);
            let playing: Vec<usize> = (0..cues.len()).filter(|&index| plays(&cues[index])).collect();
            assert_eq!(resolved_of(OPERATOR, &book(&cues), day.into(), cues.len()), playing.len());
            off += usize::from(playing.len() < cues.len());
            let of_day: Vec<Cue> = playing.iter().map(|&index| cues[index].clone()).collect();
            let evening = Evening { role: some_resolving(&mut random), day, cues: cues.clone(), resolved: playing };
            let outcome = Outcome::of(page, &of_day, &text);
            resolve_evening(outcome, page, &evening, &text, &mut random);
            met[outcome.answer(&of_day, n).refusal as usize] += 1;
        }
    }
    assert!(off > 15_000 && [0, 12, 15].iter().all(|&refusal| met[refusal] > 1500), "the calls met too little: {met:?}, {off} with cues off");
    report("random_books_on_many_days", 700 * 26);
}
