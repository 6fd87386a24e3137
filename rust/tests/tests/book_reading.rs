//! Reading cue books: damaged, cut and random ones, fields of every kind, the days of cues, the most cues, and the order of the refusals. The titles are
//! compared in every compared book.

use libretto::{read_book, title, Role};
use libretto_tests::books::{book, change, each_damage, field, samples, Cue, CUES, LAST_DAY, MORE, MORE_DATED, MORE_MARKED};
use libretto_tests::roles::OPERATOR;
use libretto_tests::{compare_book, numbers, report, Random};

#[test]
fn every_damage_of_one_byte() {
    let mut met = [0; 17];
    for cues in samples() {
        each_damage(&mut book(&cues), |damaged| met[compare_book(OPERATOR, damaged, MORE).refusal as usize] += 1);
    }
    assert!([0, 7, 8, 9, 16].iter().all(|&refusal| met[refusal] > 500), "the damages met too little: {met:?}");
    report("every_damage_of_one_byte", 255 * 2400);
}

#[test]
fn every_end() {
    for cues in samples() {
        let whole = book(&cues);
        let ends: Vec<usize> = (0..=cues.len()).map(|count| book(&cues[..count]).len()).collect();
        for length in 0..=whole.len() {
            let cue = ends.iter().rposition(|&end| end <= length).expect("0 is an end");
            // A cue may end behind its title or its dates too, and is then one without what would follow.
            let within = |of: &Cue| (3..=5).any(|count| length - ends[cue] == of.fields().iter().take(count).map(Vec::len).sum::<usize>());
            let expected = if length == ends[cue] {
                (0, cue as u32)
            } else if cues.get(cue).is_some_and(within) {
                (0, cue as u32 + 1)
            } else {
                (7, cue as u32)
            };
            // The book goes on behind its end.
            let raw = compare_book(OPERATOR, &whole[..length], &[&whole[length..], MORE].concat());
            assert_eq!(numbers(raw), expected, "{length} bytes of {cues:?}");
        }
    }
    report("every_end", 2400);
}

/// The refusal of a field of which so many bytes are present, by the words of document 01; 0 for none.
fn due(due_tag: u8, tag: u8, length: usize, present: usize) -> u32 {
    let allowed = match due_tag {
        1 => 1..=1024,
        2 => 2..=2,
        3 => 0..=200,
        4 => 4..=4,
        _ => 1..=1,
    };
    if present < 3 {
        7
    } else if tag != due_tag {
        8
    } else if !allowed.contains(&length) {
        9
    } else if present < 3 + length {
        7
    } else {
        0
    }
}

/// What stands behind a title, with any tag, length, days and end together, so that the order of the tests shows: a tag 4 or 5 is that cue's, any other
/// one is where the next phrase is due.
#[test]
fn every_tag_behind_a_title() {
    let cue = Cue::new(b"la", 2, b"No");
    for tag in [0, 1, 2, 3, 4, 5, 6, 0x84, 0x85, 255] {
        for length in [0, 1, 2, 3, 4, 5, 6, 7, 255, 256, 260, 512, 1024, 1025, 65_535] {
            // Days that are in order, and days that are not.
            for days in [b"\0\x01\0\x02", b"\0\x02\0\x01", b"\xff\xff\xff\xff"] {
                let whole = field(tag, length, &days.repeat(length / 4 + 1)[..length]);
                for present in [1, 2, 3, 4, 5, 6, 7, whole.len() - 1, whole.len()] {
                    let present = present.min(whole.len());
                    let mut book = [&cue.bytes()[..], &cue.bytes(), &whole[..present]].concat();
                    let mut behind = [&whole[present..], MORE].concat();
                    if present == whole.len() && (tag == 4 || tag == 5) {
                        book.append(&mut behind);
                    }
                    let expected = match (tag, due(tag, tag, length, present)) {
                        (4, 0) if days != b"\0\x01\0\x02" => (16, 1),
                        // The first byte of the last days is no mark.
                        (5, 0) if days[0] > 1 => (9, 1),
                        (4 | 5, 0) => (0, 3),
                        (4 | 5, refusal) => (refusal, 1),
                        // A phrase alone is no cue.
                        (1, 0) => (7, 2),
                        (1, refusal) => (refusal, 2),
                        _ => (if present < 3 { 7 } else { 8 }, 2),
                    };
                    let raw = compare_book(OPERATOR, &book, &behind);
                    assert_eq!(numbers(raw), expected, "tag {tag}, length {length}, days {days:?}, {present} bytes present");
                }
            }
        }
    }
    report("every_tag_behind_a_title", 10 * 15 * 3 * 9);
}

/// Each field of a middle cue in turn, with any tag, length and end together, so that the order of the tests shows. The cue before it has dates and a
/// mark, so that a tag 4 or 5 is not that cue's.
#[test]
fn every_tag_with_every_length() {
    let cue = Cue::new(b"la", 2, b"No");
    let first = cue.clone().on(1, 2).marked(1).bytes();
    for due_tag in 1..=3u8 {
        let fields = cue.fields();
        let (before, after) = (&fields[..due_tag as usize - 1], &fields[due_tag as usize..]);
        for tag in [0, 1, 2, 3, 4, 5, 0x80 + due_tag, 255] {
            for length in [0, 1, 2, 3, 199, 200, 201, 255, 256, 257, 258, 512, 1023, 1024, 1025, 65_535] {
                let whole = field(tag, length, &vec![b'x'; length]);
                for present in [0, 1, 2, 3, 4, 5, whole.len() - 1, whole.len()] {
                    // A book may end before a phrase, not before another field.
                    if present > whole.len() || (present == 0 && due_tag == 1) {
                        continue;
                    }
                    let mut book = [&first[..], &before.concat(), &whole[..present]].concat();
                    let mut behind = [&whole[present..], &after.concat(), MORE].concat();
                    if present == whole.len() {
                        book.append(&mut behind);
                    }
                    let refusal = due(due_tag, tag, length, present);
                    let expected = if refusal == 0 { (0, 3) } else { (refusal, 1) };
                    let raw = compare_book(OPERATOR, &book, &behind);
                    assert_eq!(numbers(raw), expected, "tag {tag} for {due_tag}, length {length}, {present} bytes present");
                }
            }
        }
    }
    report("every_tag_with_every_length", 3 * 8 * 16 * 5);
}

#[test]
fn every_ordinal() {
    for ordinal in 0..=65_535 {
        let book = book(&[Cue::new(b"la", 1, b"No"), Cue::new(b"la", ordinal, b"Yes")]);
        assert_eq!(numbers(compare_book(OPERATOR, &book, MORE)), if ordinal == 0 { (9, 1) } else { (0, 2) }, "ordinal {ordinal}");
    }
    report("every_ordinal", 65_536);
}

/// The answer for a book of three cues of which the second has these days.
fn read_with_days(first: u16, last: u16) -> (u32, u32) {
    numbers(compare_book(OPERATOR, &book(&[Cue::new(b"la", 1, b"No"), Cue::new(b"la", 2, b"").on(first, last), Cue::new(b"a", 1, b"")]), MORE))
}

/// Every number as the first day and as the last one, beside days at the ends and with itself.
#[test]
fn every_day() {
    for day in 0..=65_535u16 {
        let is_day = day <= LAST_DAY;
        for (first, last, sound) in [(day, LAST_DAY, is_day), (0, day, is_day), (day, day, is_day), (day, day.saturating_sub(1), day == 0)] {
            assert_eq!(read_with_days(first, last), if sound { (0, 3) } else { (16, 1) }, "from {first} to {last}");
        }
    }
    report("every_day", 4 * 65_536);
}

#[test]
fn days_at_the_limits() {
    let days = [0, 1, 2, 127, 128, 254, 255, 256, 257, 511, 512, 0x8dff, 0x8e00, 0x8eab, LAST_DAY, 36_525, 0x8f00, 0xff00, 65_534, 65_535];
    for first in days {
        for last in days {
            let sound = first <= LAST_DAY && last <= LAST_DAY && first <= last;
            assert_eq!(read_with_days(first, last), if sound { (0, 3) } else { (16, 1) }, "from {first} to {last}");
        }
    }
    report("days_at_the_limits", 20 * 20);
}

/// A field of dates behind some of 999 cues: it is the last cue's behind the last title too, and whatever stands behind it remains.
#[test]
fn dates_behind_999_cues() {
    let dates = &MORE_DATED[12..];
    let full = MORE.repeat(CUES);
    let dated = |indices: &[usize]| (0..CUES).flat_map(|k| if indices.contains(&k) { MORE_DATED } else { MORE }).copied().collect::<Vec<u8>>();
    for indices in [&[998][..], &[997], &[997, 998], &[0, 998], &[0], &(0..CUES).collect::<Vec<_>>()] {
        let book = dated(indices);
        for behind in [MORE, dates] {
            assert_eq!(numbers(compare_book(OPERATOR, &book, behind)), (0, 999), "dates at {indices:?}");
        }
        for rest in [&[0][..], &[1], &[6], MORE, MORE_DATED] {
            assert_eq!(numbers(compare_book(OPERATOR, &[&book, rest].concat(), MORE)), (10, 999), "dates at {indices:?}, then {rest:?}");
        }
    }
    // Two fields in a row behind the last title: the second one remains.
    assert_eq!(numbers(compare_book(OPERATOR, &[&full, dates, dates].concat(), MORE)), (10, 999));
    assert_eq!(numbers(compare_book(OPERATOR, &[&full, dates, &[4]].concat(), MORE)), (10, 999));
    // What is wrong with the last cue's dates is its own fault.
    for (rest, refusal) in [
        (&b"\x04"[..], 7),
        (b"\x04\x00", 7),
        (b"\x04\x00\x04", 7),
        (b"\x04\x00\x04\xff\xff\xff", 7),
        (b"\x04\x00\x05\x00\x00\x00\x00\x00", 9),
        (b"\x04\x04\x00", 9),
        (b"\x04\x00\x04\x00\x01\x00\x00", 16),
        (b"\x04\x00\x04\x00\x00\x8e\xad", 16),
    ] {
        // Bytes that remain do not come before it.
        for more in [&b""[..], if refusal == 7 { b"" } else { MORE }] {
            assert_eq!(numbers(compare_book(OPERATOR, &[&full, rest, more].concat(), &[0; 9])), (refusal, 998), "{rest:?}");
        }
    }
    report("dates_behind_999_cues", 6 * 7 + 2 + 8 * 2);
}

/// Two fields of dates in a row at each cue of a book: the second one is where the next phrase is due.
#[test]
fn two_fields_of_dates() {
    let dates = &MORE_DATED[12..];
    for count in 1..=4 {
        for k in 0..count {
            let (before, after) = (MORE.repeat(k), MORE_DATED.repeat(count - 1 - k));
            let book = [&before[..], MORE_DATED, dates, &after].concat();
            assert_eq!(numbers(compare_book(OPERATOR, &book, MORE)), (8, k as u32 + 1), "behind cue {k} of {count}");
            // A third one changes nothing, and of the second its tag alone counts.
            let book = [&before[..], MORE_DATED, dates, dates, &after].concat();
            assert_eq!(numbers(compare_book(OPERATOR, &book, MORE)), (8, k as u32 + 1), "three behind cue {k} of {count}");
            let book = [&before[..], MORE_DATED, b"\x04\xff\xff"].concat();
            assert_eq!(numbers(compare_book(OPERATOR, &book, MORE)), (8, k as u32 + 1), "behind cue {k}, with a length that is not allowed");
            let book = [&before[..], MORE_DATED, b"\x04\x00"].concat();
            assert_eq!(numbers(compare_book(OPERATOR, &book, MORE)), (7, k as u32 + 1), "behind cue {k}, cut");
        }
    }
    report("two_fields_of_dates", 10 * 4);
}

#[test]
fn numbers_of_cues() {
    let cues: Vec<Cue> = (0..=1000u16).map(|k| Cue::new(b"a", k + 1, &k.to_be_bytes()[..k as usize % 3])).collect();
    for count in [0, 1, 2, 255, 256, 257, 511, 512, 998, 999, 1000, 1001] {
        let raw = compare_book(OPERATOR, &book(&cues[..count]), MORE);
        assert_eq!(numbers(raw), if count > CUES { (10, 999) } else { (0, count as u32) }, "{count} cues");
    }
    // What follows 999 cues is not read, whatever it is.
    let full = book(&cues[..CUES]);
    for rest in [&[0][..], &[1], &[1, 0], &[2, 0, 2, 0, 0], &[255; 3], &MORE[..11], &[MORE, &[0]].concat(), &[0; 70_000]] {
        assert_eq!(numbers(compare_book(OPERATOR, &[&full, rest].concat(), MORE)), (10, 999), "{} bytes remain", rest.len());
    }
    // A refusal inside the 999 cues comes before the bytes that remain.
    let cue_starts = |k: usize| book(&cues[..k]).len();
    for k in [0, 1, 500, 998] {
        let mut damaged = book(&cues);
        damaged[cue_starts(k)] = 3;
        assert_eq!(numbers(compare_book(OPERATOR, &damaged, MORE)), (8, k as u32));
        assert_eq!(numbers(compare_book(OPERATOR, &full[..cue_starts(k + 1) - 1], MORE)), (7, k as u32));
    }
    report("numbers_of_cues", 12 + 8 + 8);
}

#[test]
fn random_books() {
    let mut random = Random::new(31);
    let mut met = [0; 17];
    for _ in 0..5000 {
        let cues: Vec<Cue> = (0..random.below(9)).map(|_| Cue::random(&mut random)).collect();
        let mut bytes = book(&cues);
        assert_eq!(numbers(compare_book(OPERATOR, &bytes, MORE)), (0, cues.len() as u32));
        assert_eq!(read_book(Role::Operator, &bytes), Ok(cues.len()));
        for (k, cue) in cues.iter().enumerate() {
            assert_eq!(title(Role::Operator, &bytes, k), cue.title, "title {k} of {cues:?}");
        }
        for _ in 0..random.between(1, 6) {
            change(&mut bytes, &mut random);
            met[compare_book(OPERATOR, &bytes, MORE).refusal as usize] += 1;
        }
    }
    assert!([0, 7, 8, 9].iter().all(|&refusal| met[refusal] > 500) && met[16] > 200, "the changed books met too little: {met:?}");
    report("random_books", 10_000);
}

#[test]
fn random_bytes() {
    let mut random = Random::new(32);
    let mut met = [0; 17];
    for round in 0..200_000 {
        let length = random.between(0, 40);
        // Mostly the bytes that headers are made of, sometimes behind a front that leads into the cue.
        let mut bytes = MORE_MARKED[..[0, 0, 4, 7, 9, 12, 15, 17, 19, 22][round % 10]].to_vec();
        bytes.extend((0..length).map(|_| if random.below(16) == 0 { random.below(256) } else { random.below(6) } as u8));
        met[compare_book(OPERATOR, &bytes, MORE).refusal as usize] += 1;
    }
    assert!([0, 7, 8, 9, 16].iter().all(|&refusal| met[refusal] > 500), "the random bytes met too little: {met:?}");
    report("random_bytes", 200_000);
}

/// An empty vector's slice points to no memory at all.
#[test]
fn book_without_memory() {
    let book: Vec<u8> = Vec::new();
    assert_eq!(read_book(Role::Operator, &book), Ok(0));
    assert_eq!(title(Role::Operator, &book, 0), b"");
}
