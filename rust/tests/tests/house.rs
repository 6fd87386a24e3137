//! The house mark of a cue: every value, length and end of its field, behind titles and behind dates, where it is not due, behind the 999th cue, and
//! written and read back. An open cue that says so keeps saying it.

use libretto::{read_book, read_cue, read_field, write_cue, Days, Due, Mark, RawDays, Refusal, Role};
use libretto_tests::books::{book, field, Cue, CUES, LAST_DAY, MARKS, MORE, MORE_DATED, MORE_MARKED, PHRASE, TITLE};
use libretto_tests::roles::OPERATOR;
use libretto_tests::{compare_book, compare_cue, compare_field, compare_write, numbers, report, Ending, Random};

/// The fields of an open cue and of one that is house only.
const OPEN: &[u8] = b"\x05\x00\x01\x00";
const HOUSE: &[u8] = b"\x05\x00\x01\x01";

/// Cues with dates and without, short ones, the longest, and with letters that are tags.
fn cues() -> Vec<Cue> {
    let plain = [Cue::new(b"la", 2, b"No"), Cue::new(b"a", 1, b""), Cue::new(&[5; PHRASE], 5, &[5; TITLE])];
    let dated = plain.clone().map(|cue| cue.on(5, 0x0500));
    plain.into_iter().chain(dated).collect()
}

/// The refusal of a house field of which so many bytes of the body are present, by the words of documents 01 and 02.
fn due(length: usize, body: &[u8]) -> u32 {
    match body {
        _ if length != 1 => 9,
        [] => 7,
        [0 | 1, ..] => 0,
        _ => 9,
    }
}

/// Every value with lengths that are allowed and not, cut before the body and whole: as a field, behind a title or dates, and in a book of three cues.
#[test]
fn every_value_and_length() {
    let mut met = [0; 10];
    for cue in cues() {
        let end = cue.bytes().len();
        // Some values are enough for the longest cues.
        let values = (0..=255).filter(|value| end < 100 || [0, 1, 2, 5, 255].contains(value));
        for value in values {
            for length in [0, 1, 2, 3, 4, 255, 256, 257, 0x0101, 0x0500, 65_535] {
                for body in [&[][..], &[value], &[value, 0], &[value, 1, 0, 1]] {
                    let house = field(5, length, body);
                    let refusal = due(length, body);
                    let read = compare_field(OPERATOR, &house, MORE, 0, 5);
                    let expected = if refusal == 0 { (0, 3, 1, 4) } else { (refusal, 0, 0, 0) };
                    assert_eq!((read.refusal, read.start, read.len, read.end), expected, "length {length}, body {body:?}");

                    let read = compare_cue(OPERATOR, &[&cue.bytes()[..], &house].concat(), &[0, 1], 0);
                    let expected = if refusal == 0 { (0, 1, value.into(), end + 4) } else { (refusal, 0, 0, 0) };
                    assert_eq!((read.refusal, read.marked, read.house, read.end), expected, "length {length}, body {body:?} behind {cue:?}");
                    met[refusal as usize] += 1;
                }
                let whole = [&cue.bytes()[..], &cue.bytes(), &field(5, length, &[value]), &cue.bytes()].concat();
                let expected = if due(length, &[value]) == 0 { (0, 3) } else { (9, 1) };
                assert_eq!(numbers(compare_book(OPERATOR, &whole, MORE)), expected, "length {length}, value {value} behind {cue:?}");
            }
        }
    }
    assert!([0, 7, 9].iter().all(|&refusal| met[refusal] > 30), "the fields met too little: {met:?}");
    report("every_value_and_length", (4 * 256 + 2 * 5) * 11 * (4 * 2 + 1));
}

/// A marked cue cut at every byte, alone and as the second of a book, with the rest of it behind the cut. At the field's front it is a cue without a mark.
#[test]
fn every_end() {
    for cue in cues() {
        let unmarked = cue.bytes().len();
        for mark in [0, 1] {
            let whole = cue.clone().marked(mark).bytes();
            for length in unmarked..=whole.len() {
                let behind = [&whole[length..], MORE].concat();
                let read = compare_cue(OPERATOR, &whole[..length], &behind, 0);
                let expected = match length - unmarked {
                    0 => (0, 0, 0, unmarked),
                    4 => (0, 1, mark.into(), unmarked + 4),
                    _ => (7, 0, 0, 0),
                };
                assert_eq!((read.refusal, read.marked, read.house, read.end), expected, "{length} bytes of {cue:?} with mark {mark}");
                let raw = compare_book(OPERATOR, &[MORE, &whole[..length]].concat(), &behind);
                assert_eq!(numbers(raw), if expected.0 == 0 { (0, 2) } else { (7, 1) }, "{length} bytes of {cue:?} with mark {mark}");
            }
        }
    }
    report("every_end", 6 * 2 * 5 * 2);
}

/// Each byte behind a title and behind dates, before what would make it a sound mark: 5 alone is one, and behind a title 4 is the tag of dates, whose
/// length is wrong then.
#[test]
fn every_byte_behind_a_cue() {
    for cue in cues() {
        let end = cue.bytes().len();
        for byte in 0..=255 {
            for body in [&b""[..], b"\0", b"\0\x01", b"\0\x01\0", b"\0\x01\x01", b"\0\x01\x01\x05"] {
                let read = compare_cue(OPERATOR, &[&cue.bytes()[..], &[byte], body].concat(), MORE, 0);
                let expected = match (byte, body) {
                    (5, &[_, _, mark, ..]) => (0, 1, mark.into(), end + 4),
                    (5, _) => (7, 0, 0, 0),
                    (4, body) if cue.days.is_none() => (if body.len() < 2 { 7 } else { 9 }, 0, 0, 0),
                    _ => (0, 0, 0, end),
                };
                assert_eq!((read.refusal, read.marked, read.house, read.end), expected, "byte {byte} and {body:?} behind {cue:?}");
            }
        }
    }
    report("every_byte_behind_a_cue", 6 * 256 * 6);
}

/// A mark before the dates, a second mark, and one behind a phrase or an ordinal, at each cue of a book: it is not due there.
#[test]
fn marks_that_are_not_due() {
    let dates = &MORE_DATED[12..];
    for count in 1..=4 {
        for k in 0..count {
            let (before, after) = (MORE_MARKED.repeat(k), MORE.repeat(count - 1 - k));
            for (cue, refusal, at) in [
                // A mark ends its cue, so that what follows is where the next phrase is due.
                ([MORE, HOUSE, dates].concat(), 8, k + 1),
                ([MORE, OPEN, dates].concat(), 8, k + 1),
                ([MORE, OPEN, HOUSE].concat(), 8, k + 1),
                ([MORE_DATED, HOUSE, OPEN].concat(), 8, k + 1),
                ([MORE_DATED, HOUSE, dates].concat(), 8, k + 1),
                // Behind a phrase, and behind an ordinal.
                ([&MORE[..4], HOUSE, &MORE[4..]].concat(), 8, k),
                ([&MORE[..9], HOUSE, &MORE[9..]].concat(), 8, k),
            ] {
                let raw = compare_book(OPERATOR, &[&before[..], &cue, &after].concat(), MORE);
                assert_eq!(numbers(raw), (refusal, at as u32), "{cue:?} as cue {k} of {count}");
            }
            // Before the first cue's phrase.
            let raw = compare_book(OPERATOR, &[HOUSE, &before[..], &after].concat(), MORE);
            assert_eq!(numbers(raw), (8, 0), "a mark before {} cues", count - 1);
        }
    }
    report("marks_that_are_not_due", 10 * 8);
}

/// Behind the 999th cue a mark is that cue's, with its faults, and whatever stands behind it remains.
#[test]
fn marks_behind_999_cues() {
    for last in [MORE, MORE_DATED] {
        let full = [&MORE_MARKED.repeat(CUES - 1)[..], last].concat();
        for mark in [OPEN, HOUSE] {
            let marked = [&full[..], mark].concat();
            assert_eq!(numbers(compare_book(OPERATOR, &marked, MORE)), (0, 999), "{mark:?}");
            for rest in [&[1][..], &[5], mark, &MORE_DATED[12..]] {
                assert_eq!(numbers(compare_book(OPERATOR, &[&marked, rest].concat(), MORE)), (10, 999), "{mark:?}, then {rest:?}");
            }
        }
        for (rest, refusal) in [(&b"\x05"[..], 7), (b"\x05\0", 7), (b"\x05\0\x01", 7), (b"\x05\0\x02", 9), (b"\x05\x01\0", 9), (b"\x05\0\x01\x02", 9)]
        {
            // Bytes that remain do not come before it.
            let more = if refusal == 7 { b"" } else { MORE };
            assert_eq!(numbers(compare_book(OPERATOR, &[&full[..], rest, more].concat(), &[0; 9])), (refusal, 998), "{rest:?}");
        }
    }
    report("marks_behind_999_cues", 2 * (2 * 5 + 6));
}

/// Four cues, each with every mark, with dates and without: each is read with its own.
#[test]
fn every_way_to_mark_four_cues() {
    for code in 0..6usize.pow(4) {
        let kinds = [0, 1, 2, 3].map(|k| code / 6usize.pow(k) % 6);
        let cue = |kind: usize| Cue { mark: MARKS[kind % 3], days: (kind < 3).then_some((7, LAST_DAY)), ..Cue::new(b"la", 2, b"No") };
        let cues = kinds.map(cue);
        let bytes = book(&cues);
        assert_eq!(numbers(compare_book(OPERATOR, &bytes, MORE)), (0, 4), "{cues:?}");
        let mut place = 0;
        for cue in &cues {
            let read = compare_cue(OPERATOR, &bytes, MORE, place);
            let mark = (read.marked == 1).then_some(read.house as u8);
            assert_eq!((read.refusal, mark, read.dated == 1), (0, cue.mark, cue.days.is_some()), "place {place} of {cues:?}");
            place = read.end;
        }
    }
    report("every_way_to_mark_four_cues", 1296 * 5);
}

/// Every number that the writer may be told: 0 writes no field, 1 writes it, and any other is refused behind 16, 2 and 3 and before 13.
#[test]
fn every_number_that_says_house() {
    let far = (9..32).flat_map(|bit| [(1 << bit) - 1, 1 << bit, (1 << bit) + 1]);
    for house in (0..=600).chain(far).chain([u32::MAX - 1, u32::MAX]) {
        for (phrase, days, first) in [
            (&b"la"[..], RawDays::NONE, 0),
            (b"la", RawDays { dated: 1, first: 0, last: 5 }, 0),
            (b"la", RawDays { dated: 1, first: 5, last: 0 }, 16),
            (b"", RawDays::NONE, 2),
            (&[b'a'; PHRASE + 1], RawDays::NONE, 3),
        ] {
            let length = 15 + 7 * days.dated + if house == 1 { 4 } else { 0 };
            for buffer_len in [0, length as usize - 1, length as usize, 40] {
                let expected = match house {
                    _ if first != 0 => (first, 0),
                    0 | 1 if buffer_len < length as usize => (13, 0),
                    0 | 1 => (0, length),
                    _ => (9, 0),
                };
                let raw = compare_write(OPERATOR, buffer_len, phrase, 2, b"No", Ending { days, house }, house.into());
                assert_eq!(numbers(raw), expected, "house {house}, {days:?}, buffer {buffer_len}");
            }
        }
    }
    report("every_number_that_says_house", 600 * 5 * 4);
}

/// What is written is read back: an open cue has no mark, and one that is house only has it last. A mark that says open is read as such.
#[test]
fn written_marks_read_back() {
    let mut random = Random::new(121);
    for (index, cue) in cues().into_iter().chain((0..2000).map(|_| Cue::random(&mut random))).enumerate() {
        let days = cue.days.map(|(first, last)| Days { first: first.into(), last: last.into() });
        let mut buffer = [7; 1300];
        for (house, mark) in [(false, None), (true, Some(Mark::House))] {
            let written = write_cue(Role::Operator, &mut buffer, &cue.phrase, cue.ordinal.into(), &cue.title, days, house);
            let expected = Cue { mark: house.then_some(1), ..cue.clone() }.bytes();
            assert_eq!((written, &buffer[..expected.len()]), (Ok(expected.len()), &expected[..]), "cue {index}: {cue:?}, house {house}");
            let read = read_cue(Role::Operator, &expected, 0).expect("the cue is read");
            assert_eq!((read.mark, read.is_house(), read.days, read.end), (mark, house, days, expected.len()), "cue {index}: {cue:?}");
        }
        let open = cue.clone().marked(0).bytes();
        let read = read_cue(Role::Operator, &open, 0).expect("the cue is read");
        assert_eq!((read.mark, read.is_house(), read.days, read.end), (Some(Mark::Open), false, days, open.len()), "cue {index}: {cue:?}");
        let body = read_field(Role::Operator, &open, open.len() - 4, Due::House).map(|field| field.body);
        assert_eq!((read_book(Role::Operator, &open), body), (Ok(1), Ok(&[0][..])));
        let wrong = cue.clone().marked([2, 3, 128, 255][index % 4]).bytes();
        assert_eq!(read_cue(Role::Operator, &wrong, 0), Err(Refusal::BadField));
    }
}
