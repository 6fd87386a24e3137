//! Reading one field and one cue at any place of a book: short byte strings, damaged, cut and random books, places past the end, and numbers that are
//! no field's tag. That a refused answer is 0 in all else is tested in every compared call, by the reference.

use libretto::{read_cue, read_field, Days, Due, Mark, Refusal, Role};
use libretto_tests::books::{book, change, each_damage, field, samples, Cue, LAST_DAY, MORE, MORE_MARKED, PHRASE, TITLE};
use libretto_tests::roles::OPERATOR;
use libretto_tests::{compare_cue, compare_field, report, Random};

/// The fields' tags, and numbers that are none: some are a tag in their lowest 8, 16 or 24 bits.
const DUES: [u32; 21] =
    [1, 2, 3, 4, 5, 0, 6, 7, 255, 256, 257, 258, 259, 260, 261, 65_537, 0x0100_0002, 0x8000_0003, 0x8000_0004, 0x8000_0005, u32::MAX];

/// The bytes that headers are made of, and another one.
const BYTES: [u8; 7] = [0, 1, 2, 3, 4, 5, 255];

/// Places past the end of a book of this length, some of them inside it in their lowest 32 bits.
fn places_past(length: usize) -> [usize; 9] {
    let far = 1 << 32;
    [length, length + 1, length + 2, far, far + length / 2, far + length, 1 << 63, usize::MAX - 2, usize::MAX]
}

/// Where the fields of these cues start, with their tags.
fn field_places(cues: &[Cue]) -> Vec<(usize, u32)> {
    let mut end = 0;
    let mut places = Vec::new();
    for field in cues.iter().flat_map(Cue::fields) {
        places.push((end, field[0].into()));
        end += field.len();
    }
    places
}

/// Reads at a place the five fields and the cue, and tells the refusals.
fn compare_all(book: &[u8], behind: &[u8], place: usize) -> [u32; 6] {
    let [phrase, ordinal, title, dates, house] = [1, 2, 3, 4, 5].map(|due| compare_field(OPERATOR, book, behind, place, due).refusal);
    [phrase, ordinal, title, dates, house, compare_cue(OPERATOR, book, behind, place).refusal]
}

#[test]
fn every_short_string() {
    let mut met = [0; 17];
    for length in 0..=6 {
        for number in 0..7usize.pow(length as u32) {
            let bytes: Vec<u8> = (0..length).map(|k| BYTES[number / 7usize.pow(k as u32) % 7]).collect();
            for place in (0..=length.min(3)).chain([length + 1, usize::MAX]) {
                for refusal in compare_all(&bytes, MORE, place) {
                    met[refusal as usize] += 1;
                }
                assert_eq!(compare_field(OPERATOR, &bytes, MORE, place, 6).refusal, if length >= place && length - place >= 3 { 8 } else { 7 });
            }
        }
    }
    assert!([0, 7, 8, 9].iter().all(|&refusal| met[refusal] > 500), "the strings met too little: {met:?}");
    report("every_short_string", 137_257 * 6 * 3);
}

/// The refusal of a field of dates of which so many bytes are present, by the words of documents 01 and 02.
fn due_dates(length: usize, body: &[u8]) -> u32 {
    if length != 4 {
        return 9;
    }
    let [a, b, c, d, ..] = *body else {
        return 7;
    };
    let (first, last) = (u16::from_be_bytes([a, b]), u16::from_be_bytes([c, d]));
    if first > 36_524 || last > 36_524 || first > last {
        16
    } else {
        0
    }
}

/// Every field of dates with bytes at the limits of days and of their bytes, cut at each byte, and with other lengths.
#[test]
fn every_field_of_dates() {
    let mut met = [0; 17];
    let bytes = [0, 1, 2, 0x8d, 0x8e, 0x8f, 0xab, 0xac, 0xad, 255];
    for number in 0..10usize.pow(4) {
        let body = [0, 1, 2, 3].map(|k| bytes[number / 10usize.pow(k) % 10]);
        for (length, present) in [(4, 4), (4, number % 4), (number % 4, 4), (5 + number % 3, 4), (0x0104, 4), (0x0400, number % 5)] {
            let book = field(4, length, &body[..present]);
            let behind = [&body[present..], MORE].concat();
            let read = compare_field(OPERATOR, &book, &behind, 0, 4);
            let refusal = due_dates(length, &body[..present]);
            let expected = if refusal == 0 { (0, 3, 4, 7) } else { (refusal, 0, 0, 0) };
            assert_eq!((read.refusal, read.start, read.len, read.end), expected, "length {length}, {present} bytes of {body:?}");
            met[read.refusal as usize] += 1;

            // The same behind a title.
            let cue = compare_cue(OPERATOR, &[MORE, &book].concat(), &behind, 0);
            let days = [&body[..2], &body[2..]].map(|day| 256 * u32::from(day[0]) + u32::from(day[1]));
            let expected = if refusal == 0 { (0, 1, days[0], days[1], 12, 0, 19) } else { (refusal, 0, 0, 0, 0, 0, 0) };
            let given = (cue.refusal, cue.dated, cue.first, cue.last, cue.title_start, cue.title_len, cue.end);
            assert_eq!(given, expected, "length {length}, {present} bytes of {body:?}");
        }
    }
    assert!([0, 7, 9, 16].iter().all(|&refusal| met[refusal] > 500), "the fields met too little: {met:?}");
    report("every_field_of_dates", 2 * 6 * 10_000);
}

/// Each byte behind a title, alone and before a body that is sound for dates: 4 and 5 alone are the cue's own.
#[test]
fn every_byte_behind_a_title() {
    for cue in [Cue::new(b"la", 2, b"No"), Cue::new(b"a", 1, b""), Cue::new(&[4; PHRASE], 4, &[4; TITLE])] {
        let end = cue.bytes().len();
        for byte in 0..=255 {
            for body in [&b""[..], b"\0", b"\0\x04", b"\0\x04\0\0\0", b"\0\x04\0\x01\x01\0", b"\0\x04\0\x01\x01\0\x04"] {
                let read = compare_cue(OPERATOR, &[&cue.bytes()[..], &[byte], body].concat(), MORE, 0);
                let expected = match (byte, body.len()) {
                    (4, 6..) => (0, 1, 1, 256, end + 7),
                    (4, _) | (5, 0..2) => (7, 0, 0, 0, 0),
                    (5, _) => (9, 0, 0, 0, 0),
                    _ => (0, 0, 0, 0, end),
                };
                assert_eq!((read.refusal, read.dated, read.first, read.last, read.end), expected, "byte {byte} and {body:?} behind {cue:?}");
            }
        }
    }
    report("every_byte_behind_a_title", 3 * 256 * 6);
}

/// Any three bytes of the shortest cue with dates and a mark changed together, so that whole cues are read too, with these and without.
#[test]
fn every_three_bytes_of_a_cue() {
    let mut met = [0; 17];
    for third in 0..MORE_MARKED.len() {
        for second in 0..third {
            for first in 0..second {
                for number in 0..343 {
                    let mut bytes = MORE_MARKED.to_vec();
                    for (place, byte) in [(first, number % 7), (second, number / 7 % 7), (third, number / 49)] {
                        bytes[place] = BYTES[byte];
                    }
                    met[compare_cue(OPERATOR, &bytes, MORE, 0).refusal as usize] += 1;
                }
            }
        }
    }
    assert!([0, 7, 8, 9, 16].iter().all(|&refusal| met[refusal] > 20), "the cues met too little: {met:?}");
    report("every_three_bytes_of_a_cue", 1771 * 343);
}

#[test]
fn every_damage_of_one_byte() {
    let mut met = [0; 17];
    for cues in samples() {
        let fields = field_places(&cues);
        each_damage(&mut book(&cues), |damaged| {
            for &(place, due) in &fields {
                met[compare_field(OPERATOR, damaged, MORE, place, due).refusal as usize] += 1;
                if due == 1 {
                    met[compare_cue(OPERATOR, damaged, MORE, place).refusal as usize] += 1;
                }
            }
        });
    }
    assert!([0, 7, 8, 9, 16].iter().all(|&refusal| met[refusal] > 500), "the damages met too little: {met:?}");
    report("every_damage_of_one_byte", 255 * 2400 * 4);
}

#[test]
fn every_end() {
    for cues in samples() {
        let whole = book(&cues);
        let fields = field_places(&cues);
        for length in 0..=whole.len() {
            // The book goes on behind its end.
            let (cut, behind) = (&whole[..length], [&whole[length..], MORE].concat());
            for (index, &(place, due)) in fields.iter().enumerate() {
                let end = |index| fields.get(index).map_or(whole.len(), |&(place, _)| place);
                let read = compare_field(OPERATOR, cut, &behind, place, due);
                assert_eq!(read.refusal, if end(index + 1) <= length { 0 } else { 7 }, "{length} bytes of {cues:?}, place {place}");
                if due == 1 {
                    let read = compare_cue(OPERATOR, cut, &behind, place);
                    // A cue is read without its dates and its mark where the book ends behind its title, and without its mark where it ends behind its
                    // dates.
                    let has = |due: u32| fields[index + 1..].iter().take_while(|&&(_, next)| next != 1).any(|&(_, next)| next == due);
                    let (dated, marked) = (usize::from(has(4)), usize::from(has(5)));
                    let read_up_to = |dated, marked| (0, dated as u32, marked as u32, end(index + 3 + dated + marked));
                    let whole = [(0, 0), (dated, 0), (dated, marked)].map(|(dated, marked)| read_up_to(dated, marked));
                    let ends = whole.iter().rev().find(|&&(_, _, _, end)| end == length || (end < length && end == whole[2].3));
                    let given = (read.refusal, read.dated, read.marked, read.end);
                    assert_eq!(given, ends.copied().unwrap_or((7, 0, 0, 0)), "{length} bytes of {cues:?}, place {place}");
                }
            }
            for place in places_past(length) {
                assert_eq!(compare_all(cut, &behind, place), [7; 6], "{length} bytes of {cues:?}, place {place}");
            }
        }
    }
    report("every_end", 2400 * (4 + 5 * 9));
}

#[test]
fn every_place_with_every_due() {
    for cues in samples() {
        let whole = book(&cues);
        for place in (0..=whole.len()).chain(places_past(whole.len())) {
            compare_cue(OPERATOR, &whole, MORE, place);
            for due in DUES {
                let read = compare_field(OPERATOR, &whole, MORE, place, due);
                // Told without the reference: no byte is the tag of another number.
                let present = whole.get(place..).is_some_and(|rest| rest.len() >= 3);
                assert!((1..=5).contains(&due) || read.refusal == if present { 8 } else { 7 }, "place {place}, due {due}: {read:?}");
            }
        }
    }
    report("every_place_with_every_due", 2400 * 19);
}

/// Each field with any tag, length and end together, so that the order of the tests shows.
#[test]
fn every_tag_with_every_length() {
    for due in DUES {
        for tag in [0, 1, 2, 3, 4, 5, 6, 128, 129, 255] {
            for length in [0, 1, 2, 3, 4, 5, TITLE - 1, TITLE, TITLE + 1, 255, 256, 257, 512, PHRASE - 1, PHRASE, PHRASE + 1, 65_535] {
                for byte in [0, 1, b'x', 255] {
                    let whole = field(tag, length, &vec![byte; length]);
                    for present in [0, 1, 2, 3, 4, 5, 6, whole.len() - 1, whole.len()] {
                        let present = present.min(whole.len());
                        let before = [7; 5];
                        let book = [&before[..], &whole[..present]].concat();
                        let read = compare_field(OPERATOR, &book, &[&whole[present..], MORE].concat(), before.len(), due);
                        if read.refusal == 0 {
                            assert_eq!((read.start, read.len, read.end), (8, length, book.len()), "tag {tag}, length {length}");
                        }
                    }
                }
            }
        }
    }
    report("every_tag_with_every_length", 21 * 10 * 17 * 4 * 9);
}

#[test]
fn random_books() {
    let mut random = Random::new(81);
    let mut met = [0; 17];
    for _ in 0..5000 {
        let cues: Vec<Cue> = (0..random.between(1, 8)).map(|_| Cue::random(&mut random)).collect();
        let mut bytes = book(&cues);
        let mut place = 0;
        for cue in &cues {
            let raw = compare_cue(OPERATOR, &bytes, MORE, place);
            let read = read_cue(Role::Operator, &bytes, place).expect("the cue is read");
            let parts = (read.phrase, read.ordinal, read.title, read.days, read.mark, read.end);
            let days = cue.days.map(|(first, last)| Days { first: first.into(), last: last.into() });
            let mark = cue.mark.map(|mark| if mark == 0 { Mark::Open } else { Mark::House });
            assert_eq!(parts, (&cue.phrase[..], cue.ordinal, &cue.title[..], days, mark, place + cue.bytes().len()), "place {place} of {cues:?}");
            assert_eq!(read.is_house(), cue.is_house(), "place {place} of {cues:?}");
            assert!([0, 1, 256, 300, LAST_DAY].iter().all(|&day| read.plays(day.into()) == days.is_none_or(|days| days.contains(day.into()))));
            for (due, start, body) in [(Due::Phrase, place, read.phrase), (Due::Title, raw.title_start - 3, read.title)] {
                let field = read_field(Role::Operator, &bytes, start, due).expect("the field is read");
                assert_eq!((field.body, field.end), (body, start + 3 + body.len()), "place {place} of {cues:?}");
            }
            let ordinal = read_field(Role::Operator, &bytes, place + 3 + cue.phrase.len(), Due::Ordinal).expect("the field is read");
            assert_eq!(ordinal.body, cue.ordinal.to_be_bytes(), "place {place} of {cues:?}");
            let mut end = raw.title_start + raw.title_len;
            if let Some((first, last)) = cue.days {
                let dates = read_field(Role::Operator, &bytes, end, Due::Dates).expect("the field is read");
                assert_eq!((dates.body, dates.end), (&[first.to_be_bytes(), last.to_be_bytes()].concat()[..], end + 7), "{cues:?}");
                end = dates.end;
            }
            if let Some(mark) = cue.mark {
                let house = read_field(Role::Operator, &bytes, end, Due::House).expect("the field is read");
                assert_eq!((house.body, house.end), (&[mark][..], read.end), "{cues:?}");
            }
            place = read.end;
        }
        assert_eq!(read_cue(Role::Operator, &bytes, place), Err(Refusal::CutField));
        for _ in 0..random.between(1, 6) {
            change(&mut bytes, &mut random);
            let mut places: Vec<usize> = field_places(&cues).iter().map(|&(place, _)| place).collect();
            places.extend((0..4).map(|_| random.between(0, bytes.len() + 3)));
            for place in places {
                for refusal in compare_all(&bytes, MORE, place) {
                    met[refusal as usize] += 1;
                }
            }
        }
    }
    assert!([0, 7, 8, 9, 16].iter().all(|&refusal| met[refusal] > 500), "the changed books met too little: {met:?}");
    report("random_books", 5000 * 2 * 7 * 6);
}

/// An empty vector's slice points to no memory at all.
#[test]
fn book_without_memory() {
    let book: Vec<u8> = Vec::new();
    for place in [0, 1, usize::MAX] {
        assert_eq!(read_cue(Role::Operator, &book, place), Err(Refusal::CutField));
        assert!(Due::ALL.iter().all(|&due| read_field(Role::Operator, &book, place, due) == Err(Refusal::CutField)));
    }
}
