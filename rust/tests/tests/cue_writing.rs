//! Writing cues: the limits of phrase, ordinal, title, days, house mark and buffer, the order of the refusals, and books put together from written cues.
//! That a refused call writes nothing is tested in every compared call, without the reference.

use libretto::{read_book, read_cue, title, write_cue, BookError, Days, Mark, RawAnswer, RawDays, Refusal, Role};
use libretto_tests::books::{book, Cue, CUES, LAST_DAY, PHRASE, TITLE};
use libretto_tests::evenings::NO_DAYS;
use libretto_tests::roles::OPERATOR;
use libretto_tests::{compare_book, compare_write, report, Ending, Random};

/// The longest buffer that is lent.
const BUFFER: usize = 70_000;

/// Numbers that are no mark: the next ones, and some that are one in their lowest 8 or 16 bits.
const NO_MARKS: [u32; 9] = [2, 3, 255, 256, 257, 65_536, 65_537, (1 << 31) + 1, u32::MAX];

/// Numbers for days, by what they are: for a cue without any, for one with days, and for days that are refused. Any number but 0 says that there are days.
/// The mark is open, house only or refused, in turn.
fn endings(random: &mut Random) -> [Ending; 6] {
    let house = [0, 0, 1, 1, 1, NO_MARKS[random.below(NO_MARKS.len())]];
    let mut turn = random.below(house.len());
    dated_endings(random).map(|ending| {
        turn += 1;
        Ending { house: house[turn % house.len()], ..ending }
    })
}

fn dated_endings(random: &mut Random) -> [Ending; 6] {
    let ending = Ending::dated;
    let [day, other] = [0, 1].map(|_| random.between(0, LAST_DAY.into()) as u32);
    let dated = [1, 1, 2, 3, 4, 255, 256, 65_536, 1 << 31, u32::MAX][random.below(10)];
    let none = NO_DAYS[random.below(NO_DAYS.len())];
    [
        Ending::NONE,
        // Days that would be refused play no part.
        [ending(0, none, none), ending(0, 1, 0), ending(0, day, other)][random.below(3)],
        ending(dated, day.min(other), day.max(other)),
        [ending(dated, 0, LAST_DAY.into()), ending(dated, 0, 0), ending(dated, LAST_DAY.into(), LAST_DAY.into())][random.below(3)],
        [ending(dated, day, none), ending(dated, none, day), ending(dated, none, none)][random.below(3)],
        ending(dated, day.max(other) + 1, day.min(other)),
    ]
}

/// The answer by the words of documents 01 and 02.
fn due(buffer_len: usize, m: usize, ordinal: u32, title_len: usize, ending: Ending) -> RawAnswer {
    let Ending { days: RawDays { dated, first, last }, house } = ending;
    let length = 3 + m + 3 + 2 + 3 + title_len + if dated == 0 { 0 } else { 3 + 4 } + if house == 1 { 3 + 1 } else { 0 };
    let refusal = if dated != 0 && (first > 36_524 || last > 36_524 || first > last) {
        Refusal::BadDate.number()
    } else if m == 0 {
        Refusal::NoPhrase.number()
    } else if m > 1024 {
        Refusal::LongPhrase.number()
    } else if ordinal == 0 || ordinal > 65_535 || title_len > 200 || house > 1 {
        Refusal::BadField.number()
    } else if length > buffer_len {
        Refusal::LongCue.number()
    } else {
        0
    };
    RawAnswer { refusal, number: if refusal == 0 { length as u32 } else { 0 } }
}

#[test]
fn every_limit_with_every_other() {
    let mut random = Random::new(41);
    let (letters, shown) = (random.word(256, 70_000), random.word(256, 70_000));
    for m in [0, 1, 2, 255, 256, 257, 1023, 1024, 1025, 1026, 65_535, 65_536, 65_537, 66_560] {
        for title_len in [0, 1, 199, 200, 201, 255, 256, 257, 65_535, 65_536, 65_736] {
            for ordinal in [0, 1, 2, 255, 256, 65_535, 65_536, 65_537, 1 << 24, 1 << 31, u32::MAX] {
                for ending in endings(&mut random) {
                    let length = m + title_len + 11 + if ending.days.dated == 0 { 0 } else { 7 } + if ending.house == 1 { 4 } else { 0 };
                    for buffer_len in [0, length - 1, length, length + random.between(1, 100)] {
                        let buffer_len = buffer_len.min(BUFFER);
                        let raw = compare_write(OPERATOR, buffer_len, &letters[..m], ordinal, &shown[..title_len], ending, random.next());
                        let told = format!("m {m}, ordinal {ordinal}, title {title_len}, {ending:?}, buffer {buffer_len}");
                        assert_eq!(raw, due(buffer_len, m, ordinal, title_len, ending), "{told}");
                    }
                }
            }
        }
    }
    report("every_limit_with_every_other", 14 * 11 * 11 * 6 * 4);
}

#[test]
fn every_buffer_length() {
    let mut random = Random::new(42);
    for (m, title_len) in [(1, 0), (2, 2), (300, 77), (PHRASE, 0), (1, TITLE), (PHRASE, TITLE)] {
        let (phrase, shown) = (random.word(256, m), random.word(256, title_len));
        for buffer_len in 0..=m + title_len + 23 {
            let endings = [Ending::NONE, Ending::dated(1, 258, 36_000)];
            for ending in endings.into_iter().flat_map(|ending| [0, 1].map(|house| Ending { house, ..ending })) {
                let raw = compare_write(OPERATOR, buffer_len, &phrase, 258, &shown, ending, random.next());
                assert_eq!(raw, due(buffer_len, m, 258, title_len, ending), "m {m}, title {title_len}, {ending:?}, buffer {buffer_len}");
            }
        }
    }
    report("every_buffer_length", 4 * (25 + 28 + 401 + 1048 + 225 + 1248));
}

#[test]
fn every_ordinal() {
    for ordinal in (0..=65_600).chain((17..32).map(|bit| 1 << bit)).chain((17..32).map(|bit| (1 << bit) + 1)).chain([u32::MAX]) {
        let ending = Ending { house: ordinal / 2 % 2, ..Ending::dated(ordinal % 2, ordinal % 500, 500) };
        assert_eq!(compare_write(OPERATOR, 27, b"la", ordinal, b"No", ending, ordinal as u64), due(27, 2, ordinal, 2, ending), "ordinal {ordinal}");
    }
    report("every_ordinal", 65_601 + 31);
}

/// Every number up to some past those of two bytes as the first day and as the last one, for cues with days and for others.
#[test]
fn every_day() {
    for day in (0..=66_000).chain((17..32).flat_map(|bit| [1 << bit, (1 << bit) + 9569])).chain([u32::MAX]) {
        for (first, last) in [(day, 36_524), (0, day), (day, day), (day, day.saturating_sub(1))] {
            for dated in [1, 0] {
                let ending = Ending::dated(dated, first, last);
                assert_eq!(compare_write(OPERATOR, 25, b"la", 2, b"No", ending, day.into()), due(25, 2, 2, 2, ending), "{ending:?}");
            }
        }
    }
    report("every_day", 8 * 66_032);
}

/// A number other than 0, whatever it is, says that there are days.
#[test]
fn every_number_that_says_days() {
    let numbers = (0..=600).chain((9..32).flat_map(|bit| [1 << bit, (1 << bit) - 1, (1 << bit) + 1])).chain([u32::MAX - 1, u32::MAX]);
    for dated in numbers {
        for (first, last) in [(1, 256), (256, 1), (36_524, 36_525)] {
            let ending = Ending::dated(dated, first, last);
            for buffer_len in [14, 15, 21, 22] {
                let raw = compare_write(OPERATOR, buffer_len, b"la", 2, b"No", ending, dated.into());
                assert_eq!(raw, due(buffer_len, 2, 2, 2, ending), "{ending:?}, buffer {buffer_len}");
            }
        }
    }
    report("every_number_that_says_days", 600 * 3 * 4);
}

#[test]
fn every_phrase_and_title_length() {
    let mut random = Random::new(43);
    for length in 0..=1100 {
        let body = random.word(256, length);
        for (phrase, title) in [(&body[..], &b"No"[..]), (b"la", &body)] {
            let buffer_len = length + 13 + random.below(3) + 7 * random.below(2) + 4 * random.below(2);
            let ending = Ending { house: random.below(2) as u32, ..Ending::dated(random.below(2) as u32, 7, 9) };
            let raw = compare_write(OPERATOR, buffer_len, phrase, 1, title, ending, random.next());
            assert_eq!(raw, due(buffer_len, phrase.len(), 1, title.len(), ending), "{length} bytes, {ending:?}, buffer {buffer_len}");
        }
    }
    report("every_phrase_and_title_length", 2 * 1101);
}

/// Writes the cues one behind the other with the library, each into a buffer that ends where the lent one does.
fn put_together(cues: &[Cue], random: &mut Random) -> Vec<u8> {
    let mut buffer = random.word(256, book(cues).len() + 5);
    let rest = buffer[buffer.len() - 5..].to_vec();
    let mut end = 0;
    for cue in cues {
        let days = cue.days.map(|(first, last)| Days { first: first.into(), last: last.into() });
        let written = write_cue(Role::Operator, &mut buffer[end..], &cue.phrase, cue.ordinal as u32, &cue.title, days, cue.is_house());
        end += written.expect("the cue is written");
    }
    assert_eq!(buffer[end..], rest, "what follows the cues keeps its values");
    buffer.truncate(end);
    buffer
}

/// A random cue as it is written: an open one has no mark.
fn written_cue(random: &mut Random) -> Cue {
    let cue = Cue::random(random);
    Cue { mark: cue.is_house().then_some(1), ..cue }
}

#[test]
fn written_cues_read_back() {
    let mut random = Random::new(44);
    for round in 0..3000 {
        let count = if round % 1000 == 0 { CUES } else { random.below(20) };
        let cues: Vec<Cue> = (0..count).map(|_| written_cue(&mut random)).collect();
        let written = put_together(&cues, &mut random);
        assert_eq!(written, book(&cues), "the book of {cues:?}");
        assert_eq!(read_book(Role::Operator, &written), Ok(count));
        let mut place = 0;
        for (k, cue) in cues.iter().enumerate() {
            assert_eq!(title(Role::Operator, &written, k), cue.title, "title {k} of {cues:?}");
            let read = read_cue(Role::Operator, &written, place).expect("the cue is read");
            let days = read.days.map(|Days { first, last }| (first as u16, last as u16));
            let mark = read.mark.map(|mark| u8::from(mark == Mark::House));
            let read_back = Cue { phrase: read.phrase.to_vec(), ordinal: read.ordinal, title: read.title.to_vec(), days, mark };
            assert_eq!(read_back, *cue, "cue {k} of {cues:?}");
            place = read.end;
        }
        assert_eq!(place, written.len(), "the end of {cues:?}");
        let tail = put_together(&[written_cue(&mut random)], &mut random);
        compare_book(OPERATOR, &written, &tail);
        if count == CUES {
            let long = [written, tail].concat();
            assert_eq!(read_book(Role::Operator, &long), Err(BookError { refusal: Refusal::LongBook, cue: Some(CUES) }));
        }
    }
    report("written_cues_read_back", 3000);
}

/// An empty vector's slice points to no memory at all.
#[test]
fn slices_without_memory() {
    let none: Vec<u8> = Vec::new();
    let days = Some(Days { first: 0, last: 0 });
    assert_eq!(write_cue(Role::Operator, &mut Vec::new(), &none, 2, &none, None, false), Err(Refusal::NoPhrase));
    assert_eq!(write_cue(Role::Operator, &mut Vec::new(), b"la", 2, &none, days, false), Err(Refusal::LongCue));
    assert_eq!(write_cue(Role::Operator, &mut Vec::new(), &none, 2, &none, Some(Days { first: 1, last: 0 }), false), Err(Refusal::BadDate));
    assert_eq!(write_cue(Role::Operator, &mut [0; 13], b"la", 2, &none, None, false), Ok(13));
    assert_eq!(write_cue(Role::Operator, &mut [0; 20], b"la", 2, &none, days, false), Ok(20));
    assert_eq!(write_cue(Role::Operator, &mut [0; 24], b"la", 2, &none, days, true), Ok(24));
    assert_eq!(write_cue(Role::Guest, &mut Vec::new(), &none, 2, &none, None, false), Err(Refusal::NotAllowed));
}
