//! A book written anew with one title replaced: every small book, random and damaged ones, the limits of title, index and buffer, 999 cues, and the order of
//! the refusals. What the new book must be is put together here from its cues, of which one has another title, so that not one other byte may change.
//! That a refused call writes nothing, and that the buffer's bytes past the new book are kept, is tested in every compared call.

use libretto::{read_book, read_cue, retitle, retitle_all, title, BookError, RawAnswer, Refusal, Role};
use libretto_tests::books::{book, change, each_damage, samples, Cue, CUES, LAST_DAY, MARKS, MORE, MORE_MARKED, PHRASE, TITLE};
use libretto_tests::roles::{unknown_roles, GUEST, OPERATOR, TRANSLATOR};
use libretto_tests::{compare_retitle, report, Random};

/// The book of these cues, of which this one has another title.
fn retitled(cues: &[Cue], cue: usize, title: &[u8]) -> Vec<u8> {
    let mut cues = cues.to_vec();
    cues[cue].title = title.to_vec();
    book(&cues)
}

fn answer(refusal: u32, number: usize) -> RawAnswer {
    RawAnswer { refusal, number: number as u32 }
}

/// A role that may have a title replaced.
fn some_role(random: &mut Random) -> u32 {
    [TRANSLATOR, OPERATOR][random.below(2)]
}

/// Every book of up to three cues, each with one of three titles, with dates or without, and with every mark; each cue of it, and the one past the last;
/// titles of several lengths; and buffers that are just long enough, longer and too short.
#[test]
fn every_small_book() {
    let mut random = Random::new(141);
    let kind = |kind: usize| Cue {
        days: (kind / 9 == 1).then_some((0x0304, 0x0505)),
        mark: MARKS[kind / 3 % 3],
        ..Cue::new(b"la", 2, [&b""[..], b"N", b"\x05\x00\x01"][kind % 3])
    };
    for count in 0..=3 {
        for code in 0..18usize.pow(count) {
            let cues: Vec<Cue> = (0..count).map(|k| kind(code / 18usize.pow(k) % 18)).collect();
            let bytes = book(&cues);
            for (index, new) in (0..cues.len()).flat_map(|index| [&b""[..], b"q", b"\x05\x00\x01\x01"].map(|new| (index, new))) {
                let due = retitled(&cues, index, new);
                for (buffer_len, due) in [(due.len(), answer(0, due.len())), (due.len() - 1, answer(13, 0))] {
                    let role = some_role(&mut random);
                    let given = compare_retitle(role, &bytes, index as u32, new, buffer_len, random.next());
                    assert_eq!(given, due, "title {new:?} for cue {index} of {cues:?}, buffer {buffer_len}");
                }
                assert_eq!(retitle_all(Role::Translator, &bytes, index, new), Ok(due), "title {new:?} for cue {index} of {cues:?}");
            }
            let past = compare_retitle(TRANSLATOR, &bytes, count, b"q", bytes.len() + 1, random.next());
            assert_eq!(past, answer(12, 0), "the cue past the last of {cues:?}");
        }
    }
    report("every_small_book", 5832 * (3 * 3 * 2 + 1));
}

#[test]
fn random_books() {
    let mut random = Random::new(142);
    for round in 0..6000 {
        let count = if round % 200 == 0 { random.between(1, 120) } else { random.between(1, 9) };
        let cues: Vec<Cue> = (0..count).map(|_| Cue::random(&mut random)).collect();
        let bytes = book(&cues);
        let index = random.below(count);
        let letters = [random.between(0, TITLE), random.below(5), cues[index].title.len()][random.below(3)];
        let alphabet = [256, 6][random.below(2)];
        let new = random.word(alphabet, letters);
        let due = retitled(&cues, index, &new);
        let buffer_len = due.len() + [0, 1, random.below(60)][random.below(3)];
        let role = some_role(&mut random);
        let given = compare_retitle(role, &bytes, index as u32, &new, buffer_len, random.next());
        assert_eq!(given, answer(0, due.len()), "title {new:?} for cue {index} of {cues:?}");

        // The new book reads, and with the old title it is the old book.
        let written = retitle_all(Role::Translator, &bytes, index, &new).expect("the title is replaced");
        assert_eq!((&written, read_book(Role::Operator, &written)), (&due, Ok(count)), "title {new:?} for cue {index} of {cues:?}");
        for (k, cue) in cues.iter().enumerate() {
            let expected = if k == index { &new } else { &cue.title };
            assert_eq!(title(Role::Operator, &written, k), expected, "title {k} with another for cue {index} of {cues:?}");
        }
        assert_eq!(retitle_all(Role::Operator, &written, index, &cues[index].title), Ok(bytes), "cue {index} of {cues:?}");
    }
    report("random_books", 6000);
}

/// Titles of every length around the limit, and far above it, some of which are short in their lowest 8 or 16 bits.
#[test]
fn every_title_length() {
    let mut random = Random::new(143);
    let cues = [Cue::new(b"la", 1, b"No").on(1, 2), Cue::new(b"la", 2, &[b'x'; TITLE]).marked(0), Cue::new(b"so", 1, b"").marked(1)];
    let bytes = book(&cues);
    let letters = random.word(256, 66_000);
    for length in (0..=TITLE + 20).chain([255, 256, 257, 300, 456, 512, 513, 1024, 65_535, 65_536, 65_537, 65_736]) {
        for index in 0..cues.len() {
            let due = if length <= TITLE { retitled(&cues, index, &letters[..length]).len() } else { 0 };
            let given = compare_retitle(TRANSLATOR, &bytes, index as u32, &letters[..length], 1000, random.next());
            assert_eq!(given, if length <= TITLE { answer(0, due) } else { answer(9, 0) }, "a title of {length} bytes for cue {index}");
        }
    }
    report("every_title_length", 3 * (TITLE + 21 + 12));
}

/// Buffers of every length around that of the new book, and none at all.
#[test]
fn every_buffer_length() {
    let mut random = Random::new(144);
    for cues in samples().iter().filter(|cues| book(cues).len() < 700) {
        let bytes = book(cues);
        for index in 0..cues.len() {
            for new in [&b""[..], b"N", &[b't'; TITLE]] {
                let due = retitled(cues, index, new).len();
                for buffer_len in (0..40).chain(due.saturating_sub(20)..due + 20) {
                    let given = compare_retitle(TRANSLATOR, &bytes, index as u32, new, buffer_len, random.next());
                    let expected = if buffer_len < due { answer(13, 0) } else { answer(0, due) };
                    assert_eq!(given, expected, "{} bytes for cue {index} of {cues:?}, buffer {buffer_len}", new.len());
                }
                // As long as the book and the title together is always long enough.
                assert!(due <= bytes.len() + new.len());
            }
        }
    }
    report("every_buffer_length", 15 * 3 * 60);
}

/// Each cue of a book of 999 cues, and numbers that are no cue's, some of which are one in their lowest 8 or 16 bits.
#[test]
fn every_cue_of_999() {
    let mut random = Random::new(145);
    let cues: Vec<Cue> =
        (0..CUES).map(|k| Cue { mark: MARKS[k % 3], days: (k % 2 == 0).then_some((0, LAST_DAY)), ..Cue::new(b"a", 1, &b"xyz"[..k % 4]) }).collect();
    let bytes = book(&cues);
    for index in (0..CUES).step_by(7).chain([1, 254, 255, 256, 257, 996, 997, 998]) {
        let new = random.word(256, index % 9);
        let due = retitled(&cues, index, &new);
        let given = compare_retitle(TRANSLATOR, &bytes, index as u32, &new, due.len() + index % 2, random.next());
        assert_eq!(given, answer(0, due.len()), "cue {index}");
        assert_eq!(retitle_all(Role::Translator, &bytes, index, &new).as_ref(), Ok(&due), "cue {index}");
    }
    for index in [999, 1000, 1023, 1024, 65_535, 65_536, 65_537, 1 << 24, 1 << 31, (1 << 31) + 1, u32::MAX] {
        let given = compare_retitle(TRANSLATOR, &bytes, index, b"", bytes.len(), random.next());
        assert_eq!(given, answer(12, 0), "cue {index}");
    }
    let long = [&bytes[..], MORE].concat();
    let given = compare_retitle(TRANSLATOR, &long, 0, b"", long.len(), random.next());
    assert_eq!(given, answer(10, 999));
    report("every_cue_of_999", 143 + 8 + 11 + 1);
}

/// The longest book: every cue is as long as it may be, and so is the title that each of some gets.
#[test]
fn the_longest_book() {
    let longest = |letter| Cue::new(&[letter; PHRASE], 65_535, &[letter; TITLE]).on(0, LAST_DAY).marked(1);
    let cues: Vec<Cue> = (0..CUES).map(|k| longest(k as u8)).collect();
    let bytes = book(&cues);
    assert_eq!(bytes.len(), CUES * 1246);
    for (index, letters) in [(0, TITLE), (1, 0), (500, 199), (997, TITLE), (998, 0), (998, TITLE)] {
        let new = vec![b'!'; letters];
        assert_eq!(retitle_all(Role::Translator, &bytes, index, &new), Ok(retitled(&cues, index, &new)), "{letters} letters for cue {index}");
    }
    let short = retitle(Role::Translator, &bytes, 998, &[b'!'; TITLE], &mut vec![7; bytes.len() - 1]);
    assert_eq!(short, Err(BookError { refusal: Refusal::LongCue, cue: None }));
}

/// What is wrong with a book comes with its cue, as the operator's reading tells it; a damage that leaves a book is kept in the new one.
#[test]
fn damaged_books() {
    let mut random = Random::new(146);
    let mut met = [0; 17];
    let mut test = |damaged: &[u8], index: u32| {
        let given = compare_retitle(TRANSLATOR, damaged, index, b"new", damaged.len() + 3, u64::from(index));
        let read = reference::read_book(OPERATOR, damaged);
        let expected = match read {
            (0, count) if index < count => 0,
            (0, _) => 12,
            (refusal, _) => refusal,
        };
        assert_eq!(given.refusal, expected, "cue {index} of {damaged:?}");
        assert!(read.0 == 0 || given.number == read.1, "cue {index} of {damaged:?}: {given:?}");
        met[expected as usize] += 1;
    };
    for cues in samples().iter().filter(|cues| book(cues).len() < 150) {
        let mut whole = book(cues);
        for length in 0..whole.len() {
            test(&whole[..length], length as u32 % 3);
        }
        each_damage(&mut whole, |damaged| test(damaged, 1));
    }
    for _ in 0..4000 {
        let mut bytes = book(&(0..random.between(1, 6)).map(|_| Cue::random(&mut random)).collect::<Vec<_>>());
        for _ in 0..random.between(1, 4) {
            change(&mut bytes, &mut random);
            test(&bytes, random.below(4) as u32);
        }
    }
    assert!([0, 7, 8, 9, 12, 16].iter().all(|&refusal| met[refusal] > 200), "the damages met too little: {met:?}");
    report("damaged_books", 255 * 300);
}

/// The answer by the words of document 02, (xiv), for a book with this reading: the role, the book, the title, the cue and the buffer, in this order.
fn due(role: u32, read: (u32, usize), cue: u32, title_len: usize, new_len: usize, buffer_len: usize) -> RawAnswer {
    if role != OPERATOR && role != TRANSLATOR {
        answer(19, 0)
    } else if read.0 != 0 {
        answer(read.0, read.1)
    } else if title_len > 200 {
        answer(9, 0)
    } else if cue as usize >= read.1 {
        answer(12, 0)
    } else if buffer_len < new_len {
        answer(13, 0)
    } else {
        answer(0, new_len)
    }
}

#[test]
fn every_limit_with_every_other() {
    let mut random = Random::new(147);
    let mut met = [0; 20];
    let sound = [MORE_MARKED, &Cue::new(b"la", 2, b"No").marked(0).bytes()].concat();
    let cut = |length: usize| sound[..sound.len() - length].to_vec();
    let books = [
        ((0, 2), sound.clone()),
        ((0, 0), vec![]),
        ((7, 1), cut(1)),
        ((7, 0), MORE_MARKED[..22].to_vec()),
        ((8, 2), [&sound[..], b"\x02\0\x01"].concat()),
        ((9, 0), [MORE, b"\x05\0\x01\x02"].concat()),
        ((9, 1), [&cut(1)[..], &[2]].concat()),
        ((16, 0), [MORE, b"\x04\0\x04\0\x02\0\x01"].concat()),
        ((10, 999), MORE_MARKED.repeat(1000)),
    ];
    let roles = [vec![OPERATOR, TRANSLATOR, TRANSLATOR, GUEST], unknown_roles()[..9].to_vec(), vec![256, 257, u32::MAX]].concat();
    let letters = [b't'; 300];
    for ((read, bytes), &role) in books.iter().flat_map(|book| roles.iter().map(move |role| (book, role))) {
        for cue in [0, 1, 2, 999, 65_536, u32::MAX] {
            for title_len in [0, 2, 200, 201, 300] {
                // The first cue has no title, and the second one of two bytes.
                let new_len = (bytes.len() + title_len).saturating_sub(if cue == 1 { 2 } else { 0 });
                for buffer_len in [0, new_len.saturating_sub(1), new_len, new_len + 3] {
                    let given = compare_retitle(role, bytes, cue, &letters[..title_len], buffer_len, random.next());
                    let due = due(role, *read, cue, title_len, new_len, buffer_len);
                    assert_eq!(given, due, "role {role}, {read:?}, cue {cue}, title of {title_len}, buffer {buffer_len} for {new_len}");
                    met[given.refusal as usize] += 1;
                }
            }
        }
    }
    assert!([0, 7, 8, 9, 10, 12, 13, 16, 19].iter().all(|&refusal| met[refusal] > 20), "the calls met too little: {met:?}");
    report("every_limit_with_every_other", 9 * 16 * 6 * 5 * 4);
}

/// What a call leaves, without the reference: all bytes of the old book but the title and its length, and those of the buffer past the new one.
#[test]
fn all_else_is_kept() {
    let mut random = Random::new(148);
    for _ in 0..500 {
        let cues: Vec<Cue> = (0..random.between(1, 5)).map(|_| Cue::random(&mut random)).collect();
        let bytes = book(&cues);
        let index = random.below(cues.len());
        let part = title(Role::Operator, &bytes, index);
        let start = part.as_ptr() as usize - bytes.as_ptr() as usize;
        let length = random.between(0, TITLE);
        let new = random.word(256, length);
        let mut buffer = vec![7; bytes.len() + length + 9];
        let written = retitle(Role::Translator, &bytes, index, &new, &mut buffer).expect("the title is replaced");
        assert_eq!(written, bytes.len() - part.len() + length);
        assert_eq!(buffer[..start - 2], bytes[..start - 2], "before the title {index} of {cues:?}");
        assert_eq!(buffer[start - 2..start], (length as u16).to_be_bytes(), "the length of title {index} of {cues:?}");
        assert_eq!(buffer[start..start + length], new, "title {index} of {cues:?}");
        assert_eq!(buffer[start + length..written], bytes[start + part.len()..], "behind the title {index} of {cues:?}");
        assert!(buffer[written..].iter().all(|&byte| byte == 7), "past the new book of {cues:?}");
        let mut place = 0;
        for (k, cue) in cues.iter().enumerate() {
            let read = read_cue(Role::Operator, &buffer[..written], place).expect("the new book is sound");
            assert_eq!(read.mark.is_some(), cue.mark.is_some(), "the mark of cue {k} of {cues:?}");
            place = read.end;
        }
        assert_eq!(place, written);
    }
}

/// An empty vector's slice points to no memory at all.
#[test]
fn slices_without_memory() {
    let none: Vec<u8> = Vec::new();
    let refused = |refusal| Err(BookError { refusal, cue: None });
    assert_eq!(retitle(Role::Translator, &none, 0, &none, &mut Vec::new()), refused(Refusal::NoOccurrence));
    assert_eq!(retitle(Role::Guest, &none, 0, &none, &mut Vec::new()), refused(Refusal::NotAllowed));
    assert_eq!(retitle(Role::Translator, MORE, 0, &none, &mut Vec::new()), refused(Refusal::LongCue));
    assert_eq!(retitle(Role::Translator, MORE, 0, &none, &mut [0; 12]), Ok(12));
}
