//! Every role with every call on a book or a cue, in calls that are accepted and in calls that meet each other refusal: what a role may not do is refused
//! ahead of all else, with zeros, and nothing is written, which every compared call tests.

use libretto::{read_book, read_cue, read_field, resolve_all, retitle_all, title, title_raw, write_cue};
use libretto::{BookError, Due, Page, RawCue, RawDays, RawField, RawResolving, Refusal, Role};
use libretto_tests::books::{book, samples, Cue, CUES, MORE, MORE_MARKED, PHRASE, TITLE};
use libretto_tests::roles::{unknown_roles, GUEST, OPERATOR, TRANSLATOR};
use libretto_tests::{compare_book, compare_cue, compare_field, compare_resolve, compare_retitle, compare_write, report, Ending, Lengths, Random};

/// All roles, and numbers that are none.
fn roles() -> Vec<u32> {
    [vec![OPERATOR, TRANSLATOR, GUEST], unknown_roles()].concat()
}

/// Books that are accepted, and for each refusal of a book one that meets it at the second cue.
fn books() -> Vec<(u32, Vec<u8>)> {
    let sound = samples().into_iter().take(3).map(|cues| (0, book(&cues)));
    let faults = [
        (7, MORE_MARKED[..22].to_vec()),
        (8, b"\x02\0\x01".to_vec()),
        (9, b"\x01\0\0".to_vec()),
        (9, [MORE, b"\x05\0\x01\x02"].concat()),
        (16, [MORE, b"\x04\0\x04\0\x01\0\0"].concat()),
    ];
    let refused = faults.into_iter().map(|(refusal, fault)| (refusal, [MORE_MARKED, &fault].concat()));
    let long = (10, MORE_MARKED.repeat(CUES + 1));
    sound.chain(refused).chain([(0, Vec::new()), (0, MORE_MARKED.to_vec()), long]).collect()
}

#[test]
fn reading() {
    let none = RawField { refusal: 19, start: 0, len: 0, end: 0 };
    let mut met = [0; 20];
    for (refusal, book) in books() {
        for role in roles() {
            let raw = compare_book(role, &book, MORE);
            let refused = if role == OPERATOR { refusal } else { 19 };
            assert_eq!((raw.refusal, role != OPERATOR && raw.number != 0), (refused, false), "role {role}, a book that meets {refusal}");
            for cue in [0, 1, 2, u32::MAX] {
                let part = title_raw(role, &book, cue);
                assert!(role == OPERATOR || (part.start, part.len) == (0, 0), "role {role}, title {cue} of a book that meets {refusal}: {part:?}");
            }
            // At the front, inside, at the end and past it.
            for place in [0, 1, 4, 23, book.len(), book.len() + 1, usize::MAX] {
                let read = compare_cue(role, &book, MORE, place);
                let RawCue { ordinal, dated, first, last, marked, house, .. } = read;
                let numbers = [ordinal, dated, first, last, marked, house];
                let parts = [read.phrase_start, read.phrase_len, read.title_start, read.title_len, read.end];
                let zeros = read.refusal == 19 && numbers == [0; 6] && parts == [0; 5];
                assert_eq!(zeros, role != OPERATOR, "role {role}, place {place} of a book that meets {refusal}: {read:?}");
                met[read.refusal as usize] += 1;
                for due in [0, 1, 2, 3, 4, 5, 6, u32::MAX] {
                    let read = compare_field(role, &book, MORE, place, due);
                    assert_eq!(read == none, role != OPERATOR, "role {role}, place {place}, due {due} of a book that meets {refusal}: {read:?}");
                    met[read.refusal as usize] += 1;
                }
            }
        }
    }
    assert!([0, 7, 8, 9, 19].iter().all(|&refusal| met[refusal] > 2), "the calls met too little: {met:?}");
    report("reading", 11 * 100 * 7 * 9);
}

#[test]
fn writing() {
    let mut random = Random::new(131);
    let long = [b'a'; PHRASE + 1];
    let (none, bad) = (Ending::NONE, Ending::dated(1, 2, 1));
    let house = |house| Ending { house, ..none };
    let calls = [
        (0, &b"la"[..], 2, &b"No"[..], none, 15),
        (0, b"la", 2, b"No", house(1), 40),
        (16, b"la", 2, b"No", bad, 40),
        (2, b"", 2, b"No", none, 40),
        (3, &long, 2, b"No", none, 2000),
        (9, b"la", 0, b"No", none, 40),
        (9, b"la", 2, &long[..TITLE + 1], none, 400),
        (9, b"la", 2, b"No", house(2), 40),
        (13, b"la", 2, b"No", house(1), 18),
    ];
    for role in roles() {
        for (refusal, phrase, ordinal, title, ending, enough) in calls {
            for buffer_len in [enough, 0, enough - 1] {
                let raw = compare_write(role, buffer_len, phrase, ordinal, title, ending, random.next());
                let short = refusal == 0 && buffer_len < if ending.house == 1 { 19 } else { 15 };
                let expected = match refusal {
                    _ if role != OPERATOR => 19,
                    _ if short => 13,
                    refusal => refusal,
                };
                assert_eq!(raw.refusal, expected, "role {role}, a call that meets {refusal}, buffer {buffer_len}");
                assert_eq!(raw.number != 0, raw.refusal == 0, "role {role}, a call that meets {refusal}, buffer {buffer_len}");
            }
        }
    }
    report("writing", 100 * 9 * 3);
}

#[test]
fn retitling() {
    let mut random = Random::new(132);
    let long = [b't'; TITLE + 1];
    let mut met = [0; 20];
    for (refusal, book) in books() {
        for role in roles() {
            for (cue, title) in [(0, &b"Title"[..]), (1, b""), (1, &long[..TITLE]), (1, &long), (999, b""), (u32::MAX, &long)] {
                for buffer_len in [book.len() + title.len(), 0, book.len().saturating_sub(30)] {
                    let raw = compare_retitle(role, &book, cue, title, buffer_len, random.next());
                    let may = role == OPERATOR || role == TRANSLATOR;
                    assert_eq!(raw.refusal == 19, !may, "role {role}, cue {cue} of a book that meets {refusal}");
                    assert!(may || raw.number == 0, "role {role}, cue {cue} of a book that meets {refusal}: {raw:?}");
                    assert!(!may || refusal == 0 || raw.refusal == refusal, "role {role}, cue {cue} of a book that meets {refusal}: {raw:?}");
                    met[raw.refusal as usize] += 1;
                }
            }
        }
    }
    assert!([0, 7, 8, 9, 10, 12, 13, 16, 19].iter().all(|&refusal| met[refusal] > 5), "the calls met too little: {met:?}");
    report("retitling", 11 * 100 * 6 * 3);
}

/// Calls that meet each refusal of the resolver, and some that meet none.
#[test]
fn resolving() {
    let mut random = Random::new(133);
    let text = vec![b'a'; 32_769];
    let enough = |n| Lengths::enough(n, 3);
    let mut met = [0; 20];
    let cues = [Cue::new(b"a", 1, b"").marked(1), Cue::new(b"a", 2, b""), Cue::new(b"a", 3, b"").marked(0)];
    let [rising, missing, backward] = [[0, 1, 2], [0, 1, 1], [2, 2, 2]].map(|order| book(&order.map(|cue: usize| cues[cue].clone())));
    let missing = [&missing[..], Cue::new(b"b", 1, b"").bytes().as_slice()].concat();
    let sound = [rising, missing, backward].map(|book| (0, book));
    for (refusal, book) in sound.into_iter().chain(books()) {
        for role in roles() {
            for (day, page, n, lengths) in [
                (9569, 1, 7, enough(7)),
                (9569, 15, 7, enough(7)),
                (36_525, 1, 7, enough(7)),
                (9569, 1, 32_769, enough(32_769)),
                (9569, 1, 7, Lengths { scratch: 65_534, ..enough(7) }),
                (9569, 2, 7, enough(7)),
                (9569, 1, 7, Lengths { copy: 6, ..enough(7) }),
                (9569, 1, 7, Lengths { entries: 2, ..enough(7) }),
            ] {
                let raw = compare_resolve(role, day, page, &book, &text[..n], lengths, random.next());
                let may = role == OPERATOR || role == GUEST;
                let none = RawResolving { refusal: 19, number: 0, reads: 0 };
                assert_eq!(raw == none, !may, "role {role}, day {day}, page {page}, {n} letters, {lengths:?}, a book that meets {refusal}: {raw:?}");
                met[raw.refusal as usize] += 1;
            }
        }
    }
    assert!([0, 4, 5, 6, 7, 8, 9, 10, 11, 12, 14, 15, 16, 19].iter().all(|&refusal| met[refusal] > 2), "the calls met too little: {met:?}");
    report("resolving", 14 * 100 * 8);
}

/// The numbers of the wrapper's roles, and what each may do by the safe functions.
#[test]
fn the_safe_interface() {
    let book = MORE_MARKED;
    for number in roles() {
        let role = Role::from_number(number);
        assert_eq!(role.map(Role::number), (number < 3).then_some(number), "role {number}");
        let Some(role) = role else { continue };
        let allowed = |act: &str| role == Role::Operator || (role, act) == (Role::Translator, "retitle") || (role, act) == (Role::Guest, "resolve");
        let refused = Refusal::NotAllowed;
        let whole = BookError { refusal: refused, cue: None };
        assert_eq!(read_book(role, book).err(), (!allowed("read")).then_some(whole));
        assert_eq!(read_cue(role, book, 0).err(), (!allowed("read")).then_some(refused));
        assert_eq!(read_field(role, book, 0, Due::Phrase).err(), (!allowed("read")).then_some(refused));
        assert_eq!(title(role, &Cue::new(b"la", 1, b"No").bytes(), 0), if allowed("read") { &b"No"[..] } else { b"" });
        assert_eq!(write_cue(role, &mut [0; 19], b"la", 1, b"No", None, true).err(), (!allowed("write")).then_some(refused));
        assert_eq!(retitle_all(role, book, 0, b"No").err(), (!allowed("retitle")).then_some(whole));
        assert_eq!(resolve_all(role, 1, Page::Latin1, book, b"a").err(), (!allowed("resolve")).then_some(whole));
    }
    assert_eq!(Role::ALL.map(Role::number), [OPERATOR, TRANSLATOR, GUEST]);
    assert_eq!(RawDays::from(None), RawDays::NONE);
}
