//! The refusals of the resolver, their order, and what a call leaves that was refused. That all but 12 and 15 leave everything as before is tested in
//! every compared call, without the reference.

use libretto::{resolve, resolve_all, resolve_raw, BookError, Page, RawResolving, Refusal, ResolverMemory, Resolving, Role, RESOLVER_SCRATCH};
use libretto_tests::books::{book, Cue, MORE};
use libretto_tests::evenings::NO_DAYS;
use libretto_tests::pages::{unknown_pages, PAGES};
use libretto_tests::roles::{some_resolving, unknown_roles, GUEST, RESOLVING, TRANSLATOR};
use libretto_tests::{compare_resolve, report, Lengths, Random};

/// The day on which cues are resolved here.
const DAY: u32 = 9569;

/// A cue's fault: 12 or 15, and the cue's index.
type Fault = (u32, u32);

/// A book with the answer of its reading, the number of its cues that play, and the first that is at fault in a text of two or more letters a.
struct Case {
    book: Vec<u8>,
    read: (u32, u32),
    playing: usize,
    fault: Option<Fault>,
}

/// Books of every kind. In those that are refused the first cue is missing too, or the second does not run forward, and 12 or 15 must not be answered
/// instead.
fn cases() -> Vec<Case> {
    let [first, second, missing] = [(&b"A"[..], 1), (b"A", 2), (b"b", 1)].map(|(phrase, ordinal)| Cue::new(phrase, ordinal, b"No"));
    let case = |book, read: (u32, u32), fault| Case { book, read, playing: read.1 as usize, fault };
    let of = |cues: [&Cue; 2]| book(&cues.map(Cue::clone));
    // Cues that do not play: a missing one, and one with days in no order.
    let day = DAY as u16;
    let off = missing.clone().on(day + 1, day + 1);
    let bad = missing.clone().on(day + 2, day + 1);
    let pair = of([&missing, &first]);
    let start = missing.bytes().len();
    let changed = |place: usize, byte| {
        let mut book = pair.clone();
        book[place] = byte;
        book
    };
    vec![
        case(vec![], (0, 0), None),
        case(of([&first, &second]), (0, 2), None),
        case(pair.clone(), (0, 2), Some((12, 0))),
        case(of([&first, &missing]), (0, 2), Some((12, 1))),
        case(of([&first, &first]), (0, 2), Some((15, 1))),
        case(pair[..pair.len() - 1].to_vec(), (7, 1), Some((12, 0))),
        case(changed(start, 2), (8, 1), Some((12, 0))),
        case(changed(start + 1, 5), (9, 1), Some((12, 0))),
        case(changed(0, 3), (8, 0), Some((12, 0))),
        case(of([&missing, &bad]), (16, 1), Some((12, 0))),
        case(of([&bad, &missing]), (16, 0), Some((12, 1))),
        Case { playing: 2, ..case(book(&[off.clone(), first.clone(), off.clone(), second.clone()]), (0, 4), None) },
        Case { playing: 1, ..case(of([&off, &missing]), (0, 2), Some((12, 1))) },
        Case { playing: 2, ..case(book(&[first.clone(), off.clone(), first.clone()]), (0, 3), Some((15, 2))) },
        Case { playing: 0, ..case(of([&off, &off]), (0, 2), None) },
        case([missing.bytes(), MORE.repeat(998), vec![1]].concat(), (10, 999), Some((12, 0))),
        case([MORE.repeat(999), vec![1]].concat(), (10, 999), Some((15, 1))),
    ]
}

/// The answer by the words of document 01, and of document 02, (iv), which puts the page between scratch and copy, (vi), which counts the reads, (vii),
/// which puts 15 behind 12, (viii), which puts the day before all and takes the playing cues alone, and (xiv), which puts the role before that. All books
/// that are not refused have one group, and those without cues that play have none. All their cues are open.
fn due(role: u32, day: u32, page: u32, case: &Case, n: usize, lengths: Lengths) -> RawResolving {
    let refused = |refusal: Refusal| RawResolving { refusal: refusal.number(), number: 0, reads: 0 };
    let at_fault = |(refusal, cue)| RawResolving { refusal, number: cue, reads: n as u32 };
    let (refusal, number) = case.read;
    if !RESOLVING.contains(&role) {
        refused(Refusal::NotAllowed)
    } else if day > 36_524 {
        refused(Refusal::BadDate)
    } else if n > 32_768 {
        refused(Refusal::LongText)
    } else if lengths.scratch < 65_535 {
        refused(Refusal::ShortScratch)
    } else if !PAGES.contains(&page) {
        refused(Refusal::UnknownPage)
    } else if lengths.copy < n {
        refused(Refusal::ShortBuffer)
    } else if refusal != 0 {
        RawResolving { refusal, number, reads: 0 }
    } else if lengths.entries < 3 * case.playing {
        refused(Refusal::ShortEntries)
    } else if n == 0 && case.playing > 0 {
        at_fault((12, case.first()))
    } else {
        let resolved = RawResolving { refusal, number: case.playing as u32, reads: if case.playing == 0 { 0 } else { n as u32 } };
        case.fault.map_or(resolved, at_fault)
    }
}

impl Case {
    /// The index of the first cue that plays, if one does: in these books the cues that do not play begin with the letter b and have days.
    fn first(&self) -> u32 {
        let cues = reference::cues(&self.book).expect("the book is sound");
        cues.iter().position(|cue| cue.days.is_none()).expect("a cue plays") as u32
    }
}

/// A role that may resolve and one that may not, a page of the two in turn, and an unknown one, a day and a number that is none, meet every limit beside
/// every other.
#[test]
fn every_limit_with_every_other() {
    let mut random = Random::new(61);
    let mut met = [0; 20];
    let (unknown, others) = (unknown_pages(), [vec![TRANSLATOR; 10], unknown_roles()].concat());
    let text = vec![b'a'; 40_000];
    for case in cases() {
        for n in [0usize, 2, 7, 32_767, 32_768, 32_769, 40_000] {
            for copy in [0, n.saturating_sub(1), n, n + 1] {
                for scratch in [0, 65_534, 65_535, 65_536] {
                    for entries in [0, 3, 5, 6, 7] {
                        let lengths = Lengths { copy, scratch, entries };
                        let (known, unknown) = (PAGES[random.below(2)], unknown[random.below(unknown.len())]);
                        let none = NO_DAYS[random.below(NO_DAYS.len())];
                        let (any_day, any_page) = ([DAY, none][random.below(2)], [known, unknown][random.below(2)]);
                        let [role, other] = [some_resolving(&mut random), others[random.below(others.len())]];
                        for (role, day, page) in [(role, DAY, known), (role, DAY, unknown), (role, none, any_page), (other, any_day, any_page)] {
                            let answer = compare_resolve(role, day, page, &case.book, &text[..n], lengths, random.next());
                            let due = due(role, day, page, &case, n, lengths);
                            assert_eq!(answer, due, "role {role}, day {day}, page {page}, {:?} in {n} letters, {lengths:?}", case.read);
                            met[answer.refusal as usize] += 1;
                        }
                    }
                }
            }
        }
    }
    assert!([0, 4, 5, 6, 7, 8, 9, 10, 11, 12, 14, 15, 16, 19].iter().all(|&refusal| met[refusal] > 30), "the calls met too little: {met:?}");
    report("every_limit_with_every_other", 4 * 17 * 7 * 4 * 4 * 5);
}

/// Every number that is no day, in calls that meet each other refusal besides, and in those that meet none: 16 comes first of all, with zeros. Each of
/// these calls meets its other refusal on the last day.
#[test]
fn numbers_that_are_no_day_come_first() {
    let mut random = Random::new(66);
    let text = vec![b'a'; 32_769];
    let enough = |n| Lengths::enough(n, 2);
    let mut others = Vec::new();
    for case in cases() {
        for (page, n, lengths) in [
            (1, 7, enough(7)),
            (15, 32_769, enough(32_769)),
            (1, 7, Lengths { scratch: 65_534, ..enough(7) }),
            (2, 7, enough(7)),
            (15, 7, Lengths { copy: 6, ..enough(7) }),
            (1, 7, Lengths { entries: 2, ..enough(7) }),
        ] {
            let other = compare_resolve(some_resolving(&mut random), DAY, page, &case.book, &text[..n], lengths, random.next()).refusal;
            others.push(other);
            for day in NO_DAYS {
                let answer = compare_resolve(some_resolving(&mut random), day, page, &case.book, &text[..n], lengths, random.next());
                let due = RawResolving { refusal: 16, number: 0, reads: 0 };
                assert_eq!(answer, due, "day {day}, which meets {other} too, page {page}, {:?} in {n} letters, {lengths:?}", case.read);
            }
        }
    }
    assert!([0, 4, 5, 6, 7, 8, 9, 10, 11, 12, 14, 15, 16].iter().all(|other| others.contains(other)), "the calls met too little: {others:?}");
    report("numbers_that_are_no_day_come_first", 17 * 6 * 10);
}

/// Every unknown page in calls that meet one other refusal besides: 4 and 5 come before 14, and all others after it. Each of these calls meets its other
/// refusal by both pages that there are.
#[test]
fn unknown_pages_between_scratch_and_copy() {
    let mut random = Random::new(65);
    let text = vec![b'a'; 32_769];
    let enough = |n| Lengths::enough(n, 2);
    let good = ((0, 2), None);
    let missing = Some((12, 0));
    let calls = [
        (good, 32_769, enough(32_769), 4),
        (good, 7, Lengths { scratch: 65_534, ..enough(7) }, 5),
        (good, 7, Lengths { copy: 6, ..enough(7) }, 6),
        (((7, 1), missing), 7, enough(7), 7),
        (((8, 1), missing), 7, enough(7), 8),
        (((8, 0), missing), 7, enough(7), 8),
        (((9, 1), missing), 7, enough(7), 9),
        (((16, 1), missing), 7, enough(7), 16),
        (((10, 999), missing), 7, enough(7), 10),
        (good, 7, Lengths { entries: 5, ..enough(7) }, 11),
        (((0, 2), missing), 7, enough(7), 12),
        (((0, 2), Some((12, 1))), 7, enough(7), 12),
        (((0, 2), Some((15, 1))), 7, enough(7), 15),
        (good, 7, enough(7), 0),
    ];
    for (kind, n, lengths, other) in calls {
        let case = cases().into_iter().find(|case| (case.read, case.fault) == kind).expect("there is a book of this kind");
        for page in PAGES {
            let refusal = compare_resolve(some_resolving(&mut random), DAY, page, &case.book, &text[..n], lengths, random.next()).refusal;
            assert_eq!(refusal, other, "page {page}, {kind:?} in {n} letters, {lengths:?}");
        }
        let due = RawResolving { refusal: if [4, 5].contains(&other) { other } else { 14 }, number: 0, reads: 0 };
        for page in unknown_pages() {
            let answer = compare_resolve(some_resolving(&mut random), DAY, page, &case.book, &text[..n], lengths, random.next());
            assert_eq!(answer, due, "page {page}, which meets {other} too, {kind:?} in {n} letters, {lengths:?}");
        }
    }
    report("unknown_pages_between_scratch_and_copy", 14 * (2 + 305));
}

/// What a call by an unknown page, on a number that is no day, or by a role that may not resolve, leaves, without the reference.
#[test]
fn unknown_pages_days_and_roles_write_nothing() {
    let pages = unknown_pages().into_iter().map(|page| (GUEST, DAY, page, 14));
    let roles = unknown_roles().into_iter().chain([TRANSLATOR]).map(|role| (role, DAY, 1, 19));
    for (role, day, page, refusal) in pages.chain(NO_DAYS.map(|day| (GUEST, day, 1, 16))).chain(roles) {
        let (mut copy, mut scratch, mut entries) = ([7; 20], [7; 65_600], [7; 17]);
        let mut memory = ResolverMemory { copy: &mut copy, scratch: &mut scratch, entries: &mut entries };
        let answer = resolve_raw(role, day, page, MORE, b"tralala", &mut memory);
        assert_eq!(answer, RawResolving { refusal, number: 0, reads: 0 }, "role {role}, day {day}, page {page}");
        assert_eq!((copy, scratch, entries), ([7; 20], [7; 65_600], [7; 17]), "role {role}, day {day}, page {page}");
    }
}

/// The book's cues rise, or they all are one, which is refused behind 11.
#[test]
fn every_number_of_entries() {
    let mut random = Random::new(62);
    for count in [0, 1, 2, 7, 400, 999] {
        let text = b"la".repeat(count.max(2));
        let n = text.len() as u32;
        let rising = book(&(1..=count).map(|ordinal| Cue::new(b"a", ordinal as u16, b"")).collect::<Vec<_>>());
        let resolved = (0, count as u32, n * count.div_ceil(64) as u32);
        let repeated = if count < 2 { resolved } else { (15, 1, n) };
        for (book, enough) in [(rising, resolved), (MORE.repeat(count), repeated)] {
            for entries in (0..3 * count + 3).rev().take(20).chain([0, count, 2 * count]) {
                let lengths = Lengths { entries, ..Lengths::enough(text.len(), count) };
                let page = PAGES[entries % 2];
                let answer = compare_resolve(some_resolving(&mut random), DAY, page, &book, &text, lengths, random.next());
                let expected = if entries < 3 * count { (11, 0, 0) } else { enough };
                assert_eq!((answer.refusal, answer.number, answer.reads), expected, "page {page}, {count} cues, {entries} entries");
            }
        }
    }
    report("every_number_of_entries", 2 * (6 + 9 + 12 + 3 * 23));
}

/// A song, and cues that run forward through it, each with its entries.
const SONG: &[u8; 14] = b"Tra\nLa la\nLALA";
const SONG_CUES: [(&[u8], u16, [u32; 3]); 5] =
    [(b"tra", 1, [0, 1, 1]), (b"\nla", 1, [3, 1, 4]), (b"a l", 1, [5, 2, 2]), (b"la", 3, [10, 3, 1]), (b"LA", 4, [12, 3, 3])];

/// Resolves the song's first cues, one of which is another one that is refused: what is written and what is kept, without the reference.
#[track_caller]
fn refuse_in_song(page: Page, count: usize, fault: usize, other: Cue, refusal: Refusal) {
    let mut changed: Vec<Cue> = SONG_CUES[..count].iter().map(|&(phrase, ordinal, _)| Cue::new(phrase, ordinal, b"")).collect();
    let told = format!("{page:?}, cue {fault} of {count} is {other:?}");
    changed[fault] = other;
    let (mut copy, mut scratch, mut entries) = ([7; 20], [7; 65_600], [7; 17]);
    let mut memory = ResolverMemory { copy: &mut copy, scratch: &mut scratch, entries: &mut entries };
    let answer = resolve(Role::Operator, DAY, page, &book(&changed), SONG, &mut memory);
    assert_eq!(answer, Err(BookError { refusal, cue: Some(fault) }), "{told}");
    let written: Vec<u32> = SONG_CUES[..fault].iter().flat_map(|cue| cue.2).collect();
    assert_eq!(entries[..3 * fault], written, "{told}: the earlier cues' entries");
    assert_eq!(entries[3 * fault..], [7; 17][3 * fault..], "{told}: the entries from the refused cue on");
    assert_eq!(copy, *b"tra\nla la\nlala\x07\x07\x07\x07\x07\x07", "{told}");
    assert_eq!(scratch, [0; 65_600], "{told}");
}

/// Every cue of the song's first ones as the one at fault, with how many there are.
fn each_fault(mut test: impl FnMut(Page, usize, usize)) {
    for page in Page::ALL {
        for count in 1..=SONG_CUES.len() {
            (0..count).for_each(|fault| test(page, count, fault));
        }
    }
}

/// A missing occurrence at the first, a middle and the last cue. It has no place, wherever the cue before it stands, so that it meets 12 and not 15.
#[test]
fn missing_occurrences() {
    each_fault(|page, count, fault| {
        for missing in [Cue::new(SONG_CUES[fault].0, 5, b""), Cue::new(b"so", 1, b""), Cue::new(&[b'a'; 15], 1, b"")] {
            refuse_in_song(page, count, fault, missing, Refusal::NoOccurrence);
        }
    });
}

/// A cue at the place of the cue before it, or at any lower one, at the second, a middle and the last cue. The first cue meets no 15, at whatever place.
#[test]
fn places_that_do_not_rise() {
    // One cue for each place of the song up to that of the last cue but one.
    let at = [("t", 1), ("r", 1), ("a\n", 1), ("\n", 1), ("la", 1), ("a ", 1), (" ", 1), ("LA\n", 1), ("a", 3), ("\nl", 2), ("lala", 1)];
    let at = at.map(|(phrase, ordinal)| Cue::new(phrase.as_bytes(), ordinal, b""));
    each_fault(|page, count, fault| {
        let before = if fault == 0 { 0 } else { SONG_CUES[fault - 1].2[0] as usize + 1 };
        for other in &at[..before] {
            refuse_in_song(page, count, fault, other.clone(), Refusal::NotForward);
        }
    });
    for (place, cue) in at.iter().enumerate() {
        for page in Page::ALL {
            let found = resolve_all(Role::Operator, DAY, page, &cue.bytes(), SONG)
                .map(|places| places.iter().map(|at| at.place as usize).collect::<Vec<_>>());
            assert_eq!(found, Ok(vec![place]), "{page:?}, {cue:?} alone");
        }
    }
}

/// An empty vector's slice points to no memory at all.
#[test]
fn slices_without_memory() {
    for page in Page::ALL {
        let (mut copy, mut scratch, mut entries) = (vec![], vec![7; RESOLVER_SCRATCH], vec![]);
        let mut memory = ResolverMemory { copy: &mut copy, scratch: &mut scratch, entries: &mut entries };
        assert_eq!(resolve(Role::Operator, DAY, page, &Vec::new(), &Vec::new(), &mut memory), Ok(Resolving { cues: 0, reads: 0 }));
        assert_eq!(*memory.scratch, [0; RESOLVER_SCRATCH]);
        assert_eq!(resolve(Role::Operator, DAY, page, MORE, &Vec::new(), &mut memory), Err(BookError { refusal: Refusal::ShortEntries, cue: None }));
        memory.scratch = &mut [];
        assert_eq!(
            resolve(Role::Operator, DAY, page, &Vec::new(), &Vec::new(), &mut memory),
            Err(BookError { refusal: Refusal::ShortScratch, cue: None })
        );
    }
}
