//! Cue books: reading one, and resolving its cues.

use crate::clock::{rounds, Side};
use crate::goals;
use crate::lent::Lent;
use crate::random::Random;
use crate::statistics::least;
use crate::texts::{Family, Text};
use crate::twins::{Build, BUILDS};
use libretto::{find_raw, fold_text, read_book_raw, resolve_raw, retitle_raw, write_cue};
use libretto::{Days, Method, Page, ResolverMemory, Role, CUES_MAX, CUE_MAX, TEXT_MAX};
use std::hint::black_box;

/// The page that cues are resolved by: the verse is in ISO 8859-1.
const PAGE: Page = Page::Latin1;

/// The day that cues are resolved for, on which all of them play, and the day after it, on which those do not that have days.
pub const DAY: u32 = 9569;
const NEXT_DAY: u32 = DAY + 1;

/// The days of every second cue.
const DAYS: Days = Days { first: 9556, last: DAY };

/// Of so many cues the last is house only.
const HOUSE: usize = 3;

/// A role and a day that a book is resolved for.
#[derive(Clone, Copy, Debug)]
struct Evening {
    role: Role,
    day: u32,
}

/// The evening on which all cues are resolved.
const ALL: Evening = Evening { role: Role::Operator, day: DAY };

/// Evenings on which all cues are resolved, and on which some are passed over, for their days, as house cues for a guest, or for both.
const EVENINGS: [Evening; 4] =
    [ALL, Evening { day: NEXT_DAY, ..ALL }, Evening { role: Role::Guest, day: DAY }, Evening { role: Role::Guest, day: NEXT_DAY }];

/// The cue that is given another title where that is timed, in the middle of a book, and the title.
const RETITLED: usize = CUES_MAX / 2;
const TITLE: &[u8] = b"Reviens, reviens, ma barque, reviens avant le jour !";

/// The text that the cues stand in, as it is and folded.
pub struct Libretto {
    /// Its letters.
    pub letters: Vec<u8>,
    folded: Vec<u8>,
}

impl Libretto {
    /// Verse in full length.
    pub fn new() -> Libretto {
        let letters = Text::new(Family::Verse, TEXT_MAX).letters;
        let mut folded = vec![0; letters.len()];
        fold_text(PAGE, &letters, &mut folded);
        Libretto { letters, folded }
    }

    /// The books of this text: of short phrases, of a few words to a line, of mixed and of long ones. Those of long ones have no goal: their groups are
    /// of a few cues, and each reads every letter, where a find leaves most of them out.
    pub fn books(&self) -> Vec<Book> {
        let short = Book::new("short, 2 to 8", Some(goals::SHORT_BOOK), 2, 8, self);
        let lines = Book::new("lines, 8 to 40", Some(goals::MIXED_BOOK), 8, 40, self);
        let mixed = Book::new("mixed, 2 to 200", Some(goals::MIXED_BOOK), 2, 200, self);
        vec![short, lines, mixed, Book::new("long, 200 to 1,000", None, 200, 1000, self)]
    }
}

/// A book of 999 cues that stand in the text, evenly spread and rising, as the cues of a performance do. Every second one has days, and every third a house
/// mark, so that the reading of these is in its times.
pub struct Book {
    /// The lengths of its phrases, in words.
    pub phrases: &'static str,
    /// The most time of a resolve, in times of as many full finds by FJS in C, where there is such a goal.
    pub goal: Option<f64>,
    /// The book itself.
    pub bytes: Vec<u8>,
    folded: Vec<Vec<u8>>,
    ordinals: Vec<usize>,
}

impl Book {
    fn new(phrases: &'static str, goal: Option<f64>, least: usize, most: usize, text: &Libretto) -> Book {
        let mut random = Random::new(most as u64);
        let mut book = Book { phrases, goal, bytes: Vec::new(), folded: Vec::new(), ordinals: Vec::new() };
        for cue in 0..CUES_MAX {
            let length = random.between(least, most);
            let place = cue * (TEXT_MAX - most) / CUES_MAX;
            let folded = &text.folded[place..place + length];
            let ordinal = text.folded[..place + length].windows(length).filter(|&window| window == folded).count();
            let title = &text.letters[place..place + length.min(random.between(0, 60))];
            book.push(&text.letters[place..place + length], ordinal, title);
            book.folded.push(folded.to_vec());
        }
        book
    }

    fn push(&mut self, phrase: &[u8], ordinal: usize, title: &[u8]) {
        let mut cue = [0; CUE_MAX];
        let number = u32::try_from(ordinal).expect("an ordinal is at most the text's length");
        let index = self.ordinals.len();
        let (days, house) = ((index % 2 == 1).then_some(DAYS), index % HOUSE == HOUSE - 1);
        let length = write_cue(Role::Operator, &mut cue, phrase, number, title, days, house).expect("the cue keeps the limits");
        self.bytes.extend_from_slice(&cue[..length]);
        self.ordinals.push(ordinal);
    }

    /// The groups that its cues are resolved in, all of which play.
    pub fn groups(&self) -> usize {
        reference::groups(&reference::cues(&self.bytes).expect("the book keeps the limits")).len()
    }

    /// Ends the program unless all sides agree on this book.
    pub fn check(&self, text: &Libretto, lent: &mut Lent) {
        check_reading(&self.bytes, (0, CUES_MAX as u32));
        self.check_damaged();
        self.check_retitling();
        let entries = self.check_resolving(text, lent);
        for (cue, (phrase, ordinal)) in self.folded.iter().zip(&self.ordinals).enumerate() {
            let place = entries[3 * cue];
            find_raw(Method::Fjs.number(), phrase, &text.folded, &mut lent.scratch, &mut lent.list);
            assert_eq!(lent.list[ordinal - 1], place, "{}: cue {cue} by a find of the library", self.phrases);
            for build in &BUILDS {
                build.find(Method::Fjs, phrase, &text.folded, lent);
                assert_eq!(lent.list[ordinal - 1], place, "{}: cue {cue} by a find in C", self.phrases);
            }
        }
    }

    /// Readers that skip a test would be faster: every shortened book and every changed byte must be refused alike.
    fn check_damaged(&self) {
        let front = &self.bytes[..self.bytes.len().min(400)];
        for length in 0..front.len() {
            let mut changed = front.to_vec();
            changed[length] ^= 3;
            // A title becomes dates, and dates a byte that begins no cue; and days come after the last one.
            let mut other = front.to_vec();
            other[length] ^= 0x87;
            // Dates become a mark, and a mark dates.
            let mut marked = front.to_vec();
            marked[length] ^= 1;
            for damaged in [&front[..length], &changed, &other, &marked] {
                let raw = read_book_raw(Role::Operator.number(), damaged);
                check_reading(damaged, (raw.refusal, raw.number));
            }
        }
    }

    /// A title in each of some cues, one past the last, one that is too long, and one in a damaged book.
    fn check_retitling(&self) {
        let damaged = &self.bytes[..self.bytes.len() - 1];
        let cues = [0, 1, 2, RETITLED, CUES_MAX - 1].map(|cue| (&self.bytes[..], cue, TITLE));
        let refused = [(&self.bytes[..], CUES_MAX, TITLE), (&self.bytes, 0, &[b't'; 201]), (damaged, 0, TITLE)];
        for (book, cue, title) in cues.into_iter().chain(refused) {
            self.check_title("the reference", book, cue as u32, title, |cue, buffer| {
                reference::retitle(Role::Translator.number(), book, cue, title, buffer)
            });
            for build in &BUILDS {
                self.check_title("C", book, cue as u32, title, |cue, buffer| {
                    let given = build.retitle(book, cue, title, buffer);
                    (given.refusal, given.number)
                });
            }
        }
    }

    /// Ends the program unless this side gives a cue of this book this title as the library does, in a buffer that is dirty before.
    fn check_title(&self, side: &str, book: &[u8], cue: u32, title: &[u8], retitle: impl Fn(u32, &mut [u8]) -> (u32, u32)) {
        let (mut library, mut other) = (vec![7; book.len() + title.len()], vec![7; book.len() + title.len()]);
        let raw = retitle_raw(Role::Translator.number(), book, cue, title, &mut library);
        let answer = retitle(cue, &mut other);
        let told = format!("phrases {}, a title of {} bytes for cue {cue}", self.phrases, title.len());
        assert_eq!((raw.refusal, raw.number), answer, "{told}: the library (left) and {side} answer differently");
        assert!(library == other, "{told}: the library and {side} write different books");
    }

    /// The book's bytes with this cue in place of the one behind it too, so that its places rise up to this cue and no further.
    fn with_cue_twice(&self, cue: usize) -> Vec<u8> {
        let [start, end, rest] = [cue, cue + 1, cue + 2].map(|cues| self.end_of(cues));
        [&self.bytes[..end], &self.bytes[start..end], &self.bytes[rest..]].concat()
    }

    /// The place after so many cues.
    fn end_of(&self, cues: usize) -> usize {
        (0..cues).fold(0, |place, _| reference::read_cue(Role::Operator.number(), &self.bytes, place).expect("the book keeps the limits").1)
    }

    /// The entries of all cues, which library, twins and reference must write alike. A side that is wrong where a cue is missing, does not run forward or
    /// is passed over could be faster, so they must agree on the text's first half too, where the later cues are not, on the book with a cue twice, on the
    /// next day, and for a guest.
    fn check_resolving(&self, text: &Libretto, lent: &mut Lent) -> Vec<u32> {
        let twice = self.with_cue_twice(CUES_MAX / 2);
        for (book, letters) in [(&self.bytes, &text.letters[..TEXT_MAX / 2]), (&twice, &text.letters), (&self.bytes, &text.letters)] {
            for evening in EVENINGS {
                self.check_side("the reference", evening, book, letters, |memory| {
                    let lent = reference::Lent { copy: memory.copy, scratch: memory.scratch, entries: memory.entries };
                    reference::resolve(evening.role.number(), evening.day, PAGE.number(), book, letters, lent)
                });
                for build in &BUILDS {
                    self.check_side("C", evening, book, letters, |memory| resolve_by_twin(build, evening, book, letters, memory));
                }
            }
        }
        let raw = resolve_raw(ALL.role.number(), ALL.day, PAGE.number(), &self.bytes, &text.letters, &mut lent.for_resolver());
        let due = (0, CUES_MAX as u32, (TEXT_MAX * self.groups()) as u32);
        assert_eq!((raw.refusal, raw.number, raw.reads), due, "{}: the library resolves all cues", self.phrases);
        lent.for_resolver().entries.to_vec()
    }

    /// Ends the program unless this side answers as the library does on this evening for this book, its own or one made of it, and these letters, and
    /// leaves the same memory, which is dirty before.
    fn check_side(&self, side: &str, evening: Evening, book: &[u8], letters: &[u8], resolve: impl Fn(&mut ResolverMemory<'_>) -> (u32, u32, u32)) {
        let dirt = Lent::dirty(&mut Random::new(3));
        let (mut library, mut other) = (dirt.clone(), dirt);
        let raw = resolve_raw(evening.role.number(), evening.day, PAGE.number(), book, letters, &mut library.for_resolver());
        let answer = resolve(&mut other.for_resolver());
        let told = format!("phrases {}, {} letters, {evening:?}", self.phrases, letters.len());
        assert_eq!((raw.refusal, raw.number, raw.reads), answer, "{told}: the library (left) and {side} answer differently");
        assert!(library == other, "{told}: the library and {side} leave different memory");
    }
}

fn resolve_by_twin(build: &Build, evening: Evening, book: &[u8], letters: &[u8], memory: &mut ResolverMemory<'_>) -> (u32, u32, u32) {
    let given = build.resolve(evening.role, evening.day, PAGE, book, letters, memory);
    (given.refusal, given.number, given.reads)
}

/// Ends the program unless the library, the reference and every build of the twin give this answer.
fn check_reading(book: &[u8], answer: (u32, u32)) {
    let raw = read_book_raw(Role::Operator.number(), book);
    assert_eq!((raw.refusal, raw.number), answer, "the library reads a book of {} bytes", book.len());
    assert_eq!(reference::read_book(Role::Operator.number(), book), answer, "the reference reads a book of {} bytes", book.len());
    for build in &BUILDS {
        let given = build.read_book(book);
        assert_eq!((given.refusal, given.number), answer, "C reads a book of {} bytes", book.len());
    }
}

/// The sides of one book.
pub struct Contest<'a> {
    reading: Side<'a>,
    twins_reading: Vec<Side<'a>>,
    retitling: Side<'a>,
    twins_retitling: Vec<Side<'a>>,
    resolving: Side<'a>,
    twins_resolving: Vec<Side<'a>>,
    twins_finding: Vec<Side<'a>>,
}

impl<'a> Contest<'a> {
    /// The book read, a title of it replaced, its cues resolved, and as many full finds of the folded phrases in the folded text.
    pub fn new(book: &'a Book, text: &'a Libretto) -> Contest<'a> {
        let reading = Side::new(|_| {
            black_box(read_book_raw(Role::Operator.number(), &book.bytes));
        });
        let retitling = Side::new(|lent| {
            black_box(retitle_raw(Role::Translator.number(), &book.bytes, RETITLED as u32, TITLE, &mut lent.book));
        });
        let resolving = Side::new(|lent| {
            black_box(resolve_raw(ALL.role.number(), ALL.day, PAGE.number(), &book.bytes, &text.letters, &mut lent.for_resolver()));
        });
        let twins_resolving = |build: &'static Build| {
            Side::new(move |lent| {
                black_box(build.resolve(ALL.role, ALL.day, PAGE, &book.bytes, &text.letters, &mut lent.for_resolver()));
            })
        };
        let twins_resolving = BUILDS.iter().map(twins_resolving).collect();
        Contest {
            reading,
            twins_reading: twins_reading(book),
            retitling,
            twins_retitling: twins_retitling(book),
            resolving,
            twins_resolving,
            twins_finding: twins_finding(book, text),
        }
    }

    /// So many rounds of all sides.
    pub fn run(&mut self, count: usize, lent: &mut Lent) {
        let reading = std::iter::once(&mut self.reading).chain(&mut self.twins_reading);
        let retitling = std::iter::once(&mut self.retitling).chain(&mut self.twins_retitling);
        let resolving = std::iter::once(&mut self.resolving).chain(&mut self.twins_resolving);
        rounds(&mut reading.chain(retitling).chain(resolving).chain(&mut self.twins_finding).collect::<Vec<_>>(), count, lent);
    }

    /// The best times so far.
    pub fn times(&self) -> BookTimes {
        BookTimes {
            reading: self.reading.best(),
            twin_reading: least(self.twins_reading.iter().map(Side::best)),
            retitling: self.retitling.best(),
            twin_retitling: least(self.twins_retitling.iter().map(Side::best)),
            resolving: self.resolving.best(),
            twin_resolving: least(self.twins_resolving.iter().map(Side::best)),
            twin_finding: least(self.twins_finding.iter().map(Side::best)),
        }
    }
}

fn twins_reading(book: &Book) -> Vec<Side<'_>> {
    let side = |build: &'static Build| {
        Side::new(move |_| {
            black_box(build.read_book(&book.bytes));
        })
    };
    BUILDS.iter().map(side).collect()
}

fn twins_retitling(book: &Book) -> Vec<Side<'_>> {
    let side = |build: &'static Build| {
        Side::new(move |lent| {
            black_box(build.retitle(&book.bytes, RETITLED as u32, TITLE, &mut lent.book));
        })
    };
    BUILDS.iter().map(side).collect()
}

fn twins_finding<'a>(book: &'a Book, text: &'a Libretto) -> Vec<Side<'a>> {
    let side = |build: &'static Build| {
        Side::new(move |lent| {
            for phrase in &book.folded {
                black_box(build.find(Method::Fjs, phrase, &text.folded, lent));
            }
        })
    };
    BUILDS.iter().map(side).collect()
}

/// The times of one book, in nanoseconds.
pub struct BookTimes {
    /// The whole book read by the library.
    pub reading: f64,
    /// The same by the best build of the C twin.
    pub twin_reading: f64,
    /// The title of the cue in the middle replaced by the library.
    pub retitling: f64,
    /// The same by the best build of the C twin.
    pub twin_retitling: f64,
    /// All cues resolved by the library.
    pub resolving: f64,
    /// The same by the best build of the C twin.
    pub twin_resolving: f64,
    /// A full find for each cue by the best build of the FJS twin.
    pub twin_finding: f64,
}

#[cfg(test)]
mod tests {
    use super::*;

    /// The front of the verse, which has the first cues, and the book of short phrases.
    fn front() -> (Vec<u8>, Book) {
        let text = Libretto::new();
        let book = text.books().swap_remove(0);
        (text.letters[..3000].to_vec(), book)
    }

    #[test]
    fn twins_resolve_as_the_library_does() {
        let (letters, book) = front();
        // A cue is missing; and the second cue, the last of a group and the first of the next one do not run forward; on the other evenings these are
        // others.
        let books = [0, 62, 63, 126, 127].map(|cue| book.with_cue_twice(cue)).into_iter().chain([book.bytes.clone()]);
        let calls = books.flat_map(|bytes| EVENINGS.map(|evening| (bytes.clone(), evening)));
        for ((bytes, evening), build) in calls.zip(BUILDS.iter().cycle()) {
            book.check_side("C", evening, &bytes, &letters, |memory| resolve_by_twin(build, evening, &bytes, &letters, memory));
        }
    }

    #[test]
    fn twins_pass_over_cues() {
        let (letters, book) = front();
        // The front has the cues of 80 or more. Of these every second one plays on the next day, and two of three are a guest's, so that the first missing
        // one is in another group, and a guest's number is two thirds of the operator's.
        let answers = EVENINGS.map(|evening| {
            let mut lent = Lent::dirty(&mut Random::new(5));
            resolve_by_twin(&BUILDS[0], evening, &book.bytes, &letters, &mut lent.for_resolver())
        });
        assert!(answers.iter().all(|&(refusal, cue, _)| refusal == 12 && cue > 50), "{answers:?}");
        assert_eq!(answers.map(|(_, _, reads)| reads), [2 * 3000, 3000, 3000, 3000], "a group, and parts of one");
        assert!(answers[0].1 > answers[2].1 && answers[1].1 > answers[3].1, "{answers:?}");
        // A book of which no cue is resolved is of no group: the second one, which is open and dated, and the third, which is house only and undated.
        for (cue, evening, answer) in [
            (1, ALL, (0, 1, 3000)),
            (1, Evening { role: Role::Guest, ..ALL }, (0, 1, 3000)),
            (1, Evening { day: NEXT_DAY, ..ALL }, (0, 0, 0)),
            (1, Evening { day: DAYS.first - 1, ..ALL }, (0, 0, 0)),
            (2, ALL, (0, 1, 3000)),
            (2, Evening { role: Role::Guest, ..ALL }, (0, 0, 0)),
        ] {
            let bytes = &book.bytes[book.end_of(cue)..book.end_of(cue + 1)];
            for build in &BUILDS {
                book.check_side("C", evening, bytes, &letters, |memory| {
                    let given = resolve_by_twin(build, evening, bytes, &letters, memory);
                    assert_eq!(given, answer, "cue {cue}, {evening:?}");
                    given
                });
            }
        }
    }

    #[test]
    fn twins_retitle_as_the_library_does() {
        let (_, book) = front();
        book.check_retitling();
    }

    #[test]
    fn twins_read_damaged_fields_as_the_library_does() {
        let (_, book) = front();
        book.check_damaged();
        // The last field of the second cue is its dates, and that of the third its mark; each byte of these is any other.
        let (dates, mark) = (book.end_of(2), book.end_of(3));
        let mut refusals = Vec::new();
        for place in (dates - 7..dates).chain(mark - 4..mark) {
            for byte in 0..=255 {
                let mut changed = book.bytes[..book.end_of(4)].to_vec();
                changed[place] = byte;
                let raw = read_book_raw(Role::Operator.number(), &changed);
                check_reading(&changed, (raw.refusal, raw.number));
                refusals.push(raw.refusal);
            }
        }
        assert!([0, 8, 9, 16].iter().all(|refusal| refusals.contains(refusal)), "the damages met too little");
    }

    #[test]
    fn a_cue_twice_does_not_run_forward() {
        let (letters, book) = front();
        for cue in [0, 1, 62, 63, 64] {
            let mut lent = Lent::dirty(&mut Random::new(4));
            let answer = resolve_by_twin(&BUILDS[0], ALL, &book.with_cue_twice(cue), &letters, &mut lent.for_resolver());
            let groups = if cue + 1 < 64 { 1 } else { 2 };
            assert_eq!(answer, (15, cue as u32 + 1, 3000 * groups), "cue {cue} twice");
        }
    }

    #[test]
    #[should_panic(expected = "a side that counts no reads answer differently")]
    fn a_wrong_answer_is_found() {
        let (letters, book) = front();
        book.check_side("a side that counts no reads", ALL, &book.bytes, &letters, |memory| {
            let (refusal, number, _) = resolve_by_twin(&BUILDS[0], ALL, &book.bytes, &letters, memory);
            (refusal, number, 0)
        });
    }

    #[test]
    #[should_panic(expected = "a side that does not clear its scratch leave different memory")]
    fn wrong_memory_is_found() {
        let (letters, book) = front();
        book.check_side("a side that does not clear its scratch", ALL, &book.bytes, &letters, |memory| {
            let answer = resolve_by_twin(&BUILDS[0], ALL, &book.bytes, &letters, memory);
            memory.scratch[40_000] = 1;
            answer
        });
    }
}
