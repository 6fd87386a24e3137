//! Cue books, by the library and by the reference.

use crate::lent::{dirt, Lent, Shown};
use crate::Faults;
use libretto::{read_book_raw, read_cue_raw, read_field_raw, retitle_raw, title_raw, write_cue_raw, RawAnswer, RawCue, RawDays, RawField};
use std::fmt::Debug;

/// Calls the library on a book that is shown with what stands behind it, and compares what it gives with what the reference gives. Any difference ends
/// the test with the whole case.
fn compare_reading<T: Copy + PartialEq + Debug>(book: &[u8], behind: &[u8], case: &str, library: impl FnOnce(&[u8]) -> T, reference: T) -> T {
    let mut shown = Shown::default();
    shown.show(book, behind);
    let library = library(shown.entries());
    let mut faults = Faults::default();
    faults.when(library != reference, "library and reference differ");
    faults.when(!shown.intact(book, behind), "the book was written");
    faults.judge(|| {
        let [book_bytes, behind_bytes] = [book, behind].map(|bytes| bytes.escape_ascii().to_string());
        format!("{case}\nbook of {} bytes: \"{book_bytes}\"\nbehind it: \"{behind_bytes}\"\nlibrary {library:?}\nreference {reference:?}", book.len())
    });
    library
}

/// Reads the field that is due at a place, told by a number, by the library and by the reference, and compares all that they give. Any difference ends
/// the test with the whole case.
pub fn compare_field(role: u32, book: &[u8], behind: &[u8], place: usize, due: u32) -> RawField {
    let reference = match reference::read_due(role, book, place, due) {
        Ok((body, end)) => RawField { refusal: 0, start: body.start, len: body.len(), end },
        Err(refusal) => RawField { refusal, start: 0, len: 0, end: 0 },
    };
    compare_reading(book, behind, &format!("role {role}, place {place}, due {due}"), |book| read_field_raw(role, book, place, due), reference)
}

/// Reads the cue at a place by the library and by the reference, and compares all that they give. Any difference ends the test with the whole case.
pub fn compare_cue(role: u32, book: &[u8], behind: &[u8], place: usize) -> RawCue {
    let none = RawCue {
        refusal: 0,
        ordinal: 0,
        dated: 0,
        first: 0,
        last: 0,
        marked: 0,
        house: 0,
        phrase_start: 0,
        phrase_len: 0,
        title_start: 0,
        title_len: 0,
        end: 0,
    };
    let reference = match reference::read_cue(role, book, place) {
        Ok((reference::Cue { phrase, ordinal, title, days, house }, end)) => RawCue {
            refusal: 0,
            ordinal,
            dated: days.is_some().into(),
            first: days.map_or(0, |(first, _)| first),
            last: days.map_or(0, |(_, last)| last),
            marked: house.is_some().into(),
            house: house.unwrap_or(0).into(),
            phrase_start: phrase.start,
            phrase_len: phrase.len(),
            title_start: title.start,
            title_len: title.len(),
            end,
        },
        Err(refusal) => RawCue { refusal, ..none },
    };
    compare_reading(book, behind, &format!("role {role}, place {place}"), |book| read_cue_raw(role, book, place), reference)
}

/// The refusal and the number of an answer.
pub fn numbers(raw: RawAnswer) -> (u32, u32) {
    (raw.refusal, raw.number)
}

/// Reads the book by the library and by the reference, and compares the answers and the titles of all its cues, of the cues next to them and of cues
/// far off. What stands behind the book in memory would be read as more of it. Any difference ends the test with the whole case.
pub fn compare_book(role: u32, book: &[u8], behind: &[u8]) -> RawAnswer {
    let mut shown = Shown::default();
    shown.show(book, behind);
    let raw = read_book_raw(role, shown.entries());
    let library = numbers(raw);
    let reference = reference::read_book(role, book);

    let mut faults = Faults::default();
    faults.when(library != reference, "refusal or number differ");
    // Far off are also the indexes that are small in their lowest 8 or 16 bits.
    for cue in (0..=reference.1 + 1).chain([255, 256, 998, 999, 1000, 65_535, 65_536, 1 << 31, u32::MAX]) {
        let part = title_raw(role, shown.entries(), cue);
        let (library, reference) = ((part.start, part.len), reference::title(role, book, cue));
        faults.extend((library != reference).then(|| format!("(start, len) of title {cue}: library {library:?}, reference {reference:?}")));
    }
    faults.when(!shown.intact(book, behind), "the book was written");
    faults.judge(|| {
        format!(
            "role {role}, book of {} bytes: \"{}\"\nbehind it: \"{}\"\n(refusal, number): library {library:?}, reference {reference:?}",
            book.len(),
            book.escape_ascii(),
            behind.escape_ascii()
        )
    });
    raw
}

/// The numbers by which a cue to be written is told its days and its mark.
#[derive(Clone, Copy, Debug)]
pub struct Ending {
    pub days: RawDays,
    pub house: u32,
}

impl Ending {
    /// The numbers for an open cue without days.
    pub const NONE: Ending = Ending { days: RawDays::NONE, house: 0 };

    /// The numbers for an open cue, which has days unless `dated` is 0.
    pub fn dated(dated: u32, first: u32, last: u32) -> Ending {
        Ending { days: RawDays { dated, first, last }, house: 0 }
    }

    /// The days that they tell.
    fn days(self) -> Option<(u32, u32)> {
        match self.days.dated {
            0 => None,
            _ => Some((self.days.first, self.days.last)),
        }
    }
}

/// Calls the library and the reference on buffers that are dirty before the call, by the seed, and on two byte strings that they may only read, and
/// compares the answers and the whole buffers with guards on both sides. Any difference ends the test with the case.
fn compare_writing(
    (buffer_len, seed): (usize, u64),
    [one, other]: [&[u8]; 2],
    by_library: impl FnOnce(&mut [u8], [&[u8]; 2]) -> RawAnswer,
    by_reference: impl FnOnce(&mut [u8]) -> (u32, u32),
    case: impl FnOnce() -> String,
) -> RawAnswer {
    let dirty = dirt(buffer_len, seed);
    let (mut shown_one, mut shown_other, mut buffer) = (Shown::default(), Shown::default(), Lent::default());
    shown_one.show(one, other);
    shown_other.show(other, one);
    buffer.soil(dirty);
    let (library_buffer, reference_buffer) = buffer.lend();
    let raw = by_library(library_buffer, [shown_one.entries(), shown_other.entries()]);
    let (library, reference) = (numbers(raw), by_reference(reference_buffer));

    let mut faults = Faults::default();
    faults.when(library != reference, "refusal or number differ");
    faults.extend(buffer.difference("buffer"));
    faults.when(!shown_one.intact(one, other) || !shown_other.intact(other, one), "what may only be read was written");
    // Told without the reference: a refused call leaves all as before.
    faults.when(raw.refusal != 0 && buffer.left() != dirty, "a refused call wrote something");
    faults.judge(|| format!("buffer_len {buffer_len}, seed {seed}, {}\n(refusal, number): library {library:?}, reference {reference:?}", case()));
    raw
}

/// Bytes for a case that is told: their number and themselves.
fn told(what: &str, bytes: &[u8]) -> String {
    format!("\n{what} of {} bytes: \"{}\"", bytes.len(), bytes.escape_ascii())
}

/// Writes a cue by the library and by the reference, and compares the answers and the whole buffers. Any difference ends the test with the whole case.
pub fn compare_write(role: u32, buffer_len: usize, phrase: &[u8], ordinal: u32, title: &[u8], ending: Ending, seed: u64) -> RawAnswer {
    let Ending { days, house } = ending;
    let raw = compare_writing(
        (buffer_len, seed),
        [phrase, title],
        |buffer, [phrase, title]| write_cue_raw(role, buffer, phrase, ordinal, title, days, house),
        |buffer| reference::write_cue(role, buffer, phrase, ordinal, title, ending.days(), house),
        || format!("role {role}, ordinal {ordinal}, {ending:?}{}{}", told("phrase", phrase), told("title", title)),
    );
    // Told without the reference.
    assert!(raw.refusal == 0 || raw.number == 0, "a refused call gave a number: {raw:?}");
    raw
}

/// Has a title replaced by the library and by the reference, and compares the answers and the whole buffers. Any difference ends the test with the whole
/// case.
pub fn compare_retitle(role: u32, book: &[u8], cue: u32, title: &[u8], buffer_len: usize, seed: u64) -> RawAnswer {
    compare_writing(
        (buffer_len, seed),
        [book, title],
        |buffer, [book, title]| retitle_raw(role, book, cue, title, buffer),
        |buffer| reference::retitle(role, book, cue, title, buffer),
        || format!("role {role}, cue {cue}{}{}", told("book", book), told("title", title)),
    )
}
