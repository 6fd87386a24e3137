//! Document 01, "Cue book, folding, lines": the cue book, and "What a refused call hands back", rows 2, 3, 7 to 10 and 13. Document 02 (viii): the dates;
//! (xiv): the house field, the roles, and a title replaced.

use crate::calendar::are_refused;
use crate::roles::{permit, Act};
use std::ops::Range;

/// The fields of a cue, in their order.
#[derive(Clone, Copy, Debug, PartialEq, Eq)]
pub enum Field {
    Phrase,
    Ordinal,
    Title,
    Dates,
    House,
}

/// A cue of a book. Phrase and title are told by the parts of the book where they stand.
#[derive(Clone, Debug, PartialEq, Eq)]
pub struct Cue {
    pub phrase: Range<usize>,
    pub ordinal: u32,
    pub title: Range<usize>,
    /// The first and the last day, both included; without them it plays always.
    pub days: Option<(u32, u32)>,
    /// The house field where the cue carries it: 0 open, 1 house only; without it the cue is open.
    pub house: Option<u8>,
}

/// The number that two bytes write, high byte first.
fn number(bytes: &[u8]) -> u32 {
    256 * bytes[0] as u32 + bytes[1] as u32
}

/// The two days of a body of four bytes.
fn days_of(body: &[u8]) -> (u32, u32) {
    (number(&body[..2]), number(&body[2..]))
}

/// The body's part of the book with the place after the field, or the refusal's number.
pub fn read_field(book: &[u8], place: usize, due: Field) -> Result<(Range<usize>, usize), u32> {
    let (due_tag, allowed) = match due {
        Field::Phrase => (0x01, 1..=1024),
        Field::Ordinal => (0x02, 2..=2),
        Field::Title => (0x03, 0..=200),
        Field::Dates => (0x04, 4..=4),
        Field::House => (0x05, 1..=1),
    };
    // Three header bytes present; a place past the book's end meets 7.
    let Some(&[tag, high, low, ..]) = book.get(place..) else {
        return Err(7);
    };
    if tag != due_tag {
        return Err(8);
    }
    let length = 256 * high as usize + low as usize;
    if !allowed.contains(&length) {
        return Err(9);
    }
    let (start, after) = (place + 3, place + 3 + length);
    if after > book.len() {
        return Err(7);
    }
    if due == Field::Ordinal && book[start..after] == [0, 0] {
        return Err(9);
    }
    // Refusal 16 is tested where ordinal 0 is.
    if due == Field::Dates {
        let (first, last) = days_of(&book[start..after]);
        if are_refused(first, last) {
            return Err(16);
        }
    }
    // Any value but 0 and 1 meets 9.
    if due == Field::House && book[start] > 1 {
        return Err(9);
    }
    Ok((start..after, after))
}

/// [`read_field`] by a role, with the due field told by its tag. No byte is the tag of another number: three header bytes present (7), tag (8).
pub fn read_due(role: u32, book: &[u8], place: usize, due: u32) -> Result<(Range<usize>, usize), u32> {
    permit(role, Act::Other)?;
    match due {
        0x01 => read_field(book, place, Field::Phrase),
        0x02 => read_field(book, place, Field::Ordinal),
        0x03 => read_field(book, place, Field::Title),
        0x04 => read_field(book, place, Field::Dates),
        0x05 => read_field(book, place, Field::House),
        _ if place > book.len() || book.len() - place < 3 => Err(7),
        _ => Err(8),
    }
}

/// [`cue_at`] by a role.
pub fn read_cue(role: u32, book: &[u8], place: usize) -> Result<(Cue, usize), u32> {
    permit(role, Act::Other)?;
    cue_at(book, place)
}

/// The cue that starts at this place with the place after it, or the number of the refusal that one of its fields meets.
fn cue_at(book: &[u8], place: usize) -> Result<(Cue, usize), u32> {
    let (phrase, place) = read_field(book, place, Field::Phrase)?;
    let (ordinal, place) = read_field(book, place, Field::Ordinal)?;
    let (title, place) = read_field(book, place, Field::Title)?;
    let ordinal = number(&book[ordinal]);
    let mut cue = Cue { phrase, ordinal, title, days: None, house: None };
    let mut end = place;
    // A byte 0x04 after a title is that cue's, and so is a byte 0x05 after title or dates; any other starts the next.
    if book.get(end) == Some(&0x04) {
        let (dates, after) = read_field(book, end, Field::Dates)?;
        cue.days = Some(days_of(&book[dates]));
        end = after;
    }
    if book.get(end) == Some(&0x05) {
        let (value, after) = read_field(book, end, Field::House)?;
        cue.house = Some(book[value.start]);
        end = after;
    }
    Ok((cue, end))
}

/// All cues of a book, or the refusal's number with the cue's index from 0.
pub fn cues(book: &[u8]) -> Result<Vec<Cue>, (u32, u32)> {
    let mut cues = Vec::new();
    let mut place = 0;
    while place < book.len() {
        // A book is 0 to 999 cues and nothing after.
        if cues.len() == 999 {
            return Err((10, 999));
        }
        let (cue, after) = cue_at(book, place).map_err(|refusal| (refusal, cues.len() as u32))?;
        cues.push(cue);
        place = after;
    }
    Ok(cues)
}

/// 0 and the number of cues, or the refusal's number and the cue's index; 19 and 0 for a role that may not read it.
pub fn read_book(role: u32, book: &[u8]) -> (u32, u32) {
    if let Err(refusal) = permit(role, Act::Other) {
        return (refusal, 0);
    }
    match cues(book) {
        Ok(cues) => (0, cues.len() as u32),
        Err(refused) => refused,
    }
}

/// Start and length of the part of the book where a cue's title stands. Where the role may not have it, and where the book is refused or lacks the cue,
/// it is the empty part at the book's front.
pub fn title(role: u32, book: &[u8], cue: u32) -> (usize, usize) {
    if permit(role, Act::Other).is_err() {
        return (0, 0);
    }
    match cues(book).unwrap_or_default().get(cue as usize) {
        Some(cue) => (cue.title.start, cue.title.len()),
        None => (0, 0),
    }
}

/// The two bytes of a number, high byte first.
fn high_byte_first(number: u32) -> [u8; 2] {
    [(number / 256) as u8, (number % 256) as u8]
}

/// Puts these bytes at the buffer's start: 0 and their number, or 13 and 0 where it has no room for them.
fn put_at_start(buffer: &mut [u8], bytes: &[u8]) -> (u32, u32) {
    if bytes.len() > buffer.len() {
        return (13, 0);
    }
    buffer[..bytes.len()].copy_from_slice(bytes);
    (0, bytes.len() as u32)
}

/// Writes the book anew into the buffer with the title of the cue of this index replaced: 0 and its length, or the refusal's number with the cue of a book
/// fault, or with 0. A refused call writes nothing.
pub fn retitle(role: u32, book: &[u8], cue: u32, title: &[u8], buffer: &mut [u8]) -> (u32, u32) {
    if let Err(refusal) = permit(role, Act::Retitle) {
        return (refusal, 0);
    }
    let cues = match cues(book) {
        Ok(cues) => cues,
        Err(refused) => return refused,
    };
    if title.len() > 200 {
        return (9, 0);
    }
    let Some(cue) = cues.get(cue as usize) else {
        return (12, 0);
    };
    let old = &cue.title;
    put_at_start(buffer, &[&book[..old.start - 2], &high_byte_first(title.len() as u32), title, &book[old.end..]].concat())
}

/// Puts a cue at the buffer's start, with its days if it has them, house only or open: 0 and its length, or the refusal's number and 0. A refused call
/// writes nothing.
pub fn write_cue(role: u32, buffer: &mut [u8], phrase: &[u8], ordinal: u32, title: &[u8], days: Option<(u32, u32)>, house: u32) -> (u32, u32) {
    if let Err(refusal) = permit(role, Act::Other) {
        return (refusal, 0);
    }
    // The days are this call's own date, and 16 is tested first of all for them.
    if days.is_some_and(|(first, last)| are_refused(first, last)) {
        return (16, 0);
    }
    if phrase.is_empty() {
        return (2, 0);
    }
    if phrase.len() > 1024 {
        return (3, 0);
    }
    if !(1..=65_535).contains(&ordinal) || title.len() > 200 || house > 1 {
        return (9, 0);
    }
    let mut cue = Vec::new();
    let mut put = |tag: u8, body: &[u8]| {
        cue.push(tag);
        cue.extend(high_byte_first(body.len() as u32));
        cue.extend(body);
    };
    put(0x01, phrase);
    put(0x02, &high_byte_first(ordinal));
    put(0x03, title);
    if let Some((first, last)) = days {
        put(0x04, &[high_byte_first(first), high_byte_first(last)].concat());
    }
    // The field is written for house only.
    if house == 1 {
        put(0x05, &[1]);
    }
    put_at_start(buffer, &cue)
}
