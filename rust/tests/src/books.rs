//! Cue books for the tests, well formed and not.

use crate::roles::GUEST;
use crate::Random;

/// The most bytes that a phrase and a title have, the most cues that a book has, and the last day.
pub const PHRASE: usize = 1024;
pub const TITLE: usize = 200;
pub const CUES: usize = 999;
pub const LAST_DAY: u16 = 36_524;

/// A whole cue, for a read past a book's end to go on with.
pub const MORE: &[u8] = b"\x01\x00\x01a\x02\x00\x02\x00\x01\x03\x00\x00";

/// The same with dates.
pub const MORE_DATED: &[u8] = b"\x01\x00\x01a\x02\x00\x02\x00\x01\x03\x00\x00\x04\x00\x04\x00\x01\x01\x00";

/// The same with dates and a house mark.
pub const MORE_MARKED: &[u8] = b"\x01\x00\x01a\x02\x00\x02\x00\x01\x03\x00\x00\x04\x00\x04\x00\x01\x01\x00\x05\x00\x01\x01";

/// The house marks that a cue may have: none, that of an open cue, and that of one that is house only.
pub const MARKS: [Option<u8>; 3] = [None, Some(0), Some(1)];

/// A cue in its parts. The days are the first and the last one; a cue without them plays always. The mark is the body of the house field; a cue without it
/// is open.
#[derive(Clone, Debug, PartialEq, Eq)]
pub struct Cue {
    pub phrase: Vec<u8>,
    pub ordinal: u16,
    pub title: Vec<u8>,
    pub days: Option<(u16, u16)>,
    pub mark: Option<u8>,
}

impl Cue {
    /// A cue without days and without a mark.
    pub fn new(phrase: &[u8], ordinal: u16, title: &[u8]) -> Cue {
        Cue { phrase: phrase.to_vec(), ordinal, title: title.to_vec(), days: None, mark: None }
    }

    /// The cue with these days, which need not be in the calendar.
    pub fn on(self, first: u16, last: u16) -> Cue {
        Cue { days: Some((first, last)), ..self }
    }

    /// The cue with this house mark, which need not be one.
    pub fn marked(self, mark: u8) -> Cue {
        Cue { mark: Some(mark), ..self }
    }

    /// Whether the cue is house only.
    pub fn is_house(&self) -> bool {
        self.mark == Some(1)
    }

    /// The cue as it stands in a book.
    pub fn bytes(&self) -> Vec<u8> {
        self.fields().concat()
    }

    /// The cue's fields as they stand in a book: phrase, ordinal, title, and its dates and its mark if it has them.
    pub fn fields(&self) -> Vec<Vec<u8>> {
        let whole = |tag, body: &[u8]| field(tag, body.len(), body);
        let mut fields = vec![whole(1, &self.phrase), whole(2, &self.ordinal.to_be_bytes()), whole(3, &self.title)];
        fields.extend(self.days.map(|(first, last)| whole(4, &[first.to_be_bytes(), last.to_be_bytes()].concat())));
        fields.extend(self.mark.map(|mark| whole(5, &[mark])));
        fields
    }

    /// A random cue, every second one with days, and with any mark. Its bytes are of six kinds at most, in half of the cues those that headers are made of.
    pub fn random(random: &mut Random) -> Cue {
        let kinds = if random.below(2) == 0 { vec![0, 1, 2, 3, 4, 5] } else { random.word(256, 6) };
        let mut body = |most: usize, usual: usize| {
            let length = if random.below(20) == 0 { random.between(0, most) } else { random.between(0, usual) };
            (0..length).map(|_| kinds[random.below(6)]).collect::<Vec<u8>>()
        };
        let phrase = [&[kinds[0]], &body(PHRASE - 1, 6)[..]].concat();
        let title = body(TITLE, 4);
        let largest = [3, 300, 65_535][random.below(3)];
        let ordinal = random.between(1, largest) as u16;
        let days = (random.below(2) == 0).then(|| random_days(random));
        Cue { phrase, ordinal, title, days, mark: MARKS[random.below(3)] }
    }
}

/// Days of the calendar, often at its ends, and often one day alone.
pub fn random_days(random: &mut Random) -> (u16, u16) {
    let mut day = || [0, 256, LAST_DAY - 1, LAST_DAY, random.between(0, LAST_DAY.into()) as u16, random.below(300) as u16][random.below(6)];
    let (one, other) = (day(), day());
    (one.min(other), one.max(other))
}

/// How many of the first so many cues of a book are resolved for this role on this day. For a guest these are so many open ones. The book is sound, and
/// nothing of it is tested.
pub fn resolved_of(role: u32, book: &[u8], day: u32, cues: usize) -> usize {
    let number = |place: usize| 256 * usize::from(book[place]) + usize::from(book[place + 1]);
    let (mut place, mut counted, mut resolved) = (0, 0, 0);
    while counted < cues {
        for _ in 0..3 {
            place += 3 + number(place + 1);
        }
        let dated = book.get(place) == Some(&4);
        let plays = !dated || (number(place + 3)..=number(place + 5)).contains(&(day as usize));
        place += if dated { 7 } else { 0 };
        let marked = book.get(place) == Some(&5);
        let seen = !(role == GUEST && marked && book[place + 3] == 1);
        place += if marked { 4 } else { 0 };
        (counted, resolved) = (counted + usize::from(seen), resolved + usize::from(seen && plays));
    }
    resolved
}

/// Books that differ in what a damage of one byte does: short ones, one with bodies that read as fields, one whose lengths and ordinals need their
/// high bytes, the longest cue; with days, at their ends and behind the last title, and bodies that read as dates; and the same with marks.
pub fn samples() -> [Vec<Cue>; 11] {
    let dates: &[u8] = b"\x04\x00\x04\x00\x01\x00\x02";
    let mark: &[u8] = b"\x05\x00\x01\x01";
    [
        vec![Cue::new(b"la", 2, b"No")],
        vec![Cue::new(b"a", 1, b""), Cue::new(b"\xc9t\xe9", 65_535, b"x"), Cue::new(b"\n", 256, b"end")],
        vec![Cue::new(b"\x02\x00\x02\x00\x01\x03\x00\x00", 0x0203, MORE), Cue::new(MORE, 0x0102, b"\x03\x00\x00")],
        vec![Cue::new(&[7; 258], 0x0100, &[3; 199]), Cue::new(b"b", 1, b"")],
        vec![Cue::new(&[1; PHRASE], 65_535, &[2; TITLE])],
        vec![Cue::new(b"la", 2, b"No").on(0x0102, 0x8e00), Cue::new(b"a", 1, b""), Cue::new(b"b", 1, b"x").on(LAST_DAY, LAST_DAY)],
        vec![Cue::new(dates, 0x0400, dates), Cue::new(b"\x04", 4, b"\x04").on(0, 0), Cue::new(b"a", 1, &dates[1..]).on(0x0400, 0x0404)],
        vec![Cue::new(&[4; 300], 0x0404, &[4; TITLE]).on(0, LAST_DAY)],
        vec![Cue::new(b"la", 2, b"No").on(0x0102, 0x8e00).marked(1), Cue::new(b"a", 1, b"").marked(0), Cue::new(b"b", 1, b"x").marked(1)],
        vec![Cue::new(mark, 0x0500, mark), Cue::new(b"\x05", 5, b"\x05").marked(0), Cue::new(b"a", 1, &mark[1..]).on(0x0500, 0x0501).marked(0)],
        vec![Cue::new(&[5; 300], 0x0505, &[5; 20]).on(0x0505, 0x0505).marked(1)],
    ]
}

/// Runs a test on each way to change one byte of a book, and leaves the book as it was.
pub fn each_damage(book: &mut [u8], mut test: impl FnMut(&[u8])) {
    for place in 0..book.len() {
        for _ in 1..=255 {
            book[place] = book[place].wrapping_add(1);
            test(book);
        }
        book[place] = book[place].wrapping_add(1);
    }
}

/// A field with any tag, any length in its header, and any body.
pub fn field(tag: u8, length: usize, body: &[u8]) -> Vec<u8> {
    let length = u16::try_from(length).expect("a header holds two bytes of length");
    [&[tag], &length.to_be_bytes()[..], body].concat()
}

/// The book of these cues.
pub fn book(cues: &[Cue]) -> Vec<u8> {
    cues.iter().flat_map(Cue::bytes).collect()
}

/// One random change: a byte replaced, put in or taken out, or a stretch of the book copied to another place.
pub fn change(book: &mut Vec<u8>, random: &mut Random) {
    let place = random.between(0, book.len());
    let byte = if random.below(2) == 0 { random.below(7) as u8 } else { random.below(256) as u8 };
    match random.below(4) {
        0 if place < book.len() => book[place] = byte,
        1 if place < book.len() => drop(book.remove(place)),
        2 => {
            let stretch = book[place..book.len().min(place + random.between(1, 20))].to_vec();
            let to = random.between(0, book.len());
            book.splice(to..to, stretch);
        }
        _ => book.insert(place, byte),
    }
}
