//! The resolver, by the library and by the reference.

use crate::books::{resolved_of, MORE};
use crate::lent::{dirt, Lent, Shown};
use crate::{Faults, Random};
use libretto::{resolve_raw, RawResolving, ResolverMemory, RESOLVER_SCRATCH};
use std::cell::RefCell;

/// How much of each kind of memory is lent.
#[derive(Clone, Copy, Debug)]
pub struct Lengths {
    pub copy: usize,
    pub scratch: usize,
    pub entries: usize,
}

impl Lengths {
    /// Just enough for a text of n bytes and so many cues that are resolved.
    pub fn enough(n: usize, cues: usize) -> Lengths {
        Lengths { copy: n, scratch: RESOLVER_SCRATCH, entries: 3 * cues }
    }

    /// Each of these lengths, or somewhat more.
    pub fn or_more(self, random: &mut Random) -> Lengths {
        let mut more = |length| length + [0, 1, random.between(2, 50)][random.below(3)];
        Lengths { copy: more(self.copy), scratch: more(self.scratch), entries: more(self.entries) }
    }
}

/// Memory for one call of the library and one of the reference, kept between calls.
#[derive(Default)]
struct Memory {
    book: Shown<u8>,
    text: Shown<u8>,
    copy: Lent<u8>,
    scratch: Lent<u16>,
    entries: Lent<u32>,
}

thread_local!(static MEMORY: RefCell<Memory> = RefCell::default());

/// What the lent memory holds before a call.
struct Held {
    copy: Vec<u8>,
    scratch: &'static [u16],
    entries: &'static [u32],
}

impl Held {
    /// Dirt by the seed. Past n the copy goes on with the folded text from its front, so that a search past n would find occurrences. There is no
    /// search by an unknown page, and the text as it stands is dirt enough.
    fn new(page: u32, text: &[u8], lengths: Lengths, seed: u64) -> Held {
        let mut copy = dirt(lengths.copy, seed).to_vec();
        let rule = reference::folding_rule(page).unwrap_or(|letter| letter);
        let folded = text.iter().map(|&letter| rule(letter));
        for (byte, letter) in copy.iter_mut().skip(text.len()).zip(folded.cycle()) {
            *byte = letter;
        }
        Held { copy, scratch: dirt(lengths.scratch, seed), entries: dirt(lengths.entries, seed) }
    }
}

impl Memory {
    fn prepare(&mut self, book: &[u8], text: &[u8], held: &Held) {
        self.book.show(book, MORE);
        self.text.show(text, text);
        self.copy.soil(&held.copy);
        self.scratch.soil(held.scratch);
        self.entries.soil(held.entries);
    }

    /// Calls the library and the reference.
    fn call(&mut self, role: u32, day: u32, page: u32, book: &[u8], text: &[u8]) -> (RawResolving, (u32, u32, u32)) {
        let (copy, reference_copy) = self.copy.lend();
        let (scratch, reference_scratch) = self.scratch.lend();
        let (entries, reference_entries) = self.entries.lend();
        let raw = resolve_raw(role, day, page, self.book.entries(), self.text.entries(), &mut ResolverMemory { copy, scratch, entries });
        let lent = reference::Lent { copy: reference_copy, scratch: reference_scratch, entries: reference_entries };
        (raw, reference::resolve(role, day, page, book, text, lent))
    }

    /// What is wrong with the memory, told without the reference, but with how many cues are resolved before the one of a number.
    fn kept_and_cleared(&self, earlier: impl Fn(usize) -> usize, raw: RawResolving, held: &Held, faults: &mut Faults) {
        if [0, 12, 15].contains(&raw.refusal) {
            // All entries are joined without a stop at the first, which the compiler does for many of them at a time.
            let joined = self.scratch.left().iter().fold(0, |bits, &entry| bits | entry);
            faults.when(joined != 0, "the scratch is not 0 throughout");
            let number = raw.number as usize;
            let rest = 3 * if raw.refusal == 0 { number } else { earlier(number) }..;
            faults.when(self.entries.left().get(rest.clone()) != held.entries.get(rest), "an entry that is not due was written");
        } else {
            let work = self.copy.left() == held.copy && self.scratch.left() == held.scratch;
            faults.when(!work || self.entries.left() != held.entries, "a refused call wrote something");
        }
    }
}

/// Calls the library and the reference with equal arguments and compares the answers and all of copy, scratch and entries with guards on both sides. All
/// three are dirty before the call, by the seed. In memory the text is followed by itself and the book by one more cue. Any difference ends the test
/// with the whole case.
pub fn compare_resolve(role: u32, day: u32, page: u32, book: &[u8], text: &[u8], lengths: Lengths, seed: u64) -> RawResolving {
    let held = Held::new(page, text, lengths, seed);
    MEMORY.with_borrow_mut(|memory| {
        memory.prepare(book, text, &held);
        let (raw, reference) = memory.call(role, day, page, book, text);
        let library = (raw.refusal, raw.number, raw.reads);

        let mut faults = Faults::default();
        faults.when(library != reference, "refusal, number or reads differ");
        faults.extend(memory.copy.difference("copy"));
        faults.extend(memory.scratch.difference("scratch"));
        faults.extend(memory.entries.difference("cue"));
        faults.when(!memory.book.intact(book, MORE) || !memory.text.intact(text, text), "book or text was written");
        // Where the answers differ, the library's number need not be one of the book's.
        if library == reference {
            memory.kept_and_cleared(|number| resolved_of(role, book, day, number), raw, &held, &mut faults);
        }
        faults.judge(|| {
            format!(
                "role {role}, day {day}, page {page}, book of {} bytes, text of {} bytes, {lengths:?}, seed {seed}\nbook: \"{}\"\ntext: \"{}\"\n\
                 (refusal, number, reads): library {library:?}, reference {reference:?}",
                book.len(),
                text.len(),
                book.escape_ascii(),
                text.escape_ascii()
            )
        });
        raw
    })
}
