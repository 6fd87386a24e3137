//! A phrase's list after a late cut, by the library and by the reference.

use crate::lent::{dirt, Lent, Shown};
use crate::Faults;
use libretto::{relist_raw, RawAnswer};

/// A stretch of the text, from its start up to the letter before its end, and the new letters in its place.
#[derive(Clone, Copy)]
pub struct Cut<'a> {
    pub start: usize,
    pub end: usize,
    pub letters: &'a [u8],
}

/// The place that a list, read past its end, would go on with: the next one if the phrase there ends before the stretch, and otherwise the next one at
/// the stretch's end or after it. Where the list is accepted, the one would stay and the other move, or be refused.
fn next_place(m: usize, list: &[u32], cut: Cut) -> u32 {
    let next = list.last().map_or(0, |&last| last as usize + 1);
    let there = if next + m <= cut.start { next } else { next.max(cut.end) };
    there as u32
}

/// Calls the library and the reference with equal arguments and compares the refusal, the total and the whole answer with guards on both sides. The
/// answer is of this length and dirty before the call, by the seed. Text and new letters are followed in memory by the phrase, the phrase by the text's
/// front and the list by one more place, so that a read past any of them would find letters that match or a place to put into the answer. Any
/// difference ends the test with the whole case. Given are the numbers and what the answer holds afterwards.
pub fn compare_relists(phrase: &[u8], text: &[u8], list: &[u32], cut: Cut, answer_len: usize, seed: u64) -> (RawAnswer, Vec<u32>) {
    let Cut { start, end, letters } = cut;
    let dirty = dirt(answer_len, seed);
    let behind_phrase = &text[..text.len().min(16)];
    let behind_list = [next_place(phrase.len(), list, cut)];
    let [mut shown_phrase, mut shown_text, mut shown_letters] = [(); 3].map(|()| Shown::default());
    let (mut shown_list, mut answer) = (Shown::default(), Lent::default());
    shown_phrase.show(phrase, behind_phrase);
    shown_text.show(text, phrase);
    shown_letters.show(letters, phrase);
    shown_list.show(list, &behind_list);
    answer.soil(dirty);
    let (library_answer, reference_answer) = answer.lend();

    let raw = relist_raw(shown_phrase.entries(), shown_text.entries(), shown_list.entries(), start, end, shown_letters.entries(), library_answer);
    let library = (raw.refusal, raw.number);
    let reference = reference::relist(phrase, text, list, start, end, letters, reference_answer);

    let mut faults = Faults::default();
    faults.when(library != reference, "refusal or total differ");
    faults.extend(answer.difference("answer"));
    faults.when(!shown_phrase.intact(phrase, behind_phrase), "the phrase was written");
    faults.when(!shown_text.intact(text, phrase), "the text was written");
    faults.when(!shown_letters.intact(letters, phrase), "the new letters were written");
    faults.when(!shown_list.intact(list, &behind_list), "the list was written");
    // Told without the reference: a refused call leaves all as before.
    faults.when(raw.refusal != 0 && (answer.left() != dirty || raw.number != 0), "a refused call wrote something or gave a total");
    faults.judge(|| {
        format!(
            "stretch from {start} to {end}, answer_len {answer_len}, seed {seed}\nphrase of {} bytes: \"{}\"\ntext of {} bytes: \"{}\"\n\
             new letters, {} bytes: \"{}\"\nlist of {} places: {list:?}\n(refusal, total): library {library:?}, reference {reference:?}",
            phrase.len(),
            phrase.escape_ascii(),
            text.len(),
            text.escape_ascii(),
            letters.len(),
            letters.escape_ascii(),
            list.len()
        )
    });
    (raw, answer.left().to_vec())
}
