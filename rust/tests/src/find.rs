//! Finding, with and without a list of moves, by the library and by the reference.

use crate::lent::{dirt, Lent, Shown};
use crate::Faults;
use libretto::{find_moves_raw, find_raw, RawFinding, RawMovesFinding};
use std::cell::RefCell;
use std::ops::RangeInclusive;

/// Memory for one call of the library and one of the reference, kept between calls.
#[derive(Default)]
struct Memory {
    phrase: Shown<u8>,
    text: Shown<u8>,
    scratch: Lent<u16>,
    list: Lent<u32>,
    moves: Lent<u32>,
}

thread_local!(static MEMORY: RefCell<Memory> = RefCell::default());

/// The lengths of what a find is lent, and the seed of what it holds before the call. A plain find is lent no list of moves.
#[derive(Debug)]
struct Lengths {
    scratch: usize,
    list: usize,
    moves: usize,
    seed: u64,
}

/// What one side of a comparison is lent.
struct Side<'a> {
    scratch: &'a mut [u16],
    list: &'a mut [u32],
    moves: &'a mut [u32],
}

/// Calls the library and the reference with equal arguments and compares the numbers that they give, the refusal first, and all of scratch, list and
/// moves with guards on both sides. These are dirty before the call, by the seed. The text is followed in memory by the phrase, and the phrase by the
/// text's front, so that a read past either would find letters that match. Any difference ends the test with the whole case.
fn compare_calls<const N: usize>(
    method: u32,
    phrase: &[u8],
    text: &[u8],
    lengths: Lengths,
    library: impl FnOnce(&[u8], &[u8], Side) -> [u32; N],
    reference: impl FnOnce(Side) -> [u32; N],
) -> [u32; N] {
    let (dirty_scratch, dirty_list, dirty_moves) =
        (dirt(lengths.scratch, lengths.seed), dirt(lengths.list, lengths.seed), dirt(lengths.moves, lengths.seed + 1));
    let behind_phrase = &text[..text.len().min(16)];
    MEMORY.with_borrow_mut(|memory| {
        memory.phrase.show(phrase, behind_phrase);
        memory.text.show(text, phrase);
        memory.scratch.soil(dirty_scratch);
        memory.list.soil(dirty_list);
        memory.moves.soil(dirty_moves);
        let (scratch, reference_scratch) = memory.scratch.lend();
        let (list, reference_list) = memory.list.lend();
        let (moves, reference_moves) = memory.moves.lend();

        let given = library(memory.phrase.entries(), memory.text.entries(), Side { scratch, list, moves });
        let due = reference(Side { scratch: reference_scratch, list: reference_list, moves: reference_moves });

        let mut faults = Faults::default();
        faults.when(given != due, "the numbers given differ");
        faults.extend(memory.scratch.difference("scratch"));
        faults.extend(memory.list.difference("list"));
        faults.extend(memory.moves.difference("moves"));
        faults.when(!memory.phrase.intact(phrase, behind_phrase) || !memory.text.intact(text, phrase), "phrase or text was written");
        if given[0] != 0 {
            // Told without the reference: a refused call leaves all as before.
            let lists = memory.list.left() == dirty_list && memory.moves.left() == dirty_moves;
            let untouched = memory.scratch.left() == dirty_scratch && lists;
            faults.when(!untouched || given[1..].iter().any(|&number| number != 0), "a refused call wrote something or gave numbers");
        } else if phrase.len() <= text.len() {
            let passed = bound(method, phrase.len(), text.len()).is_some_and(|most| given[2] as usize > most);
            faults.when(passed, "more comparisons than the method's bound");
        }
        faults.judge(|| {
            format!(
                "method {method}, phrase of {} bytes, text of {} bytes, {lengths:?}\nphrase: \"{}\"\ntext: \"{}\"\n\
                 refusal, total, comparisons and the like: library {given:?}, reference {due:?}",
                phrase.len(),
                text.len(),
                phrase.escape_ascii(),
                text.escape_ascii()
            )
        });
        given
    })
}

/// Compares a find by a method number: refusal, total, comparisons, scratch and list.
pub fn compare(method: u32, phrase: &[u8], text: &[u8], scratch_len: usize, list_len: usize, seed: u64) -> RawFinding {
    let lengths = Lengths { scratch: scratch_len, list: list_len, moves: 0, seed };
    let library = |phrase: &[u8], text: &[u8], lent: Side| {
        let raw = find_raw(method, phrase, text, lent.scratch, lent.list);
        [raw.refusal, raw.total, raw.comparisons]
    };
    let reference = |lent: Side| reference::find(method, phrase, text, lent.scratch, lent.list).into();
    let [refusal, total, comparisons] = compare_calls(method, phrase, text, lengths, library, reference);
    RawFinding { refusal, total, comparisons }
}

/// Compares a find with a list of moves: what [`compare`] does for method 4, and the total of moves and their list.
pub fn compare_moves(phrase: &[u8], text: &[u8], scratch_len: usize, list_len: usize, moves_len: usize, seed: u64) -> RawMovesFinding {
    let lengths = Lengths { scratch: scratch_len, list: list_len, moves: moves_len, seed };
    let library = |phrase: &[u8], text: &[u8], lent: Side| {
        let raw = find_moves_raw(phrase, text, lent.scratch, lent.list, lent.moves);
        [raw.refusal, raw.total, raw.comparisons, raw.moves]
    };
    let reference = |lent: Side| reference::find_moves(phrase, text, lent.scratch, lent.list, lent.moves).into();
    let [refusal, total, comparisons, moves] = compare_calls(4, phrase, text, lengths, library, reference);
    RawMovesFinding { refusal, total, comparisons, moves }
}

/// The most comparisons that a method may make for m letters in n, m at most n, where it has a bound: 3n − 2m for method 4 (demand 3), 2n − m for method
/// 1 (document 02, (xii)).
fn bound(method: u32, m: usize, n: usize) -> Option<usize> {
    match method {
        1 => Some(2 * n - m),
        4 => Some(3 * n - 2 * m),
        _ => None,
    }
}

/// The numbers of the methods; the next one is no method.
pub const METHODS: RangeInclusive<u32> = 0..=7;

/// The scratch entries that a method needs (document 01's table, and document 02, (v), (ii) and (x), for methods 5 to 7), and 300 for a number that
/// is no method.
pub fn needed(method: u32, m: usize) -> usize {
    match method {
        0 => 0,
        1 => m + 1,
        2 | 3 | 5 => 256,
        4 => m + 257,
        6 => m + 256,
        7 => 2 * (m + 1) + 256,
        _ => 300,
    }
}
