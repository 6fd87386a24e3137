//! Document 01, "What a find call takes and leaves" and "What a refused call hands back", rows 1 to 5; methods 6 and 7 by document 02, (ii) and (x),
//! and the scratch of method 5 by (v); the list of moves by (xi).

use crate::{boyer_moore, double_window, fjs, horspool, improved_fjs, kmp, naive, sunday};

/// Refusal number, total, comparisons; and what scratch and list hold afterwards.
pub fn find(method: u32, phrase: &[u8], text: &[u8], scratch: &mut [u16], list: &mut [u32]) -> (u32, u32, u32) {
    // The refusals, in rising number; nothing is written.
    if method > 7 {
        return (1, 0, 0);
    }
    if phrase.is_empty() {
        return (2, 0, 0);
    }
    if phrase.len() > 1024 {
        return (3, 0, 0);
    }
    if text.len() > 32_768 {
        return (4, 0, 0);
    }
    let needed = match method {
        0 => 0,
        1 => phrase.len() + 1,
        2 | 3 => 256,
        4 => 256 + phrase.len() + 1,
        5 => 256,
        6 => 256 + phrase.len(),
        _ => 256 + 2 * (phrase.len() + 1),
    };
    if scratch.len() < needed {
        return (5, 0, 0);
    }

    // The scratch holds the method's tables at its front; entries past them keep their values.
    let tables: Vec<u16> = match method {
        0 => Vec::new(),
        1 => kmp::table(phrase),
        2 => horspool::table(phrase),
        3 => sunday::table(phrase),
        4 => [sunday::table(phrase), kmp::table(phrase)].concat(),
        5 => horspool::table(phrase),
        6 => [boyer_moore::delta1(phrase), boyer_moore::delta2(phrase)].concat(),
        _ => [sunday::table(phrase), kmp::table(phrase), improved_fjs::max_shift(phrase)].concat(),
    };
    assert_eq!(tables.len(), needed);
    scratch[..needed].copy_from_slice(&tables);

    // A phrase longer than the text gives total 0 and comparisons 0, with the tables filled all the same.
    if phrase.len() > text.len() {
        return (0, 0, 0);
    }

    let run = match method {
        0 => naive::run(phrase, text),
        1 => kmp::run(phrase, text, &tables),
        2 => horspool::run(phrase, text, &tables),
        3 => sunday::run(phrase, text, &tables),
        4 => fjs::run(phrase, text, &tables[..256], &tables[256..]),
        5 => double_window::run(phrase, text, &tables),
        6 => boyer_moore::run(phrase, text, &tables[..256], &tables[256..]),
        _ => {
            let (kmp, max_shift) = tables[256..].split_at(phrase.len() + 1);
            improved_fjs::run(phrase, text, &tables[..256], kmp, max_shift)
        }
    };

    // The list receives the first places up to its length; entries past those written keep their values; the total is full.
    for (entry, &place) in list.iter_mut().zip(&run.places) {
        *entry = place;
    }
    (0, run.places.len() as u32, run.comparisons)
}

/// Document 02, (xi): refusal number, total and comparisons as a find by method 4 gives them, then the total of moves; and what scratch and list hold
/// after that find, and what the list of moves holds afterwards.
pub fn find_moves(phrase: &[u8], text: &[u8], scratch: &mut [u16], list: &mut [u32], moves: &mut [u32]) -> (u32, u32, u32, u32) {
    let (refusal, total, comparisons) = find(4, phrase, text, scratch, list);
    if refusal != 0 {
        return (refusal, 0, 0, 0);
    }

    // The same steps once more, for their moves, with the tables that the find has left. A phrase longer than the text has no window, so no move.
    let (_, made) = fjs::run_and_moves(phrase, text, &scratch[..256], &scratch[256..256 + phrase.len() + 1]);

    // The first whole moves that fit are kept; entries past those written keep their values, also one or two at the end that hold no whole move.
    for (entries, numbers) in moves.chunks_exact_mut(3).zip(&made) {
        entries.copy_from_slice(numbers);
    }
    (0, total, comparisons, made.len() as u32)
}
