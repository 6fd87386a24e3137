//! Document 01, "Definitions and steps", and document 02, (ii) and (x): the tables by themselves, each made in a lent table. Its entries go to the
//! front; a table that is too short for them stays as it was.

use crate::{boyer_moore, horspool, improved_fjs, kmp, sunday};

pub fn kmp_table(phrase: &[u8], table: &mut [u16]) {
    put(&kmp::table(phrase), table);
}

pub fn sunday_table(phrase: &[u8], table: &mut [u16]) {
    put(&sunday::table(phrase), table);
}

pub fn horspool_table(phrase: &[u8], table: &mut [u16]) {
    put(&horspool::table(phrase), table);
}

pub fn delta1_table(phrase: &[u8], table: &mut [u16]) {
    put(&boyer_moore::delta1(phrase), table);
}

/// DELTA2, and in memory of its own f(0) to f(m) of source document 002, Algorithm 4: the next place after p, from 0, from which the letters up to the
/// phrase's end stand again at p; m + 1 after m. Where either is too short, both stay as they were.
pub fn delta2_table(phrase: &[u8], borders: &mut [u16], table: &mut [u16]) {
    let m = phrase.len();
    let next = |p: usize| (p + 1..=m).find(|&t| phrase[p..].starts_with(&phrase[t..])).unwrap_or(m + 1);
    if borders.len() > m && table.len() >= m {
        put(&(0..=m).map(|p| next(p) as u16).collect::<Vec<u16>>(), borders);
        put(&boyer_moore::delta2(phrase), table);
    }
}

/// md and mdp of source document 001, section 3, with letters counted from 1; both are 0 for the empty phrase.
pub fn widest_gap(phrase: &[u8]) -> (usize, usize) {
    improved_fjs::gap(phrase)
}

/// b[1] to b[m + 1], and after them MAX_Shift[1] to MAX_Shift[m + 1]. Where the table is too short for both, or the phrase so long that an entry
/// might pass 65,535, it stays as it was; this is settled before anything is made, since making takes long for a long phrase.
pub fn max_shift_table(phrase: &[u8], table: &mut [u16]) {
    let m = phrase.len();
    if m <= 65_535 && table.len() >= 2 * (m + 1) {
        put(&[kmp::table(phrase), improved_fjs::max_shift(phrase)].concat(), table);
    }
}

fn put(entries: &[u16], table: &mut [u16]) {
    if let Some(front) = table.get_mut(..entries.len()) {
        front.copy_from_slice(entries);
    }
}
