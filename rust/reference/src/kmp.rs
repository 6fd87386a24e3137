//! Document 01, "Definitions and steps", **KMP entry** and **KMP**.

use crate::{LastTable, Run};
use std::cell::RefCell;

thread_local!(static LAST: RefCell<LastTable> = RefCell::default());

/// b[1] to b[m + 1], at 0 to m. Letters count from 1.
pub fn table(phrase: &[u8]) -> Vec<u16> {
    LAST.with(|last| last.borrow_mut().get(phrase, make))
}

fn make(phrase: &[u8]) -> Vec<u16> {
    let m = phrase.len();
    let p = |j: usize| phrase[j - 1];
    // Whether P[1..length] is a border of P[1..of]: it is also the end of it.
    let border = |length: usize, of: usize| phrase[..length] == phrase[of - length..of];
    let mut b: Vec<u16> = Vec::new();
    for j in 1..=m {
        // The largest j' below j with P[1..j' − 1] a border of P[1..j − 1] and P[j'] different from P[j]; 0 if none.
        let entry = (1..j).rev().find(|&k| p(k) != p(j) && border(k - 1, j - 1)).unwrap_or(0);
        b.push(entry as u16);
    }
    // b[m + 1] is 1 plus the length of the longest proper border of P. The empty phrase has none, and here too 0 stands for none.
    let longest = (0..m).rev().find(|&length| border(length, m));
    b.push(longest.map_or(0, |length| 1 + length as u16));
    b
}

/// Left to right; after a mismatch at j, or an occurrence (j is then m + 1), j becomes b[j]; if that is 0, the text position moves on by 1 and j is
/// 1. It stops as soon as the phrase would reach past the text.
pub fn run(phrase: &[u8], text: &[u8], b: &[u16]) -> Run {
    let (m, n) = (phrase.len(), text.len());
    let mut run = Run::default();
    let (mut i, mut j) = (1, 1);
    // P[j] lies over T[i], so the phrase's end lies over letter i + m − j.
    while i + m - j <= n {
        while j <= m && run.look(phrase[j - 1], text[i - 1]) {
            i += 1;
            j += 1;
        }
        if j == m + 1 {
            run.report(i - m - 1);
        }
        j = b[j - 1] as usize;
        if j == 0 {
            i += 1;
            j = 1;
        }
    }
    run
}
