//! Document 01, "Definitions and steps", **Sunday entry** and **Sunday**.

use crate::Run;

/// Entry of c: m − j' + 1, where j' is the last position of c in P (from 1), and j' = 0 if absent.
pub fn table(phrase: &[u8]) -> Vec<u16> {
    let m = phrase.len();
    (0..=255u8)
        .map(|c| {
            let last = (1..=m).rev().find(|&j| phrase[j - 1] == c).unwrap_or(0);
            (m - last + 1) as u16
        })
        .collect()
}

/// Left to right; then move by the entry of the text letter after the window; if there is none, stop.
pub fn run(phrase: &[u8], text: &[u8], entries: &[u16]) -> Run {
    let (m, n) = (phrase.len(), text.len());
    let mut run = Run::default();
    let mut start = 0;
    while start + m <= n {
        if (0..m).all(|k| run.look(phrase[k], text[start + k])) {
            run.report(start);
        }
        if start + m == n {
            break;
        }
        start += entries[text[start + m] as usize] as usize;
    }
    run
}
