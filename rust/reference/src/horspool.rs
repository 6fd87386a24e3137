//! Document 01, "Definitions and steps", **Horspool entry** and **Horspool**.

use crate::Run;

/// Entry of c: m − 1 − q, where q (from 0) is the last place of c among the first m − 1 letters; m if absent.
pub fn table(phrase: &[u8]) -> Vec<u16> {
    let m = phrase.len();
    (0..=255u8)
        .map(|c| match phrase[..m - 1].iter().rposition(|&letter| letter == c) {
            Some(q) => (m - 1 - q) as u16,
            None => m as u16,
        })
        .collect()
}

/// Last letter to first; then move by the entry of the text letter under the phrase's end.
pub fn run(phrase: &[u8], text: &[u8], entries: &[u16]) -> Run {
    let (m, n) = (phrase.len(), text.len());
    let mut run = Run::default();
    let mut start = 0;
    while start + m <= n {
        if (0..m).rev().all(|k| run.look(phrase[k], text[start + k])) {
            run.report(start);
        }
        start += entries[text[start + m - 1] as usize] as usize;
    }
    run
}
