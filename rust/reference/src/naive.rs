//! Document 01, "Definitions and steps", **Naive**: each start in turn, left to right, up to the first unequal pair; move 1.

use crate::Run;

pub fn run(phrase: &[u8], text: &[u8]) -> Run {
    let (m, n) = (phrase.len(), text.len());
    let mut run = Run::default();
    let mut start = 0;
    while start + m <= n {
        if (0..m).all(|k| run.look(phrase[k], text[start + k])) {
            run.report(start);
        }
        start += 1;
    }
    run
}
