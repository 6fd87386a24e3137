//! Document 02, (x), **the improved engine**: source document 001, section 3, with FJS's stop where no text letter follows. Letters count from 1.

use crate::{kmp, Run};

/// d[i], at i − 1, for i from 1 to m: the smallest j with 1 ≤ j < i and P[i − j] = P[i]; i if there is none.
pub fn gaps(phrase: &[u8]) -> Vec<usize> {
    let p = |j: usize| phrase[j - 1];
    (1..=phrase.len()).map(|i| (1..i).find(|&j| p(i - j) == p(i)).unwrap_or(i)).collect()
}

/// md, which is the largest entry of d, and mdp, which is the largest index that has it. The empty phrase has no entry, and both are 0 for it.
pub fn gap(phrase: &[u8]) -> (usize, usize) {
    let d = gaps(phrase);
    let md = d.iter().copied().max().unwrap_or(0);
    let mdp = (1..=d.len()).rev().find(|&i| d[i - 1] == md).unwrap_or(0);
    (md, mdp)
}

/// MAX_Shift[j], at j − 1, for j from 1 to m + 1: md where it is at least KMP_Shift[j] and at least j − 1, else KMP_Shift[j], which is j − b[j].
pub fn max_shift(phrase: &[u8]) -> Vec<u16> {
    let (md, _) = gap(phrase);
    let b = kmp::table(phrase);
    (1..=phrase.len() + 1)
        .map(|j| {
            let kmp_shift = j - b[j - 1] as usize;
            let entry = if md >= kmp_shift.max(j - 1) { md } else { kmp_shift };
            entry as u16
        })
        .collect()
}

/// The steps of Algorithm 6, with its names i, j and ip. Its `j − KMP_Shift[j]` is b[j]. Its `j − MAX_Shift[j]` may be 0 or below, with nothing
/// carried then, so all its numbers are signed here.
pub fn run(phrase: &[u8], text: &[u8], sunday: &[u16], b: &[u16], max_shift: &[u16]) -> Run {
    let (m, n) = (phrase.len() as isize, text.len() as isize);
    let mdp = gap(phrase).1 as isize;
    let p = |j: isize| phrase[j as usize - 1];
    let t = |i: isize| text[i as usize - 1];
    let mut run = Run::default();
    let (mut i, mut j, mut ip) = (1, 1, m);
    while ip <= n {
        if j <= 1 {
            // No part match: letter mdp first, with Sunday moves until it is equal.
            while !run.look(p(mdp), t(ip - (m - mdp))) {
                if ip == n {
                    return run;
                }
                ip += sunday[t(ip + 1) as usize] as isize;
                if ip > n {
                    return run;
                }
            }
            // Letters 1 to m; letter mdp is looked at again where the comparing comes to it.
            j = 1;
            i = ip - m + 1;
            while j <= m && run.look(p(j), t(i)) {
                i += 1;
                j += 1;
            }
            if j == m + 1 {
                run.report((i - m - 1) as usize);
            }
            j -= max_shift[j as usize - 1] as isize;
        } else {
            // A part match is carried: on from j, up to and including letter m. Letter mdp need not be equal, so the move is KMP's.
            while j <= m && run.look(p(j), t(i)) {
                i += 1;
                j += 1;
            }
            if j == m + 1 {
                run.report((i - m - 1) as usize);
            }
            j = b[j as usize - 1] as isize;
        }
        ip = i + m - j;
    }
    run
}
