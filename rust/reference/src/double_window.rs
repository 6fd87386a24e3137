//! Document 01, "Definitions and steps", **Double window**. The entries (u, v) are worked out where they are asked for: document 02, (v), leaves
//! Horspool's entries in the scratch and no others.

use crate::Run;

/// q(c): the letter's last place in the whole phrase, from 0.
fn last_place(phrase: &[u8], c: u8) -> Option<usize> {
    phrase.iter().rposition(|&letter| letter == c)
}

/// Entry (u, v): 0 if u is the last letter; else m − 1 − q(u) if u is in P; else 2m − 1 − q(v) if v is in P; else 2m. If v lies past the text (`None`):
/// 0, m − 1 − q(u), or m by u alone.
pub fn entry(phrase: &[u8], u: u8, v: Option<u8>) -> usize {
    let m = phrase.len();
    if u == phrase[m - 1] {
        return 0;
    }
    if let Some(place) = last_place(phrase, u) {
        return m - 1 - place;
    }
    match v.map(|v| last_place(phrase, v)) {
        Some(Some(place)) => 2 * m - 1 - place,
        Some(None) => 2 * m,
        None => m,
    }
}

/// Window start s from 0: u under the window's end, v m places on. Move by entry (u, v) unless 0; at 0 compare letters m − 1 down to 1 (the end is
/// known equal), then move by Horspool's entry. Looking at u and v counts nothing.
pub fn run(phrase: &[u8], text: &[u8], horspool: &[u16]) -> Run {
    let (m, n) = (phrase.len(), text.len());
    let mut run = Run::default();
    let mut s = 0;
    while s + m <= n {
        let u = text[s + m - 1];
        let by = entry(phrase, u, text.get(s + m - 1 + m).copied());
        if by != 0 {
            s += by;
            continue;
        }
        if (1..m).rev().all(|j| run.look(phrase[j - 1], text[s + j - 1])) {
            run.report(s);
        }
        s += horspool[u as usize] as usize;
    }
    run
}
