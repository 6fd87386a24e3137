//! Document 02, (ii), **Boyer-Moore**, with DELTA1 and DELTA2 as source document 002 defines them. Letters count from 1.

use crate::Run;

/// DELTA1(c), at c: m if c does not occur in the phrase, else the smallest j with 0 ≤ j < m and P[m − j] = c.
pub fn delta1(phrase: &[u8]) -> Vec<u16> {
    let m = phrase.len();
    let p = |j: usize| phrase[j - 1];
    (0..=255u8).map(|c| (0..m).find(|&j| p(m - j) == c).unwrap_or(m) as u16).collect()
}

/// DELTA2(j), at j − 1, for j from 1 to m: the minimum of k + m − j over all k with
/// - k ≥ 1, and
/// - for every i with j < i ≤ m: k ≥ i or P[i − k] = P[i], and
/// - k ≥ j or P[j − k] ≠ P[j]. Source document 002 prints i in this clause; document 02, (ii), says that it is about letter j.
pub fn delta2(phrase: &[u8]) -> Vec<u16> {
    let m = phrase.len();
    let p = |j: usize| phrase[j - 1];
    // At k, the last letter i with neither k ≥ i nor P[i − k] = P[i], and 0 if there is none: the clause about the letters after j holds where this is
    // at most j. Tests make the tables of many long phrases, and with this no letter is looked at again for each j.
    let last_unequal: Vec<usize> = (0..=m).map(|k| (1..=m).rev().find(|&i| k < i && p(i - k) != p(i)).unwrap_or(0)).collect();
    let mut entries: Vec<u16> = Vec::new();
    for j in 1..=m {
        let equal_after_j = |k: usize| last_unequal[k] <= j;
        let different_at_j = |k: usize| k >= j || p(j - k) != p(j);
        // k + m − j rises with k, so the first k that meets the clauses gives the minimum; k = m meets them always.
        let k = (1..m).find(|&k| equal_after_j(k) && different_at_j(k)).unwrap_or(m);
        entries.push((k + m - j) as u16);
    }
    entries
}

/// The length of the longest proper border: of the parts shorter than the phrase, the longest that is both its beginning and its end. The empty part
/// is one for every phrase that has a letter.
fn longest_proper_border(phrase: &[u8]) -> usize {
    let m = phrase.len();
    (0..m).rev().find(|&length| phrase[..length] == phrase[m - length..]).unwrap_or(0)
}

/// Last letter to first. On a mismatch of P[j] and T[i] the text pointer i moves by the larger of DELTA1(T[i]) and DELTA2(j), and the next window
/// ends there. After an occurrence the phrase moves by m minus its longest proper border.
pub fn run(phrase: &[u8], text: &[u8], delta1: &[u16], delta2: &[u16]) -> Run {
    let (m, n) = (phrase.len(), text.len());
    let border = longest_proper_border(phrase);
    let mut run = Run::default();
    let mut end = m;
    while end <= n {
        let (mut i, mut j) = (end, m);
        while j > 0 && run.look(phrase[j - 1], text[i - 1]) {
            i -= 1;
            j -= 1;
        }
        if j == 0 {
            run.report(end - m);
            end += m - border;
        } else {
            end = i + delta1[text[i - 1] as usize].max(delta2[j - 1]) as usize;
        }
    }
    run
}
