//! Document 01, "Definitions and steps", **FJS**: source document 001, Algorithm 3, which decides; it stops where no text letter follows.
//! Its moves by document 02, (xi).

use crate::Run;

/// The numbers of the rules by which a window moves.
const SUNDAY: u32 = 1;
const KMP: u32 = 2;

/// The run alone.
pub fn run(phrase: &[u8], text: &[u8], sunday: &[u16], b: &[u16]) -> Run {
    run_and_moves(phrase, text, sunday, b).0
}

/// The steps of Algorithm 3, with its names i, j and ip and its letters from 1. Its `j − KMP_Shift[j]` is b[j].
///
/// Beside the run it gives the moves in their order: old start, new start, rule. Starts count from 0, so the window that ends at letter ip starts at
/// ip − m. A move is noted before its new window is tested, since the last move may pass the text's end.
pub fn run_and_moves(phrase: &[u8], text: &[u8], sunday: &[u16], b: &[u16]) -> (Run, Vec<[u32; 3]>) {
    let (m, n) = (phrase.len(), text.len());
    let p = |j: usize| phrase[j - 1];
    let t = |i: usize| text[i - 1];
    let mut run = Run::default();
    let mut moves = Vec::new();
    let mut note = |old_ip: usize, new_ip: usize, rule: u32| moves.push([(old_ip - m) as u32, (new_ip - m) as u32, rule]);
    let (mut i, mut j, mut ip) = (1, 1, m);
    while ip <= n {
        if j <= 1 {
            // No part match: the last letter first, with Sunday moves until it is equal.
            while !run.look(p(m), t(ip)) {
                // No letter follows for Sunday's rule: a stop, and no move.
                if ip == n {
                    return (run, moves);
                }
                let old_ip = ip;
                ip += sunday[t(ip + 1) as usize] as usize;
                note(old_ip, ip, SUNDAY);
                if ip > n {
                    return (run, moves);
                }
            }
            j = 1;
            i = ip - m + 1;
            while j < m && run.look(p(j), t(i)) {
                i += 1;
                j += 1;
            }
            if j == m {
                i += 1;
                j += 1;
                run.report(i - m - 1);
            }
        } else {
            // A part match is carried: on from j, up to and including letter m.
            while j <= m && run.look(p(j), t(i)) {
                i += 1;
                j += 1;
            }
            if j == m + 1 {
                run.report(i - m - 1);
            }
        }
        j = b[j - 1] as usize;
        let old_ip = ip;
        ip = i + m - j;
        note(old_ip, ip, KMP);
    }
    (run, moves)
}
