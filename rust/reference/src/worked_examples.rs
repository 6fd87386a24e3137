//! The worked examples of document 01, "The finder program" and "Refrains to try", and of document 02, (ii), (iv) to (viii), (x), (xi), (xiii) and
//! (xiv), and the tests that books, cues and lent memory meet.

use crate::{boyer_moore, double_window, fjs, horspool, improved_fjs, kmp, sunday};
use crate::{cues, date, day, read_book, read_cue, read_due, read_field, retitle, title, write_cue, Cue, Field};
use crate::{endings, find, find_moves, finder_output, fold, fold_text, folding_rule, groups, line_and_column, max_shift_table, resolve, widest_gap};
use crate::{new_text, relist, Lent};

/// Total, comparisons and places by a method, with memory enough.
fn found(method: u32, phrase: &[u8], text: &[u8]) -> (u32, u32, Vec<u32>) {
    let mut scratch = vec![7; 2306];
    let mut list = vec![7; text.len()];
    let (refusal, total, comparisons) = find(method, phrase, text, &mut scratch, &mut list);
    assert_eq!(refusal, 0);
    list.truncate(total as usize);
    (total, comparisons, list)
}

#[test]
fn finder_lines() {
    let lines = "naive 2 7 0 2\nkmp 2 5 0 2\nhorspool 2 6 0 2\nsunday 2 6 0 2\nfjs 2 5 0 2\nbm 2 6 0 2\ndouble 2 4 0 2\nimproved 2 6 0 2\n";
    assert_eq!(finder_output(b"aba\nababa"), lines.as_bytes());
    assert_eq!(finder_output(b""), b"refused 2\n");
    assert_eq!(finder_output(b"\n"), b"refused 2\n");
    assert_eq!(finder_output(b"ab"), b"naive 0 0\nkmp 0 0\nhorspool 0 0\nsunday 0 0\nfjs 0 0\nbm 0 0\ndouble 0 0\nimproved 0 0\n");
    // The longest phrase, as the whole text: each letter is looked at once, the last not at all by `double`, and twice by `improved`.
    let each_once = ["naive", "kmp", "horspool", "sunday", "fjs", "bm"].map(|engine| format!("{engine} 1 1024 0\n")).concat();
    let lines = each_once + "double 1 1023 0\nimproved 1 1025 0\n";
    assert_eq!(finder_output(&[&[b'a'; 1024][..], b"\n", &[b'a'; 1024]].concat()), lines.as_bytes());
    assert_eq!(finder_output(&[b'a'; 1025]), b"refused 3\n");
    assert_eq!(finder_output(&[b'a'; 33_793]), b"refused 3\n");
    assert_eq!(finder_output(&[b'a'; 33_794]), b"refused 4\n");
}

#[test]
fn tables_of_abaaca() {
    assert_eq!(kmp::table(b"abaaca"), [0, 1, 0, 2, 2, 0, 2]);
    let moves: Vec<u16> = kmp::table(b"abaaca").iter().enumerate().map(|(k, b)| k as u16 + 1 - b).collect();
    assert_eq!(moves, [1, 1, 3, 2, 3, 6, 5]);
    for c in 0..=255u8 {
        let (by_sunday, by_horspool) = match c {
            b'a' => (1, 2),
            b'b' => (5, 4),
            b'c' => (2, 1),
            _ => (7, 6),
        };
        assert_eq!(sunday::table(b"abaaca")[c as usize], by_sunday);
        assert_eq!(horspool::table(b"abaaca")[c as usize], by_horspool);
    }
}

/// Document 02, (xii), speaks of the steps for lengths beyond those of a find too.
#[test]
fn kmp_beyond_a_find() {
    for m in [2, 1025, 3000] {
        for n in [m, 32_769, 100_000] {
            let (phrase, text) = ([vec![b'a'; m - 1], vec![b'b']].concat(), vec![b'a'; n]);
            let run = kmp::run(&phrase, &text, &kmp::table(&phrase));
            assert_eq!((run.places.len(), run.comparisons as usize), (0, 2 * n - m), "m = {m}, n = {n}");
        }
    }
}

#[test]
fn double_window_entries_of_abaaca() {
    let entry = |u: u8, v: u8| double_window::entry(b"abaaca", u, Some(v));
    assert_eq!((entry(b'a', b'a'), entry(b'a', b'x')), (0, 0));
    assert_eq!((entry(b'c', b'a'), entry(b'b', b'x')), (1, 4));
    assert_eq!((entry(b'x', b'a'), entry(b'x', b'b'), entry(b'x', b'c'), entry(b'x', b'x')), (6, 10, 7, 12));
    let by_u_alone = |u: u8| double_window::entry(b"abaaca", u, None);
    assert_eq!((by_u_alone(b'a'), by_u_alone(b'b'), by_u_alone(b'c'), by_u_alone(b'x')), (0, 4, 1, 6));
}

/// Texts in which each kind of move leads to an occurrence, which costs a look at each letter but the last.
#[test]
fn double_window_moves() {
    assert_eq!(found(5, b"aba", b"ababa"), (2, 4, vec![0, 2]));
    // By a u of the phrase; by an absent u and a v that is the last letter, another one of the phrase, or absent too.
    assert_eq!(found(5, b"aba", b"caba"), (1, 2, vec![1]));
    assert_eq!(found(5, b"aba", b"cccaba"), (1, 2, vec![3]));
    assert_eq!(found(5, b"aba", b"cccaaba"), (1, 2, vec![4]));
    assert_eq!(found(5, b"aba", b"ccccccaba"), (1, 2, vec![6]));
    // An absent u with v past the text; and a phrase of one letter, which is looked at nowhere.
    assert_eq!(found(5, b"aba", b"ababc"), (1, 2, vec![0]));
    assert_eq!(found(5, b"a", b"cabcca"), (2, 0, vec![1, 5]));
}

#[test]
fn double_window_scratch() {
    for length in [256, 257, 1281] {
        let mut scratch = vec![7; length];
        assert_eq!(find(5, b"aba", b"ababa", &mut scratch[..255], &mut []), (5, 0, 0));
        assert_eq!(scratch, vec![7; length]);
        assert_eq!(find(5, b"aba", b"ababa", &mut scratch, &mut []), (0, 2, 4));
        assert_eq!(scratch, [horspool::table(b"aba"), vec![7; length - 256]].concat());
    }
}

/// As source document 003 prints them.
#[test]
fn delta2_of_document_003() {
    assert_eq!(boyer_moore::delta2(b"ABCXXXABC"), [14, 13, 12, 11, 10, 9, 11, 10, 1]);
    assert_eq!(boyer_moore::delta2(b"ABYXCDEYX"), [17, 16, 15, 14, 13, 12, 7, 10, 1]);
}

#[test]
fn delta1_of_abcxxxabc() {
    let entries = boyer_moore::delta1(b"ABCXXXABC");
    assert_eq!(entries.len(), 256);
    for c in 0..=255u8 {
        let entry = match c {
            b'A' => 2,
            b'B' => 1,
            b'C' => 0,
            b'X' => 3,
            _ => 9,
        };
        assert_eq!(entries[c as usize], entry, "letter {c}");
    }
}

#[test]
fn delta2_of_long_phrases() {
    // With 1,024 letters a, letter j − k is never different, so k is j.
    assert_eq!(boyer_moore::delta2(&[b'a'; 1024]), [1024; 1024]);
    // With a b in front, letter j − k is different where it is the b, so k is j − 1. For j = 1, letter i = k + 1 lies after j and fails at the b, up
    // to k = m; this is the largest entry that a find meets.
    let phrase = [vec![b'b'], vec![b'a'; 1023]].concat();
    assert_eq!(boyer_moore::delta2(&phrase), [vec![2047], vec![1023; 1023]].concat());
}

/// The example of source document 003, which counts 14 looks up to the end of the occurrence.
#[test]
fn example_of_document_003() {
    assert_eq!(found(6, b"AT-THAT", b"WHICH-FINALLY-HALTS.--AT-THAT"), (1, 14, vec![22]));
    // AT is the longest border, so the phrase moves by 5 and its end meets N, which is absent; the next window passes the end.
    assert_eq!(found(6, b"AT-THAT", b"WHICH-FINALLY-HALTS.--AT-THAT-POINT"), (1, 15, vec![22]));
}

/// Texts in which the move after a mismatch leads to an occurrence, which costs a look at each letter.
#[test]
fn boyer_moore_moves_after_a_mismatch() {
    // 1 look: c at letter 3 is absent. DELTA1 is 3, DELTA2(3) is 1.
    assert_eq!(found(6, b"aba", b"abcaba"), (1, 1 + 3, vec![3]));
    // 3 looks: ab is equal, x at letter 6 is absent. DELTA1 is 8, while DELTA2(6) is 3 + 2 by the ab at letter 4, which a c precedes and not a d.
    assert_eq!(found(6, b"abcabdab", b"yyyyyxabcabdab"), (1, 3 + 8, vec![6]));
    // 2 looks: b is equal, d at letter 5 is not a. DELTA1 is 2, while DELTA2(5) is 6 + 1, since the other b too comes after an a.
    assert_eq!(found(6, b"cabdab", b"yyyydbcabdab"), (1, 2 + 6, vec![6]));
    // 2 looks: b is equal, b at letter 3 is not a. DELTA1 is 0 and alone would set the window's end back from letter 4 to 3; DELTA2(3) is 4 + 1.
    assert_eq!(found(6, b"abab", b"yybbabab"), (1, 2 + 4, vec![4]));
    // 3 looks: ba is equal, a at letter 1 is not b. DELTA1 is 0 and alone would set the window's end back from letter 3 to 1; DELTA2(1) is 3 + 2.
    assert_eq!(found(6, b"bba", b"ababba"), (1, 3 + 3, vec![3]));
}

/// Each window is an occurrence and costs a look at each letter.
#[test]
fn boyer_moore_moves_after_an_occurrence() {
    // Border 0: move by m.
    assert_eq!(found(6, b"ab", b"ababab"), (3, 3 * 2, vec![0, 2, 4]));
    // Border 1: a. In the second text the next window passes the end.
    assert_eq!(found(6, b"aba", b"ababa"), (2, 2 * 3, vec![0, 2]));
    assert_eq!(found(6, b"aba", b"abab"), (1, 3, vec![0]));
    // Border 2: ab in the first phrase; aa in the second, where a is a shorter border.
    assert_eq!(found(6, b"abab", b"ababab"), (2, 2 * 4, vec![0, 2]));
    assert_eq!(found(6, b"aabaa", b"aabaabaa"), (2, 2 * 5, vec![0, 3]));
    // Border m − 1: move by 1.
    assert_eq!(found(6, b"aaaa", b"aaaaaa"), (3, 3 * 4, vec![0, 1, 2]));
}

/// Border 0, DELTA2(1) = 1, and DELTA1 at most 1: each letter of the text is looked at once.
#[test]
fn boyer_moore_phrase_of_one_letter() {
    assert_eq!(found(6, b"a", b"cabcca"), (2, 6, vec![1, 5]));
    assert_eq!(found(6, b"a", b"aaa"), (3, 3, vec![0, 1, 2]));
    assert_eq!(found(6, b"b", b"aaa"), (0, 3, vec![]));
    assert_eq!(found(6, b"b", b""), (0, 0, vec![]));
}

#[test]
fn boyer_moore_scratch() {
    let mut tables = [vec![3; 256], vec![4, 3, 1]].concat();
    (tables[b'a' as usize], tables[b'b' as usize]) = (0, 1);
    for length in [259, 260, 1281] {
        let mut scratch = vec![7; length];
        let mut list = [7; 3];
        assert_eq!(find(6, b"aba", b"ababa", &mut scratch[..258], &mut list), (5, 0, 0));
        assert_eq!((&scratch, list), (&vec![7; length], [7; 3]));
        assert_eq!(find(6, b"aba", b"ababa", &mut scratch, &mut list), (0, 2, 6));
        assert_eq!((scratch, list), ([tables.clone(), vec![7; length - 259]].concat(), [0, 2, 7]));
        // A phrase longer than the text leaves the tables all the same.
        let mut scratch = vec![7; length];
        assert_eq!(find(6, b"aba", b"ab", &mut scratch, &mut list), (0, 0, 0));
        assert_eq!((scratch, list), ([tables.clone(), vec![7; length - 259]].concat(), [0, 2, 7]));
    }
}

/// All words over these letters of this length.
fn words_over(letters: &[u8], length: usize) -> Vec<Vec<u8>> {
    let longer = |shorter: Vec<Vec<u8>>| shorter.iter().flat_map(|word| letters.iter().map(|&letter| [word, &[letter][..]].concat())).collect();
    (0..length).fold(vec![vec![]], |words, _| longer(words))
}

/// All words over a and b of this length.
fn words(length: usize) -> Vec<Vec<u8>> {
    words_over(b"ab", length)
}

#[test]
fn boyer_moore_gives_the_naive_places() {
    let texts: Vec<Vec<u8>> = (0..=9).flat_map(words).collect();
    for phrase in (1..=6).flat_map(words) {
        for text in &texts {
            let ((total, _, places), (naive_total, _, naive_places)) = (found(6, &phrase, text), found(0, &phrase, text));
            assert_eq!((total, places), (naive_total, naive_places), "{phrase:?} in {text:?}");
        }
    }
}

/// Example 2 of source document 001.
#[test]
fn improved_tables_of_abaaca() {
    assert_eq!(improved_fjs::gaps(b"abaaca"), [1, 2, 2, 1, 5, 2]);
    assert_eq!(widest_gap(b"abaaca"), (5, 5));
    let kmp_shift: Vec<u16> = kmp::table(b"abaaca").iter().enumerate().map(|(k, b)| k as u16 + 1 - b).collect();
    assert_eq!(kmp_shift, [1, 1, 3, 2, 3, 6, 5]);
    assert_eq!(improved_fjs::max_shift(b"abaaca"), [5, 5, 5, 5, 5, 6, 5]);
}

/// md and mdp by the loop of Algorithm 4 as it is printed.
fn algorithm_4(phrase: &[u8]) -> (usize, usize) {
    let (mut md, mut mdp) = (0, 1);
    let mut prevpos = [0; 256];
    for j in 1..=phrase.len() {
        let c = phrase[j - 1] as usize;
        if md <= j - prevpos[c] {
            md = j - prevpos[c];
            mdp = j;
        }
        prevpos[c] = j;
    }
    (md, mdp)
}

#[test]
fn widest_gaps() {
    // Of equal gaps the one of the largest index: of letters 2 and 3, of letters 2 to 4, of letters 3 and 4.
    assert_eq!((improved_fjs::gaps(b"abaa"), widest_gap(b"abaa")), (vec![1, 2, 2, 1], (2, 3)));
    assert_eq!((improved_fjs::gaps(b"abab"), widest_gap(b"abab")), (vec![1, 2, 2, 2], (2, 4)));
    assert_eq!((improved_fjs::gaps(b"abca"), widest_gap(b"abca")), (vec![1, 2, 3, 3], (3, 4)));
    assert_eq!((widest_gap(b""), widest_gap(b"a")), ((0, 0), (1, 1)));
    for phrase in (1..=8).flat_map(|length| words_over(b"abc", length)).chain((1..=6).flat_map(|length| words_over(b"abcd", length))) {
        assert_eq!(widest_gap(&phrase), algorithm_4(&phrase), "{phrase:?}");
    }
}

/// md against j − 1, where md is larger than KMP_Shift[j].
#[test]
fn max_shift_where_j_decides() {
    // KMP entries 0 1 0 2 1 3, so KMP_Shift is 1 1 3 2 4 3. At 4, md is 3, and so is j − 1: md stands there.
    assert_eq!((improved_fjs::gaps(b"abaab"), widest_gap(b"abaab")), (vec![1, 2, 2, 1, 3], (3, 5)));
    assert_eq!(improved_fjs::max_shift(b"abaab"), [3, 3, 3, 3, 4, 3]);
    // Letter 5 is equal, then letters 1 to 3; letter 4 is not. The move is 3 with nothing carried, where KMP's would be 2 with a carried. Then letter 5
    // is equal and letter 1 is not.
    assert_eq!(attempts(b"abaab", b"ababbccb"), [(1, 1 + 4), (4, 1 + 1)]);
    // KMP entries 0 1 0 1 0 1 5 1 1 0 2, so KMP_Shift is 1 1 3 3 5 5 2 7 8 10 9. At 7, md is 5 and j − 1 is 6: KMP_Shift stands there.
    assert_eq!((improved_fjs::gaps(b"abababbbba"), widest_gap(b"abababbbba")), (vec![1, 2, 2, 2, 2, 2, 1, 1, 1, 5], (5, 10)));
    assert_eq!(improved_fjs::max_shift(b"abababbbba"), [5, 5, 5, 5, 5, 5, 2, 7, 8, 10, 9]);
    // Letter 10 is equal, then letters 1 to 6; letter 7 is not. The move is 2, with abab carried; letter 5 is equal and letter 6 is not.
    assert_eq!(attempts(b"abababbbba", b"abababaccacc"), [(1, 1 + 7), (3, 2)]);
}

#[test]
fn improved_tables_of_long_phrases() {
    // Each a but the first has an a just before it. KMP_Shift is 1 to 1024 and then 1.
    let phrase = [b'a'; 1024];
    let kmp_shift: Vec<u16> = (1..=1024).chain([1]).collect();
    assert_eq!((widest_gap(&phrase), improved_fjs::max_shift(&phrase)), ((1, 1024), kmp_shift));
    // The b at the end has no other before it, so md is m and no KMP_Shift passes it.
    let phrase = [vec![b'a'; 1023], vec![b'b']].concat();
    assert_eq!((widest_gap(&phrase), improved_fjs::max_shift(&phrase)), ((1024, 1024), vec![1024; 1025]));
    // All 256 letters, four times: from letter 256 on each gap is 256. A border of the first j − 1 letters that is not empty is followed by P[j]
    // again, and the empty one by P[1]. So b[j] is 0 where P[j] is P[1], and else 1. The whole phrase moves by 256.
    let phrase: Vec<u8> = (0..=255u8).cycle().take(1024).collect();
    let kmp_shift = |j: u16| if j % 256 == 1 { j } else { j - 1 };
    let entries: Vec<u16> = (1..=1024).map(|j| kmp_shift(j).max(256)).chain([256]).collect();
    assert_eq!((widest_gap(&phrase), improved_fjs::max_shift(&phrase)), ((256, 1024), entries));
}

/// The KMP entries 0 1 0 2 of aba and then its MAX_Shift: md is 2 and KMP_Shift 1 1 3 2, so that md stands at 1 and 2. It does not at 3, where
/// KMP_Shift is larger, nor at 4, where j − 1 is.
const KMP_AND_MAX_SHIFT_OF_ABA: [u16; 8] = [0, 1, 0, 2, 2, 2, 3, 2];

#[test]
fn lent_table_of_kmp_and_max_shift() {
    let made = |phrase: &[u8], length: usize| {
        let mut table = vec![7; length];
        max_shift_table(phrase, &mut table);
        table
    };
    assert_eq!((made(b"aba", 0), made(b"aba", 4), made(b"aba", 7)), (vec![], vec![7; 4], vec![7; 7]));
    assert_eq!(made(b"aba", 8), KMP_AND_MAX_SHIFT_OF_ABA);
    assert_eq!(made(b"aba", 10), [&KMP_AND_MAX_SHIFT_OF_ABA[..], &[7, 7]].concat());
    assert_eq!((made(b"", 1), made(b"", 3)), (vec![7], vec![0, 1, 7]));
    // The longest phrase; the largest entry is 65,535.
    let entries = vec![0; 65_535].into_iter().chain([65_535]).chain(1..=65_535).chain([1]);
    assert_eq!(made(&[b'a'; 65_535], 2 * 65_536), entries.collect::<Vec<u16>>());
    assert_eq!(made(&[b'a'; 65_535], 2 * 65_536 - 1), vec![7; 2 * 65_536 - 1]);
    assert_eq!(made(&[b'a'; 65_536], 140_000), vec![7; 140_000]);
}

/// The windows of method 4 or 7, each by its first letter, counted from 1, and the looks at it. What is done at a window does not depend on later
/// letters of the text, and each window costs a look. So a text that ends where the window ends costs the window's looks more than a text that is a
/// letter shorter.
fn attempts_by(method: u32, phrase: &[u8], text: &[u8]) -> Vec<(usize, u32)> {
    let looks = |n: usize| found(method, phrase, &text[..n]).1;
    let added = (phrase.len()..=text.len()).map(|n| (n - phrase.len() + 1, looks(n) - looks(n - 1)));
    added.filter(|&(_, looks)| looks > 0).collect()
}

/// The windows of method 7.
fn attempts(phrase: &[u8], text: &[u8]) -> Vec<(usize, u32)> {
    attempts_by(7, phrase, text)
}

/// The text is the row of letters in Figure 2; its caption and Example 2 have one b less, which does not fit the attempts in words. The starts are
/// those of the attempts in words, by the letters of T that they name; the figure's rows as they reach us have lost columns.
#[test]
fn figure_2_of_document_001() {
    let (phrase, text) = (b"abaaca", b"abababcababbbca");
    // Attempt 1: P[5] and T[5] are unequal; the move is Sunday's by T[7], which is 2.
    // Attempt 2: P[5] and T[7] are equal, then letters 1 to 3; letter 4 is not. The move is MAX_Shift[4], which is 5, and j becomes −1.
    // Attempt 3: P[5] and T[12] are unequal; the move is Sunday's by T[14], which is 2.
    // Attempt 4: P[5] and T[14] are equal, then letters 1 and 2; letter 3 is not. The move by 5 passes the end.
    assert_eq!(attempts(phrase, text), [(1, 1), (3, 1 + 4), (8, 1), (10, 1 + 3)]);
    assert_eq!(found(7, phrase, text), (0, 11, vec![]));
}

/// Window 1 to 3: P[3] is equal (1), then letters 1 to 3, P[3] once more (4): place 0. Here j is 4, MAX_Shift[4] is 2, and j becomes 2, with a
/// carried. Window 3 to 5: letters 2 and 3 (6): place 2. Here j is 4 again and becomes b[4], which is 2; the window 5 to 7 passes the end.
#[test]
fn improved_line_of_the_finder() {
    assert_eq!(attempts(b"aba", b"ababa"), [(1, 4), (3, 2)]);
    assert_eq!(found(7, b"aba", b"ababa"), (2, 6, vec![0, 2]));
}

/// abaa has equal gaps at letters 2 and 3; letter 3 is looked at first.
#[test]
fn improved_with_equal_gaps() {
    // Letter 3 is unequal at once. By letter 2, which is equal, letters 1 to 3 would have followed.
    assert_eq!(found(7, b"abaa", b"abba"), (0, 1, vec![]));
    // Letter 3 is equal, then letters 1 to 3; letter 4 is not.
    assert_eq!(found(7, b"abaa", b"abab"), (0, 1 + 4, vec![]));
    // Letter 3 is equal, letter 1 is not; the move is md, which is 2. Then an occurrence, which costs 1 look and one at each letter.
    assert_eq!(attempts(b"abaa", b"bbabaa"), [(1, 1 + 1), (3, 1 + 4)]);
}

#[test]
fn improved_moves_after_letter_mdp_is_equal() {
    // Letter 5, and letters 1 to 5, are equal, letter 6 is not. The move is KMP_Shift[6], which is 6 and larger than md.
    assert_eq!(attempts(b"abaaca", b"abaacbabaaca"), [(1, 1 + 6), (7, 1 + 6)]);
    // Letter 4 is equal, and letter 1 is not: md is 3, and j becomes −2.
    assert_eq!(attempts(b"abca", b"bbbabca"), [(1, 1 + 1), (4, 1 + 4)]);
    // An occurrence of abca: md is 3, j − 1 is 4, so the move is KMP's by 3, with a carried; letters 2 to 4 remain.
    assert_eq!(attempts(b"abca", b"abcabca"), [(1, 1 + 4), (4, 3)]);
    // An occurrence of abc: md is 3 and j − 1 too, so that j becomes 1 and nothing is carried.
    assert_eq!(attempts(b"abc", b"abcabc"), [(1, 1 + 3), (4, 1 + 3)]);
}

/// Each text starts with an occurrence, at which letter mdp and then all letters are looked at, and after which a is carried, with j at 2.
#[test]
fn improved_carried_windows_move_by_kmp() {
    // Letter 2 is unequal. KMP_Shift[2] is 1 and leads to the occurrence at 3, with nothing carried. MAX_Shift[2] is 2 and would lose it.
    assert_eq!(attempts(b"aba", b"abaaba"), [(1, 4), (3, 1), (4, 4)]);
    assert_eq!(found(7, b"aba", b"abaaba"), (2, 9, vec![0, 3]));
    // Letter 2 is equal, letter 3 is not: b[3] is 0, and the move by 3 leads to the occurrence at 5.
    assert_eq!(attempts(b"aba", b"ababbaba"), [(1, 4), (3, 2), (6, 4)]);
    assert_eq!(found(7, b"aba", b"ababbaba"), (2, 10, vec![0, 5]));
    // Letters 2 and 3 are equal, letter 4 is not. KMP_Shift[4] is 2, with a carried again, and leads to the occurrence at 7. MAX_Shift[4] is 5 and
    // would lose it.
    assert_eq!(attempts(b"abaaca", b"abaacababaaca"), [(1, 7), (6, 3), (8, 5)]);
    assert_eq!(found(7, b"abaaca", b"abaacababaaca"), (2, 15, vec![0, 7]));
}

/// Letter mdp is unequal and the window ends where the text ends, so there is no letter for Sunday's move.
#[test]
fn improved_stops_where_no_letter_follows() {
    assert_eq!(found(7, b"abaaca", b"abaaaa"), (0, 1, vec![]));
    // With a letter more there is a move, by 1 for a; it leads to the last window.
    assert_eq!(attempts(b"abaaca", b"abaaaaa"), [(1, 1), (2, 1)]);
    // With a letter that is absent the move by 7 passes the end.
    assert_eq!(found(7, b"abaaca", b"abaaaax"), (0, 1, vec![]));
    // After an occurrence: md is 2 and j − 1 too, nothing is carried, and letter 2 is unequal.
    assert_eq!(attempts(b"ab", b"abaa"), [(1, 3), (3, 1)]);
}

/// md, mdp and both entries of MAX_Shift are 1. A letter that is equal is looked at twice; one that is not, once, with Sunday's move.
#[test]
fn improved_phrase_of_one_letter() {
    assert_eq!((widest_gap(b"a"), improved_fjs::max_shift(b"a")), ((1, 1), vec![1, 1]));
    assert_eq!(found(7, b"a", b"aaa"), (3, 6, vec![0, 1, 2]));
    assert_eq!(found(7, b"b", b"aaa"), (0, 2, vec![]));
    assert_eq!(found(7, b"a", b"a"), (1, 2, vec![0]));
    assert_eq!(attempts(b"a", b"cabcca"), [(1, 1), (2, 2), (3, 1), (5, 1), (6, 2)]);
    assert_eq!(found(7, b"a", b"cabcca"), (2, 7, vec![1, 5]));
}

#[test]
fn improved_phrase_longer_than_the_text() {
    assert_eq!(found(7, b"ab", b"a"), (0, 0, vec![]));
    assert_eq!(found(7, b"b", b""), (0, 0, vec![]));
    assert_eq!(found(7, &[b'a'; 1024], &[b'a'; 1023]), (0, 0, vec![]));
}

#[test]
fn improved_scratch() {
    let mut tables = [&[4; 256][..], &KMP_AND_MAX_SHIFT_OF_ABA].concat();
    (tables[b'a' as usize], tables[b'b' as usize]) = (1, 2);
    for length in [264, 265, 2306] {
        let mut scratch = vec![7; length];
        let mut list = [7; 3];
        assert_eq!(find(7, b"aba", b"ababa", &mut scratch[..263], &mut list), (5, 0, 0));
        assert_eq!((&scratch, list), (&vec![7; length], [7; 3]));
        assert_eq!(find(7, b"aba", b"ababa", &mut scratch, &mut list), (0, 2, 6));
        assert_eq!((scratch, list), ([tables.clone(), vec![7; length - 264]].concat(), [0, 2, 7]));
        // A phrase longer than the text leaves the tables all the same.
        let mut scratch = vec![7; length];
        assert_eq!(find(7, b"aba", b"ab", &mut scratch, &mut list), (0, 0, 0));
        assert_eq!((scratch, list), ([tables.clone(), vec![7; length - 264]].concat(), [0, 2, 7]));
        // A list shorter than the total.
        let mut list = [7];
        assert_eq!((find(7, b"aba", b"ababa", &mut vec![7; length], &mut list), list), ((0, 2, 6), [0]));
    }
}

#[test]
fn improved_gives_the_naive_places() {
    let same = |phrase: &[u8], text: &[u8]| {
        let ((total, _, places), (naive_total, _, naive_places)) = (found(7, phrase, text), found(0, phrase, text));
        assert_eq!((total, places), (naive_total, naive_places), "{phrase:?} in {text:?}");
    };
    let texts: Vec<Vec<u8>> = (0..=9).flat_map(words).collect();
    for phrase in (1..=6).flat_map(words) {
        texts.iter().for_each(|text| same(&phrase, text));
    }
    let texts: Vec<Vec<u8>> = (0..=7).flat_map(|length| words_over(b"abc", length)).collect();
    for phrase in (1..=4).flat_map(|length| words_over(b"abc", length)) {
        texts.iter().for_each(|text| same(&phrase, text));
    }
}

#[test]
fn starred_fjs_cases() {
    assert_eq!(found(4, b"aba", b"aaaaa"), (0, 9, vec![]));
    assert_eq!(found(4, b"aba", b"aaa"), (0, 3, vec![]));
    assert_eq!(found(4, b"aba", b"aba"), (1, 3, vec![0]));
    assert_eq!(found(4, b"aa", b"aaa"), (2, 3, vec![0, 1]));
    assert_eq!(found(4, b"a", b"aaa"), (3, 3, vec![0, 1, 2]));
    assert_eq!(found(4, b"b", b"aaa"), (0, 2, vec![]));
    assert_eq!(found(4, b"ab", b"a"), (0, 0, vec![]));
}

#[test]
fn limits() {
    let mut scratch = [0; 2306];
    let text = [b'x'; 32_769];
    assert_eq!(find(4, &[b'a'; 1024], &text[..1024], &mut scratch, &mut []).0, 0);
    assert_eq!(find(4, &[b'a'; 1025], &text[..1024], &mut scratch, &mut []), (3, 0, 0));
    assert_eq!(find(4, b"abc", &text[..32_768], &mut scratch, &mut []).0, 0);
    assert_eq!(find(4, b"abc", &text, &mut scratch, &mut []), (4, 0, 0));
    assert_eq!(find(4, b"abc", &text[..9], &mut scratch[..259], &mut []), (5, 0, 0));
    assert_eq!(find(4, b"abc", &text[..9], &mut scratch[..260], &mut []).0, 0);
    assert_eq!(find(6, &[b'a'; 1024], &text[..1024], &mut scratch[..1279], &mut []), (5, 0, 0));
    assert_eq!(find(6, &[b'a'; 1024], &text[..1024], &mut scratch[..1280], &mut []).0, 0);
    assert_eq!(find(7, &[b'a'; 1024], &text[..1024], &mut scratch[..2305], &mut []), (5, 0, 0));
    assert_eq!(find(7, &[b'a'; 1024], &text[..1024], &mut scratch, &mut []).0, 0);
    assert_eq!(find(7, b"", &text, &mut [], &mut []), (2, 0, 0));
    assert_eq!(find(8, b"", &text, &mut [], &mut []), (1, 0, 0));
    assert_eq!(find(u32::MAX, b"", &text, &mut [], &mut []), (1, 0, 0));
}

#[test]
fn figure_of_document_001() {
    // A text as the five attempts in words describe it. They look at 1 pair; at 1 and letters 1 to 4; at letters 2 and 3; at 1; at 1 and letters 1 to 3.
    let (phrase, text) = (b"abaaca", b"abababcababbbca");
    let run = fjs::run(phrase, text, &sunday::table(phrase), &kmp::table(phrase));
    assert!(run.places.is_empty());
    assert_eq!(run.comparisons, 1 + 5 + 2 + 1 + 4);
}

/// The rules of a move by their numbers.
const SUNDAY: u32 = 1;
const KMP: u32 = 2;

/// What method 4 gives, as `found` gives it, and its moves, with memory enough, since no start has two moves.
fn moved(phrase: &[u8], text: &[u8]) -> ((u32, u32, Vec<u32>), Vec<[u32; 3]>) {
    let (mut scratch, mut list, mut moves) = (vec![7; 1281], vec![7; text.len()], vec![7; 3 * text.len()]);
    let (refusal, total, comparisons, made) = find_moves(phrase, text, &mut scratch, &mut list, &mut moves);
    assert_eq!(refusal, 0);
    list.truncate(total as usize);
    moves.truncate(3 * made as usize);
    assert_eq!(moves.len(), 3 * made as usize);
    ((total, comparisons, list), moves.chunks(3).map(|numbers| numbers.try_into().unwrap()).collect())
}

/// The moves of Figure 1 of source document 001, by its attempts in words. The text is the figure's row of 15 letters; its caption and the sentence
/// before the attempts each print one letter less, while attempt 5 names T[15]. In attempts 1, 2, 4 and 5 the phrase's last letter lies over T[6],
/// T[8], T[13] and T[15], and in attempt 3 its first letter over T[5], so that the starts from 0 are 0, 2, 4, 7 and 9.
const MOVES_OF_FIGURE_1: [[u32; 3]; 5] = [[0, 2, SUNDAY], [2, 4, KMP], [4, 7, KMP], [7, 9, SUNDAY], [9, 12, KMP]];

#[test]
fn moves_of_figure_1() {
    // Attempt 1: Sunday_Shift[c] is 2. Attempt 2: KMP_Shift[4] is 2. Attempt 3: KMP_Shift[3] is 3. Attempt 4: Sunday_Shift[c] is 2.
    // Attempt 5: letter 3 is unequal and the search ends, by a move of KMP_Shift[3], which is 3; a window from 12 would end at letter 18 of 15.
    assert_eq!(moved(b"abaaca", b"abababcababbbca"), ((0, 13, vec![]), MOVES_OF_FIGURE_1.to_vec()));
}

/// The last letter is unequal and the window ends where the text ends.
#[test]
fn a_sunday_stop_is_no_move() {
    assert_eq!(moved(b"aba", b"abb"), ((0, 1, vec![]), vec![]));
    assert_eq!(moved(b"b", b"a"), ((0, 1, vec![]), vec![]));
    // Sunday's move by 2, since a is absent from the phrase, and then the stop.
    assert_eq!(moved(b"b", b"aaa"), ((0, 2, vec![]), vec![[0, 2, SUNDAY]]));
    // An occurrence of ab, 2 looks, and KMP's move by 2, with nothing carried; then the stop.
    assert_eq!(moved(b"ab", b"abaa"), ((1, 3, vec![0]), vec![[0, 2, KMP]]));
}

/// With a letter after the window, the move is listed, also where it passes the text's end. The Sunday entries of aba are a 1, b 2, others 4.
#[test]
fn a_last_sunday_move_is_listed() {
    assert_eq!(moved(b"aba", b"abbb"), ((0, 1, vec![]), vec![[0, 2, SUNDAY]]));
    // The letter is absent, and the new start is the text's length.
    assert_eq!(moved(b"aba", b"abbx"), ((0, 1, vec![]), vec![[0, 4, SUNDAY]]));
    assert_eq!(moved(b"b", b"aa"), ((0, 1, vec![]), vec![[0, 2, SUNDAY]]));
    // From 0 Sunday's move by 1 for a, 1 look; from 1 the last letter is equal and letter 1 is not, 2 looks; from 2 Sunday's by 2 for b, 1 look.
    assert_eq!(moved(b"aba", b"abbabb"), ((0, 4, vec![]), vec![[0, 1, SUNDAY], [1, 2, KMP], [2, 4, SUNDAY]]));
}

/// After an occurrence the move is KMP's, by m less the longest proper border; at the text's end it passes the end.
#[test]
fn moves_after_an_occurrence() {
    assert_eq!(moved(b"aba", b"aba"), ((1, 3, vec![0]), vec![[0, 2, KMP]]));
    assert_eq!(moved(b"aba", b"ababa"), ((2, 5, vec![0, 2]), vec![[0, 2, KMP], [2, 4, KMP]]));
    assert_eq!(moved(b"aa", b"aaa"), ((2, 3, vec![0, 1]), vec![[0, 1, KMP], [1, 2, KMP]]));
    assert_eq!(moved(b"a", b"aaa"), ((3, 3, vec![0, 1, 2]), vec![[0, 1, KMP], [1, 2, KMP], [2, 3, KMP]]));
    // Border 0: the new start is the text's length.
    assert_eq!(moved(b"ab", b"ab"), ((1, 2, vec![0]), vec![[0, 2, KMP]]));
}

/// The KMP entries of aba are 0 1 0 2.
#[test]
fn moves_after_a_mismatch() {
    // In each window the last letter and letter 1 are equal, and letter 2 is not: KMP's move by 2 − 1.
    assert_eq!(moved(b"aba", b"aaa"), ((0, 3, vec![]), vec![[0, 1, KMP]]));
    assert_eq!(moved(b"aba", b"aaaaa"), ((0, 9, vec![]), vec![[0, 1, KMP], [1, 2, KMP], [2, 3, KMP]]));
    // From 0 the last letter is equal and letter 1 is not: KMP's move by 1 − 0, 2 looks. From 1 the last letter is not: Sunday's by 1 for a, 1 look.
    // From 2 an occurrence, 3 looks: KMP's by 4 − 2.
    assert_eq!(moved(b"aba", b"bbaba"), ((1, 6, vec![2]), vec![[0, 1, KMP], [1, 2, SUNDAY], [2, 4, KMP]]));
    // From 0 Sunday's move by 4 for x, 1 look, and from 4 at once another, by 1 for a, 1 look. From 5 the last letter is equal and letter 1 is not,
    // 2 looks. From 6 Sunday's by 1 for a, 1 look. From 7 an occurrence, 3 looks.
    let moves = vec![[0, 4, SUNDAY], [4, 5, SUNDAY], [5, 6, KMP], [6, 7, SUNDAY], [7, 9, KMP]];
    assert_eq!(moved(b"aba", b"xxxxxxxaba"), ((1, 8, vec![7]), moves));
    // From 0 an occurrence, 3 looks, after which a is carried. From 2 the last letter is unequal, but it is not tested first: letter 2 is equal and
    // letter 3 is not, 2 looks, and the move is KMP's by 3 − 0. From 5 an occurrence, 3 looks.
    assert_eq!(moved(b"aba", b"ababbaba"), ((2, 8, vec![0, 5]), vec![[0, 2, KMP], [2, 5, KMP], [5, 7, KMP]]));
}

#[test]
fn moves_at_the_limits() {
    // Each place of the longest text is an occurrence and has its move.
    let moves: Vec<[u32; 3]> = (0..32_768).map(|start| [start, start + 1, KMP]).collect();
    assert_eq!(moved(b"a", &[b'a'; 32_768]), ((32_768, 32_768, (0..32_768).collect()), moves));
    // The longest phrase in the longest text, with no letter of it: Sunday's moves by 1,025. The last window is the one from 30 · 1,025 = 30,750,
    // which ends at letter 31,774; its move leads to 31,775, and that window would end at letter 32,799.
    let moves: Vec<[u32; 3]> = (0..=30).map(|k| [1025 * k, 1025 * (k + 1), SUNDAY]).collect();
    assert_eq!(moved(&[b'a'; 1024], &[b'b'; 32_768]), ((0, 31, vec![]), moves));
}

/// Tables, places and moves in lent memory of each length, with entries that were not 0 before.
#[test]
fn lent_memory_of_a_find_with_moves() {
    let mut tables = [vec![4; 256], vec![0, 1, 0, 2]].concat();
    (tables[b'a' as usize], tables[b'b' as usize]) = (1, 2);
    for length in [260, 261, 1281] {
        for places in 0..=4 {
            let (mut scratch, mut list, mut moves) = (vec![9; length], vec![8; places], [7; 8]);
            assert_eq!(find_moves(b"aba", b"ababa", &mut scratch, &mut list, &mut moves), (0, 2, 5, 2));
            assert_eq!(scratch, [tables.clone(), vec![9; length - 260]].concat());
            assert_eq!(list, [0, 2, 8, 8][..places]);
            assert_eq!(moves, [0, 2, KMP, 2, 4, KMP, 7, 7]);
            // A phrase longer than the text has no moves, and leaves the tables all the same.
            let (mut scratch, mut list, mut moves) = (vec![9; length], vec![8; places], [7; 8]);
            assert_eq!(find_moves(b"aba", b"ab", &mut scratch, &mut list, &mut moves), (0, 0, 0, 0));
            assert_eq!(scratch, [tables.clone(), vec![9; length - 260]].concat());
            assert_eq!((list, moves), (vec![8; places], [7; 8]));
        }
    }
    assert_eq!(moved(b"b", b""), ((0, 0, vec![]), vec![]));
    assert_eq!(moved(&[b'a'; 1024], &[b'a'; 1023]), ((0, 0, vec![]), vec![]));
}

/// The five moves of Figure 1, in lists of no entry up to two moves more, whose entries were all different before.
#[test]
fn lengths_of_the_list_of_moves() {
    let numbers = MOVES_OF_FIGURE_1.concat();
    for length in 0..=21 {
        let before: Vec<u32> = (100..).take(length).collect();
        let mut moves = before.clone();
        assert_eq!(find_moves(b"abaaca", b"abababcababbbca", &mut [9; 263], &mut [], &mut moves), (0, 0, 13, 5));
        let written = match length {
            0..=2 => 0,
            3..=5 => 3,
            6..=8 => 6,
            9..=11 => 9,
            12..=14 => 12,
            _ => 15,
        };
        assert_eq!(moves, [&numbers[..written], &before[written..]].concat(), "length {length}");
    }
}

/// The refusals of method 4 in their order, each met by a call that would also meet the later ones. All lent memory stays as it was.
#[test]
fn refused_finds_with_moves() {
    let (long_phrase, long_text) = ([b'a'; 1025], [b'a'; 32_769]);
    let refused = |phrase: &[u8], text: &[u8], length: usize| {
        let (mut scratch, mut list, mut moves) = (vec![9; length], [8; 3], [7; 7]);
        let answer = find_moves(phrase, text, &mut scratch, &mut list, &mut moves);
        assert_eq!((scratch, list, moves), (vec![9; length], [8; 3], [7; 7]));
        answer
    };
    assert_eq!(refused(b"", &long_text, 0), (2, 0, 0, 0));
    assert_eq!(refused(&long_phrase, &long_text, 0), (3, 0, 0, 0));
    assert_eq!(refused(&long_phrase[..1024], &long_text, 0), (4, 0, 0, 0));
    assert_eq!(refused(&long_phrase[..1024], &long_text[..32_768], 1280), (5, 0, 0, 0));
    assert_eq!(refused(b"aba", b"ababa", 259), (5, 0, 0, 0));
    assert_eq!(refused(b"aba", b"ab", 259), (5, 0, 0, 0));
}

/// The moves of FJS told window by window, without the tables and without i, j and ip.
fn moves_by_windows(phrase: &[u8], text: &[u8]) -> Vec<[u32; 3]> {
    let m = phrase.len();
    let mut moves = Vec::new();
    // The window's start, and how many letters at its front are known to be equal.
    let (mut start, mut carried) = (0, 0);
    while start + m <= text.len() {
        let window = &text[start..start + m];
        let (by, rule) = if carried == 0 && window[m - 1] != phrase[m - 1] {
            // Sunday: the smallest move that brings an equal letter of the phrase over the next letter of the text; past it if there is none.
            let Some(&next) = text.get(start + m) else { break };
            ((1..=m).find(|&by| phrase[m - by] == next).unwrap_or(m + 1), SUNDAY)
        } else {
            // KMP: the smallest move after which the letters that were equal are equal again, and the letter that was unequal, if there was one, has
            // another letter of the phrase over it, or none.
            let equal = (0..m).take_while(|&k| phrase[k] == window[k]).count();
            let equal_again = |by: usize| (by..equal).all(|k| phrase[k - by] == phrase[k]);
            let another = |by: usize| equal == m || by > equal || phrase[equal - by] != phrase[equal];
            let by = (1..=equal + 1).find(|&by| equal_again(by) && another(by)).unwrap();
            carried = equal.saturating_sub(by);
            (by, KMP)
        };
        moves.push([start as u32, (start + by) as u32, rule]);
        start += by;
    }
    moves
}

#[test]
fn moves_of_all_short_phrases_and_texts() {
    let texts: Vec<Vec<u8>> = (0..=8).flat_map(words).collect();
    for phrase in (1..=4).flat_map(words) {
        for text in &texts {
            let (find, moves) = moved(&phrase, text);
            let case = format!("{phrase:?} in {text:?}: {moves:?}");
            assert_eq!(find, found(4, &phrase, text), "{case}");

            // The moves chain, each goes on, and each starts from a window within the text.
            let mut start = 0;
            for &[old, new, rule] in &moves {
                assert!(old == start && new > old && [SUNDAY, KMP].contains(&rule), "{case}");
                assert!(old as usize + phrase.len() <= text.len(), "{case}");
                start = new;
            }
            // After the last move, the window passes the end or is the one that ends where the text ends, with its last letter unequal.
            let end = start as usize + phrase.len();
            assert!(end > text.len() || end == text.len() && phrase.last() != text.last(), "{case}");

            // Every occurrence, by the definition, is the old start of a KMP move.
            for place in (0..text.len()).filter(|&place| text[place..].starts_with(&phrase)) {
                assert!(moves.iter().any(|&[old, _, rule]| (old, rule) == (place as u32, KMP)), "{case}");
            }

            // The windows by the moves are those by the looks.
            let starts = [0].into_iter().chain(moves.iter().map(|&[_, new, _]| new as usize));
            let within: Vec<usize> = starts.filter(|start| start + phrase.len() <= text.len()).collect();
            let looked_at: Vec<usize> = attempts_by(4, &phrase, text).iter().map(|&(letter, _)| letter - 1).collect();
            assert_eq!(within, looked_at, "{case}");

            assert_eq!(moves, moves_by_windows(&phrase, text), "{case}");
        }
    }
}

/// The places after a late cut that is not refused, with memory enough, since no place of the new text is listed twice.
fn relisted(phrase: &[u8], text: &[u8], list: &[u32], start: usize, end: usize, letters: &[u8]) -> Vec<u32> {
    let mut answer = vec![7; text.len() + letters.len()];
    let (refusal, total) = relist(phrase, text, list, start, end, letters, &mut answer);
    assert_eq!(refusal, 0);
    assert_eq!(answer[total as usize..], vec![7; answer.len() - total as usize]);
    answer.truncate(total as usize);
    answer
}

#[test]
fn texts_after_a_cut() {
    assert_eq!(new_text(b"la la", 3, 5, b"so"), b"la so");
    assert_eq!(new_text(b"la la", 2, 3, b""), b"lala");
    assert_eq!(new_text(b"la la", 2, 2, b"h"), b"lah la");
    assert_eq!(new_text(b"la la", 0, 0, b"o "), b"o la la");
    assert_eq!(new_text(b"la la", 5, 5, b"!"), b"la la!");
    assert_eq!(new_text(b"la la", 0, 5, b""), b"");
    assert_eq!(new_text(b"", 0, 0, b""), b"");
}

/// la stands at 0, 3 and 6 of the old text. The stretch is the second la, or one letter of it.
#[test]
fn cuts_of_a_refrain() {
    let cut = |start, end, letters: &[u8]| relisted(b"la", b"la la la", &[0, 3, 6], start, end, letters);
    // The one at 3 drops out. The others keep their places, since the length is as before.
    assert_eq!(cut(3, 5, b"so"), [0, 6]);
    assert_eq!(cut(3, 4, b"t"), [0, 6]);
    assert_eq!(cut(4, 5, b"o"), [0, 6]);
    // It drops out and is found afresh, in the new letters or with one letter on either side.
    assert_eq!(cut(3, 5, b"la"), [0, 3, 6]);
    assert_eq!(cut(3, 4, b"l"), [0, 3, 6]);
    assert_eq!(cut(4, 5, b"a"), [0, 3, 6]);
    // la tra la la: 4 letters more. la so so so la: 6 letters more. la o la: 1 letter less.
    assert_eq!(cut(3, 5, b"tra la"), [0, 7, 10]);
    assert_eq!(cut(3, 5, b"so so so"), [0, 12]);
    assert_eq!(cut(3, 5, b"o"), [0, 5]);
}

#[test]
fn cuts_that_make_one_across_the_seam() {
    // l-a la without the hyphen is la la; the one at 4 moves by −1.
    assert_eq!(relisted(b"la", b"l-a la", &[4], 1, 2, b""), [0, 3]);
    // From lo la and from sa la to la la: the new letter is the last or the first of the phrase.
    assert_eq!(relisted(b"la", b"lo la", &[3], 1, 2, b"a"), [0, 3]);
    assert_eq!(relisted(b"la", b"sa la", &[3], 0, 1, b"l"), [0, 3]);
    // Across both seams: aca becomes aba.
    assert_eq!(relisted(b"aba", b"aca", &[], 1, 2, b"b"), [0]);
    // The phrase is longer than the old text, and not longer than the new one.
    assert_eq!(relisted(b"lalala", b"la", &[], 1, 1, b"alal"), [0]);
}

#[test]
fn insertions() {
    let insertion = |place, letters: &[u8]| relisted(b"la", b"la la", &[0, 3], place, place, letters);
    // Inside the one at 0, which drops out: l-a la.
    assert_eq!(insertion(1, b"-"), [4]);
    // Just after it, where it stays: lah la.
    assert_eq!(insertion(2, b"h"), [0, 4]);
    // Just before the one at 3, which moves: la la la.
    assert_eq!(insertion(3, b"la "), [0, 3, 6]);
    // At the text's front and at its end: la la la, la lala.
    assert_eq!(insertion(0, b"la "), [0, 3, 6]);
    assert_eq!(insertion(5, b"la"), [0, 3, 5]);
    // Into the empty text.
    assert_eq!(relisted(b"la", b"", &[], 0, 0, b"lala"), [0, 2]);
}

#[test]
fn removals_at_the_front_and_at_the_end() {
    let removal = |start, end| relisted(b"la", b"la la", &[0, 3], start, end, b"");
    // a la, then la, then a.
    assert_eq!(removal(0, 1), [2]);
    assert_eq!(removal(0, 3), [0]);
    assert_eq!(removal(0, 4), []);
    // la l, then la, then l.
    assert_eq!(removal(4, 5), [0]);
    assert_eq!(removal(2, 5), [0]);
    assert_eq!(removal(1, 5), []);
    // The whole text, and a text that is one occurrence of one letter.
    assert_eq!(removal(0, 5), []);
    assert_eq!(relisted(b"a", b"a", &[0], 0, 1, b""), []);
}

/// Where the phrase crosses the seam, it drops out and is found afresh.
#[test]
fn empty_stretches_without_new_letters() {
    for place in 0..=5 {
        assert_eq!(relisted(b"la", b"la la", &[0, 3], place, place, b""), [0, 3], "place {place}");
        assert_eq!(relisted(b"aba", b"ababa", &[0, 2], place, place, b""), [0, 2], "place {place}");
    }
    assert_eq!(relisted(b"a", b"", &[], 0, 0, b""), []);
}

/// aba stands at 0 and at 2 of ababa; both have the a at 2.
#[test]
fn cuts_of_overlapping_occurrences() {
    let replaced = |place: usize, letters: &[u8]| relisted(b"aba", b"ababa", &[0, 2], place, place + 1, letters);
    // Both drop out: abbba. Both are found afresh: ababa.
    assert_eq!(replaced(2, b"b"), []);
    assert_eq!(replaced(2, b"a"), [0, 2]);
    // One drops out: bbaba and aaaba keep the one at 2, abaaa and ababb the one at 0.
    assert_eq!(replaced(0, b"b"), [2]);
    assert_eq!(replaced(1, b"a"), [2]);
    assert_eq!(replaced(3, b"a"), [0]);
    assert_eq!(replaced(4, b"b"), [0]);
    // abababa: found afresh at 0 and 2, in a before, bab, and ab after; the one at 2 moves to 4.
    assert_eq!(replaced(1, b"bab"), [0, 2, 4]);
    // Without the a at 2 it is abba, without the b at 1 aaba, in which the one at 2 has moved to 1.
    assert_eq!(replaced(2, b""), []);
    assert_eq!(replaced(1, b""), [1]);
}

/// No letter on either side is looked at.
#[test]
fn cuts_for_a_phrase_of_one_letter() {
    assert_eq!(relisted(b"a", b"aba", &[0, 2], 1, 2, b"a"), [0, 1, 2]);
    assert_eq!(relisted(b"a", b"aba", &[0, 2], 1, 2, b"bab"), [0, 2, 4]);
    assert_eq!(relisted(b"a", b"aba", &[0, 2], 1, 2, b""), [0, 1]);
    assert_eq!(relisted(b"a", b"aba", &[0, 2], 0, 3, b"b"), []);
}

/// The rule alone: no place that stays or moves is tested for an occurrence, and none is looked for beyond m − 1 letters.
#[test]
fn cuts_of_other_accepted_lists() {
    let cut = |list: &[u32], letters: &[u8]| relisted(b"la", b"la la la", list, 3, 5, letters);
    // 0 and 1 end before the stretch; 2, 3 and 4 touch it; 5 and 6 start at its end or after it. la so la, then la lala la.
    let all = [0, 1, 2, 3, 4, 5, 6];
    assert_eq!(cut(&all, b"so"), [0, 1, 5, 6]);
    assert_eq!(cut(&all, b"lala"), [0, 1, 3, 5, 7, 8]);
    assert_eq!(cut(&all, b""), [0, 1, 3, 4]);
    // Occurrences that the list lacks: those at 0 and 6 of the old text are not looked for, those in the new letters are found.
    assert_eq!(cut(&[], b"lala"), [3, 5]);
    assert_eq!(cut(&[1, 4, 5], b"lala"), [1, 3, 5, 7]);
    // The occurrence at the stretch is found afresh also where the list lacks it and nothing is changed.
    assert_eq!(cut(&[], b"la"), [3]);
    assert_eq!(relisted(b"la", b"la la la", &[], 4, 4, b""), [3]);
}

/// The places are 0, 7 and 10. Entries past those written keep their values, and the total is full.
#[test]
fn short_answers() {
    for length in 0..=5 {
        let mut answer = [90, 91, 92, 93, 94, 95];
        assert_eq!(relist(b"la", b"la la la", &[0, 3, 6], 3, 5, b"tra la", &mut answer[..length]), (0, 3));
        let written = length.min(3);
        assert_eq!(answer[..written], [0, 7, 10][..written]);
        assert_eq!(answer[written..], [90, 91, 92, 93, 94, 95][written..], "length {length}");
    }
}

#[test]
fn cuts_at_the_limits() {
    // The longest phrase with m − 1 letters on either side, and with m, where one stays and one moves.
    let phrase = [b'a'; 1024];
    let text = [vec![b'a'; 1023], vec![b'x'], vec![b'a'; 1023]].concat();
    assert_eq!(relisted(&phrase, &text, &[], 1023, 1024, b""), (0..1023).collect::<Vec<u32>>());
    let text = [vec![b'a'; 1024], vec![b'x'], vec![b'a'; 1024]].concat();
    assert_eq!(relisted(&phrase, &text, &[0, 1025], 1024, 1025, b""), (0..1025).collect::<Vec<u32>>());
    assert_eq!(relisted(&phrase, &text, &[0, 1025], 1024, 1025, b"b"), [0, 1025]);
    // The longest texts, by a cut at the front, at the end and of the whole.
    let letters = [b'a'; 32_768];
    let all: Vec<u32> = (0..32_768).collect();
    assert_eq!(relisted(b"a", &letters, &all, 0, 1, b"a"), all);
    assert_eq!(relisted(b"a", &letters[..32_767], &all[..32_767], 0, 0, b"a"), all);
    assert_eq!(relisted(b"a", &letters[..32_767], &all[..32_767], 32_767, 32_767, b"a"), all);
    assert_eq!(relisted(b"a", b"", &[], 0, 0, &letters), all);
    assert_eq!(relisted(b"a", &letters, &all, 0, 32_768, &letters), all);
    assert_eq!(relisted(b"a", &letters, &all, 0, 32_767, b""), [0]);
}

/// The refusals in their order, each met by a call that would also meet the later ones where it can. The answer stays as it was.
#[test]
fn refused_cuts() {
    let long = [b'a'; 32_769];
    let refused = |phrase: &[u8], text: &[u8], list: &[u32], start: usize, end: usize, letters: &[u8]| {
        let mut answer = [7; 3];
        let given = relist(phrase, text, list, start, end, letters, &mut answer);
        assert_eq!(answer, [7; 3]);
        given
    };
    assert_eq!(refused(b"", &long, &[3, 0], 2, 1, &long), (2, 0));
    assert_eq!(refused(&long[..1025], &long, &[3, 0], 2, 1, &long), (3, 0));
    assert_eq!(refused(&long[..1024], &long, &[3, 0], 2, 1, &long), (4, 0));
    // The old text is too long, also where the cut would make it short enough.
    assert_eq!(refused(b"la", &long, &[], 0, 32_769, b""), (4, 0));

    // The stretch ends before it starts, or past the text, also where it is empty.
    let most = usize::MAX;
    for (start, end) in [(2, 1), (5, 0), (most, 0), (most, most - 1), (0, 6), (5, 6), (6, 6), (7, 6), (6, 5), (0, most), (most, most)] {
        assert_eq!(refused(b"la", b"la la", &[3, 0], start, end, &long), (17, 0), "from {start} to {end}");
        assert_eq!(refused(b"la", b"la la", &[0, 3], start, end, b""), (17, 0), "from {start} to {end}");
    }

    // The list does not rise, at its front or at its end, or the phrase would pass the end: from 4 it needs 6 letters, and the text has 5. Places
    // that would drop out are tested too.
    let lists: [&[u32]; 9] = [&[3, 0], &[3, 3], &[0, 0, 3], &[0, 3, 2], &[4], &[0, 4], &[0, 3, u32::MAX], &[u32::MAX], &[u32::MAX, u32::MAX]];
    for list in lists {
        for (start, end) in [(0, 0), (0, 5), (3, 5), (5, 5)] {
            assert_eq!(refused(b"la", b"la la", list, start, end, &long), (18, 0), "{list:?} from {start} to {end}");
            assert_eq!(refused(b"la", b"la la", list, start, end, b""), (18, 0), "{list:?} from {start} to {end}");
        }
    }
    // The phrase is longer than the old text, which then has no place for it; the new text would have.
    assert_eq!(refused(b"la", b"l", &[0], 1, 1, b"a"), (18, 0));
    assert_eq!(relisted(b"la", b"l", &[], 1, 1, b"a"), [0]);

    // The new text is too long.
    assert_eq!(refused(b"la", b"la la", &[0, 3], 0, 5, &long), (4, 0));
    assert_eq!(refused(b"la", b"", &[], 0, 0, &long), (4, 0));
    assert_eq!(refused(b"a", &long[..32_768], &[0, 1], 0, 0, b"a"), (4, 0));
    assert_eq!(refused(b"a", &long[..32_768], &[0, 1], 32_767, 32_768, b"aa"), (4, 0));
}

/// Given the old text's list, the answer is the new text's list.
#[test]
fn cuts_of_all_short_texts() {
    let replacements: Vec<Vec<u8>> = (0..=2).flat_map(words).collect();
    for text in (0..=5).flat_map(words) {
        for phrase in (1..=3).flat_map(words) {
            let (_, _, list) = found(0, &phrase, &text);
            for (start, end) in (0..=text.len()).flat_map(|start| (start..=text.len()).map(move |end| (start, end))) {
                for letters in &replacements {
                    let (_, _, places) = found(0, &phrase, &new_text(&text, start, end, letters));
                    let case = format!("{phrase:?} in {text:?}, from {start} to {end}, {letters:?}");
                    assert_eq!(relisted(&phrase, &text, &list, start, end, letters), places, "{case}");
                }
            }
        }
    }
}

/// The starred book: la, 2, No.
const BOOK: &[u8] = b"\x01\x00\x02la\x02\x00\x02\x00\x02\x03\x00\x02No";

#[test]
fn starred_book() {
    assert_eq!(BOOK, [0x01, 0x00, 0x02, 0x6c, 0x61, 0x02, 0x00, 0x02, 0x00, 0x02, 0x03, 0x00, 0x02, 0x4e, 0x6f]);
    assert_eq!(cues(BOOK), Ok(vec![Cue { phrase: 3..5, ordinal: 2, title: 13..15, days: None, house: None }]));
    assert_eq!(read_cue(0, BOOK, 0), Ok((Cue { phrase: 3..5, ordinal: 2, title: 13..15, days: None, house: None }, 15)));
    assert_eq!(read_book(0, BOOK), (0, 1));
    assert_eq!(title(0, BOOK, 0), (13, 2));
    assert_eq!(title(0, BOOK, 1), (0, 0));
    let mut buffer = [7; 17];
    assert_eq!(write_cue(0, &mut buffer, b"la", 2, b"No", None, 0), (0, 15));
    assert_eq!(buffer, *[BOOK, &[7, 7]].concat());
}

#[test]
fn starred_folds() {
    for page in [1, 15] {
        assert_eq!([0xc9, 0xd7, 0xdf, 0xff].map(|letter| fold(page, letter)), [(0, 0xe9), (0, 0xd7), (0, 0xdf), (0, 0xff)]);
        let mut target = *b"xyz";
        assert_eq!(fold_text(page, b"LA", &mut target), (0, 2));
        assert_eq!(&target, b"laz");
        assert_eq!(fold_text(page, b"ABCD", &mut target), (0, 3));
        assert_eq!(&target, b"abc");
    }
}

/// Document 02 (iv): the four pairs, which page 1 leaves as they are; nothing else differs; and a second folding changes nothing.
#[test]
fn pages() {
    let (page_1, page_15) = (folding_rule(1).unwrap(), folding_rule(15).unwrap());
    let pairs = [(0xa6, 0xa8), (0xb4, 0xb8), (0xbc, 0xbd), (0xbe, 0xff)];
    for (first, second) in pairs {
        assert_eq!([page_15(first), page_15(second)], [second, second]);
        assert_eq!([page_1(first), page_1(second)], [first, second]);
    }
    for letter in 0..=255 {
        let in_a_pair = pairs.iter().any(|&(first, _)| first == letter);
        assert_eq!(page_1(letter) != page_15(letter), in_a_pair, "letter {letter:#04x}");
        assert_eq!((page_1(page_1(letter)), page_15(page_15(letter))), (page_1(letter), page_15(letter)), "letter {letter:#04x}");
        assert_eq!((fold(1, letter), fold(15, letter)), ((0, page_1(letter).into()), (0, page_15(letter).into())));
    }
}

#[test]
fn other_pages() {
    for page in [0, 2, 14, 16, 257, 271, 0x10001, 0x1000f, 1 << 31, u32::MAX] {
        assert!(folding_rule(page).is_none(), "page {page}");
        assert_eq!(fold(page, b'A'), (14, 0), "page {page}");
        let mut target = *b"xyz";
        assert_eq!((fold_text(page, b"LA", &mut target), target), ((14, 0), *b"xyz"), "page {page}");
    }
}

/// The tests of a field in their order, each met by a field that would also meet the later ones.
#[test]
fn fields() {
    assert_eq!(read_field(BOOK, 0, Field::Phrase), Ok((3..5, 5)));
    assert_eq!(read_field(BOOK, 5, Field::Ordinal), Ok((8..10, 10)));
    assert_eq!(read_field(BOOK, 10, Field::Title), Ok((13..15, 15)));
    for place in [13, 14, 15, 16, usize::MAX - 3, usize::MAX] {
        assert_eq!(read_field(BOOK, place, Field::Title), Err(7), "place {place}");
    }
    let met = |field: &[u8], due| read_field(field, 0, due).err();
    assert_eq!(met(&[0x09, 0xff], Field::Ordinal), Some(7));
    assert_eq!(met(&[0x01, 0xff, 0xff], Field::Ordinal), Some(8));
    assert_eq!(met(&[0x02, 0x00, 0x03], Field::Ordinal), Some(9));
    assert_eq!(met(&[0x02, 0x00, 0x02, 0x00], Field::Ordinal), Some(7));
    assert_eq!(met(&[0x02, 0x00, 0x02, 0x00, 0x00], Field::Ordinal), Some(9));
    assert_eq!(met(&[0x02, 0x00, 0x02, 0x01, 0x00], Field::Ordinal), None);
    assert_eq!(read_due(0, BOOK, 10, 3), read_field(BOOK, 10, Field::Title));
    assert_eq!((read_due(0, BOOK, 12, 6), read_due(0, BOOK, 13, 6), read_due(0, BOOK, usize::MAX, 0)), (Err(8), Err(7), Err(7)));
}

#[test]
fn numbers_of_cues() {
    let mut book = BOOK.repeat(999);
    assert_eq!(read_book(0, &[]), (0, 0));
    assert_eq!(read_book(0, &book), (0, 999));
    assert_eq!(title(0, &book, 998), (15 * 998 + 13, 2));
    book.push(0x01);
    assert_eq!(read_book(0, &book), (10, 999));
    assert_eq!(title(0, &book, 998), (0, 0));
    book[15 * 998] = 0x02;
    assert_eq!(read_book(0, &book), (8, 998));
}

#[test]
fn cues_to_be_written() {
    let mut buffer = [7; 1242];
    let letters = [b'a'; 1025];
    assert_eq!(write_cue(0, &mut buffer, b"", 0, &letters, None, 0), (2, 0));
    assert_eq!(write_cue(0, &mut buffer, &letters, 0, &letters, None, 0), (3, 0));
    for (ordinal, title) in [(0, 0), (65_536, 0), (u32::MAX, 0), (1, 201)] {
        assert_eq!(write_cue(0, &mut buffer[..0], b"a", ordinal, &letters[..title], None, 0), (9, 0));
    }
    assert_eq!(write_cue(0, &mut buffer[..1234], &letters[..1024], 65_535, &letters[..200], None, 0), (13, 0));
    assert_eq!(write_cue(0, &mut buffer[..1241], &letters[..1024], 65_535, &letters[..200], Some((0, 36_524)), 0), (13, 0));
    // The days come first of all, and 13 is by the length with them.
    for days in [(0, 36_525), (36_525, 36_525), (1, 0), (u32::MAX, 0)] {
        assert_eq!(write_cue(0, &mut buffer[..0], b"", 0, &letters, Some(days), 0), (16, 0));
    }
    assert_eq!(buffer, [7; 1242]);
    assert_eq!(write_cue(0, &mut buffer, &letters[..1024], 65_535, &letters[..200], None, 0), (0, 1235));
    let longest = Cue { phrase: 3..1027, ordinal: 65_535, title: 1035..1235, days: None, house: None };
    assert_eq!((cues(&buffer[..1235]), &buffer[1235..]), (Ok(vec![longest.clone()]), &[7; 7][..]));
    assert_eq!(write_cue(0, &mut buffer, &letters[..1024], 65_535, &letters[..200], Some((0, 36_524)), 0), (0, 1242));
    assert_eq!(buffer[1235..], [0x04, 0x00, 0x04, 0x00, 0x00, 0x8e, 0xac]);
    assert_eq!(cues(&buffer), Ok(vec![Cue { days: Some((0, 36_524)), ..longest }]));
}

/// Document 02 (viii): the end of 2099 is 36,524; 2000 has a 29 February and 2100 is past the calendar.
#[test]
fn the_calendar() {
    let both = [(0, (2000, 1, 1)), (30, (2000, 1, 31)), (59, (2000, 2, 29)), (60, (2000, 3, 1)), (365, (2000, 12, 31)), (366, (2001, 1, 1))];
    let late = [(9569, (2026, 3, 14)), (36_523, (2099, 12, 30)), (36_524, (2099, 12, 31))];
    for (number, (year, month, of_month)) in both.into_iter().chain(late) {
        assert_eq!((day(year, month, of_month), date(number)), ((0, number), (0, year, month, of_month)));
    }
    let wrong = [(1999, 12, 31), (2100, 1, 1), (2001, 2, 29), (2000, 2, 30), (2000, 4, 31), (2000, 0, 1), (2000, 13, 1), (2000, 1, 0), (2000, 1, 32)];
    for (year, month, of_month) in wrong {
        assert_eq!(day(year, month, of_month), (16, 0), "{year} {month} {of_month}");
    }
    assert_eq!([36_525, 65_535, u32::MAX].map(date), [(16, 0, 0, 0); 3]);
}

/// The starred book's cue with the days 1 to 256.
const DATED: &[u8] = b"\x01\x00\x02la\x02\x00\x02\x00\x02\x03\x00\x02No\x04\x00\x04\x00\x01\x01\x00";

/// Document 02 (viii): the field of the dates, and whose it is.
#[test]
fn dates_of_cues() {
    let dated = Cue { phrase: 3..5, ordinal: 2, title: 13..15, days: Some((1, 256)), house: None };
    assert_eq!(read_cue(0, DATED, 0), Ok((dated.clone(), 22)));
    assert_eq!((read_field(DATED, 15, Field::Dates), read_due(0, DATED, 15, 4)), (Ok((18..22, 22)), Ok((18..22, 22))));
    assert_eq!((read_book(0, &[DATED, BOOK, DATED].concat()), title(0, &[DATED, BOOK].concat(), 1)), ((0, 3), (35, 2)));
    let mut buffer = [7; 23];
    assert_eq!(write_cue(0, &mut buffer, b"la", 2, b"No", Some((1, 256)), 0), (0, 22));
    assert_eq!(buffer, *[DATED, &[7]].concat());
    // After 999 cues a field of dates is the last one's, and anything else remains.
    let full = BOOK.repeat(999);
    assert_eq!(read_book(0, &[&full[..], &DATED[15..]].concat()), (0, 999));
    assert_eq!(read_book(0, &[&full[..], &DATED[15..], &[0x04]].concat()), (10, 999));
    assert_eq!(read_book(0, &[&full[..], &[0x04]].concat()), (7, 998));
    // A second field of dates is where the next phrase is due.
    assert_eq!(read_book(0, &[DATED, &DATED[15..]].concat()), (8, 1));

    // The tests in their order, each met by a field that would also meet the later ones.
    let met = |field: &[u8]| read_book(0, &[DATED, BOOK, field].concat());
    assert_eq!([&[0x04][..], &[0x04, 0x00]].map(met), [(7, 1); 2]);
    for length in [&[0x00, 0x00][..], &[0x00, 0x03], &[0x00, 0x05], &[0x04, 0x00], &[0x04, 0x04]] {
        assert_eq!(met(&[&[0x04], length, &[0xff, 0xff, 0x00]].concat()), (9, 1));
    }
    assert_eq!(met(&[0x04, 0x00, 0x04, 0xff, 0xff, 0x00]), (7, 1));
    assert_eq!(met(&[0x04, 0x00, 0x04, 0x00, 0x00, 0x8e, 0xad]), (16, 1));
    assert_eq!(met(&[0x04, 0x00, 0x04, 0x00, 0x02, 0x00, 0x01]), (16, 1));
    assert_eq!(met(&[0x04, 0x00, 0x04, 0x8e, 0xac, 0x8e, 0xac]), (0, 2));
}

/// House only, open, and a value that there is not.
const HOUSE: &[u8] = &[0x05, 0x00, 0x01, 0x01];
const OPEN: &[u8] = &[0x05, 0x00, 0x01, 0x00];
const NEITHER: &[u8] = &[0x05, 0x00, 0x01, 0x02];

/// Document 02 (xiv): the field that a cue may carry last, and whose it is.
#[test]
fn house_fields_of_cues() {
    for (field, house) in [(HOUSE, Some(1)), (OPEN, Some(0)), (&[][..], None)] {
        for (cue, title_end) in [(BOOK, 15), (DATED, 22)] {
            let marked = [cue, field].concat();
            let (read, end) = read_cue(0, &marked, 0).unwrap();
            assert_eq!((read.house, read.days.is_some(), end), (house, cue == DATED, title_end + field.len()));
            // It is that cue's, also after the 999th.
            assert_eq!(read_book(0, &[&marked[..], cue].concat()), (0, 2));
            let full = [&BOOK.repeat(998)[..], &marked].concat();
            assert_eq!((read_book(0, &full), read_book(0, &[&full[..], &[0x01]].concat())), ((0, 999), (10, 999)));
        }
    }
    assert_eq!((read_field(HOUSE, 0, Field::House), read_due(0, OPEN, 0, 5)), (Ok((3..4, 4)), Ok((3..4, 4))));
    // It comes last: dates after it are where the next phrase is due, and so is a second one.
    assert_eq!(read_book(0, &[BOOK, HOUSE, &DATED[15..]].concat()), (8, 1));
    assert_eq!(read_book(0, &[BOOK, HOUSE, HOUSE].concat()), (8, 1));
    assert_eq!(read_book(0, &[&BOOK.repeat(999)[..], HOUSE, HOUSE].concat()), (10, 999));

    // The tests in their order, each met by a field that would also meet the later ones.
    let met = |field: &[u8]| [BOOK, DATED].map(|cue| read_book(0, &[cue, cue, field].concat()));
    assert_eq!([&[0x05][..], &[0x05, 0x00]].map(met), [[(7, 1); 2]; 2]);
    for length in [&[0x00, 0x00][..], &[0x00, 0x02], &[0x01, 0x00], &[0x01, 0x01]] {
        assert_eq!(met(&[&[0x05], length, &[0x02]].concat()), [(9, 1); 2]);
    }
    assert_eq!(met(&[0x05, 0x00, 0x01]), [(7, 1); 2]);
    for value in [2, 3, 128, 255] {
        assert_eq!(met(&[0x05, 0x00, 0x01, value]), [(9, 1); 2]);
    }
}

/// Document 02 (xiv): the writer is told which, and writes the field for house only.
#[test]
fn house_cues_to_be_written() {
    for (house, field) in [(0, &[][..]), (1, HOUSE)] {
        for (days, cue) in [(None, BOOK), (Some((1, 256)), DATED)] {
            let written = [cue, field].concat();
            let mut buffer = [7; 30];
            assert_eq!(write_cue(0, &mut buffer[..written.len()], b"la", 2, b"No", days, house), (0, written.len() as u32));
            assert_eq!(buffer[..written.len() + 1], *[&written[..], &[7]].concat());
            assert_eq!(write_cue(0, &mut buffer[..written.len() - 1], b"la", 2, b"No", days, house), (13, 0));
        }
    }
    for house in [2, 255, 256, 257, u32::MAX] {
        assert_eq!(write_cue(0, &mut [], b"la", 2, b"No", None, house), (9, 0));
        assert_eq!(write_cue(0, &mut [], b"", 2, b"No", None, house), (2, 0));
        assert_eq!(write_cue(0, &mut [], b"", 2, b"No", Some((1, 0)), house), (16, 0));
        assert_eq!(write_cue(1, &mut [], b"", 2, b"No", Some((1, 0)), house), (19, 0));
    }
}

/// Document 02 (xiv): the operator may do all, a translator have a title replaced, a guest resolve; 19 is ahead of every other test.
#[test]
fn roles() {
    for book in [BOOK, &BOOK[..14], &[]] {
        for role in [1, 2, 3, 256, u32::MAX] {
            assert_eq!((read_due(role, book, 0, 1), read_cue(role, book, 0)), (Err(19), Err(19)));
            assert_eq!((read_book(role, book), title(role, book, 0)), ((19, 0), (0, 0)));
            let mut buffer = [7; 40];
            assert_eq!(write_cue(role, &mut buffer, b"la", 2, b"No", None, 0), (19, 0));
            assert_eq!(retitle(role, book, 0, b"", &mut buffer).0 == 19, role != 1);
            assert!(role == 1 || buffer == [7; 40]);
            assert_eq!(resolved_by(role, 9569, 1, book, b"la la", 1).0 .0 == 19, role != 2);
        }
    }
}

/// Document 02 (xiv): one title replaced and nothing else changed.
#[test]
fn titles_replaced() {
    let book = [BOOK, OPEN, DATED, HOUSE, BOOK].concat();
    let with = |cue, title: &[u8]| {
        let mut buffer = [7; 300];
        let (refusal, length) = retitle(1, &book, cue, title, &mut buffer);
        assert_eq!((refusal, &buffer[length as usize..]), (0, &[7; 300][length as usize..]));
        buffer[..length as usize].to_vec()
    };
    let titled = |title: &[u8]| [&BOOK[..11], &[0, title.len() as u8], title].concat();
    assert_eq!(with(0, b"Non"), [&titled(b"Non")[..], OPEN, DATED, HOUSE, BOOK].concat());
    assert_eq!(with(1, b""), [BOOK, OPEN, &titled(b"")[..], &DATED[15..], HOUSE, BOOK].concat());
    assert_eq!(with(2, &[b't'; 200]), [BOOK, OPEN, DATED, HOUSE, &titled(&[b't'; 200])[..]].concat());
    assert_eq!(with(2, b"No"), book);

    // The tests in their order, each met by a call that would also meet the later ones.
    let long = [b't'; 201];
    let refusal = |role, book: &[u8], cue, title: &[u8], room| {
        let mut buffer = vec![7; room];
        let answer = retitle(role, book, cue, title, &mut buffer);
        (answer, buffer == vec![7; room])
    };
    let fault = [&book[..], BOOK, NEITHER].concat();
    assert_eq!(refusal(2, &fault, 9, &long, 0), ((19, 0), true));
    assert_eq!(refusal(1, &fault, 9, &long, 0), ((9, 3), true));
    assert_eq!(refusal(1, &book, 9, &long, 0), ((9, 0), true));
    assert_eq!(refusal(1, &book, 3, &long[..200], 0), ((12, 0), true));
    assert_eq!(refusal(1, &book, 2, &long[..200], book.len() + 197), ((13, 0), true));
    assert_eq!(refusal(1, &book, 2, &long[..200], book.len() + 198), ((0, book.len() as u32 + 198), false));
}

/// What the resolver gives a role on a day, with the entries, in memory that is just long enough and holds 7 throughout before.
fn resolved_by(role: u32, day: u32, page: u32, book: &[u8], text: &[u8], cues: usize) -> ((u32, u32, u32), Vec<u32>) {
    let (mut copy, mut scratch, mut entries) = (vec![7; text.len()], vec![7; 65_535], vec![7; 3 * cues]);
    let answer = resolve(role, day, page, book, text, Lent { copy: &mut copy, scratch: &mut scratch, entries: &mut entries });
    if [0, 12, 15].contains(&answer.0) {
        assert_eq!(copy, text.iter().map(|&letter| folding_rule(page).unwrap()(letter)).collect::<Vec<u8>>());
        assert_eq!(scratch, [0; 65_535]);
    } else {
        assert_eq!((copy, scratch), (vec![7; text.len()], vec![7; 65_535]));
    }
    (answer, entries)
}

/// What the resolver gives the operator on a day.
fn resolved_on(day: u32, page: u32, book: &[u8], text: &[u8], cues: usize) -> ((u32, u32, u32), Vec<u32>) {
    resolved_by(0, day, page, book, text, cues)
}

/// What the resolver gives for cues that play always.
fn resolved(page: u32, book: &[u8], text: &[u8], cues: usize) -> ((u32, u32, u32), Vec<u32>) {
    resolved_on(9569, page, book, text, cues)
}

#[test]
fn starred_resolving() {
    for page in [1, 15] {
        assert_eq!(resolved(page, BOOK, b"la\nla", 1), ((0, 1, 5), vec![3, 2, 1]));
        assert_eq!(resolved(page, BOOK, b"la", 1), ((12, 0, 2), vec![7, 7, 7]));
    }
}

/// Document 02 (i).
#[test]
fn line_ends() {
    assert_eq!(endings(b"la la"), []);
    assert_eq!(endings(b"a\nb\rc\r\nd"), [1..2, 3..4, 5..7]);
    assert_eq!(endings(b"\r\r\n"), [0..1, 1..3]);
    assert_eq!(endings(b"\n\r"), [0..1, 1..2]);
    let of = |text| (0..=4).map(|place| line_and_column(&endings(text), place)).collect::<Vec<_>>();
    assert_eq!(of(b"a\r\nb"), [(1, 1), (1, 2), (1, 3), (2, 1), (2, 2)]);
    assert_eq!(of(b"a\n\rb"), [(1, 1), (1, 2), (2, 1), (3, 1), (3, 2)]);
}

#[test]
fn folded_and_overlapping_occurrences() {
    let mut book = [0; 1000];
    let (_, first) = write_cue(0, &mut book, b"\xc9L\xe9", 2, b"", None, 0);
    let (_, second) = write_cue(0, &mut book[first as usize..], b"\n", 2, b"the second line's end", None, 0);
    let book = &book[..(first + second) as usize];
    for page in [1, 15] {
        assert_eq!(resolved(page, book, b" \n\xe9l\xc9L\xe9\n", 2), ((0, 2, 8), vec![4, 2, 3, 7, 2, 6]));
        assert_eq!(resolved(page, book, b" \n\xe9l\xc9L\xe9", 2), ((12, 1, 7), vec![4, 2, 3, 7, 7, 7]));
        assert_eq!(resolved(page, book, b" \n\xe9l\xc9L\xe9", 1), ((11, 0, 0), vec![7, 7, 7]));
        assert_eq!(resolved(page, &[], b"", 0), ((0, 0, 0), vec![]));
        assert_eq!(resolved(page, &[], b"LA", 0), ((0, 0, 0), vec![]));
    }
}

/// The first cue of each group, and the one after its last, for cues with phrases of these lengths.
fn bounds_of_groups(lengths: &[usize]) -> Vec<(usize, usize)> {
    let cues: Vec<Cue> = lengths.iter().map(|&length| Cue { phrase: 0..length, ordinal: 1, title: 0..0, days: None, house: None }).collect();
    groups(&cues).into_iter().map(|group| (group.start, group.end)).collect()
}

/// Document 02 (vi): as many consecutive cues as fit into 64 cues and 4,096 phrase bytes.
#[test]
fn groups_of_cues() {
    assert_eq!(bounds_of_groups(&[]), []);
    assert_eq!(bounds_of_groups(&[1; 64]), [(0, 64)]);
    assert_eq!(bounds_of_groups(&[1; 65]), [(0, 64), (64, 65)]);
    assert_eq!(bounds_of_groups(&[64; 64]), [(0, 64)]);
    assert_eq!(bounds_of_groups(&[65; 64]), [(0, 63), (63, 64)]);
    assert_eq!(bounds_of_groups(&[1024; 4]), [(0, 4)]);
    assert_eq!(bounds_of_groups(&[1024, 1024, 1024, 1024, 1]), [(0, 4), (4, 5)]);
    // A cue that does not fit starts the next group, also where a later one would fit.
    assert_eq!(bounds_of_groups(&[1000, 1024, 1024, 1024, 1000, 24, 1000]), [(0, 4), (4, 7)]);
    assert_eq!(bounds_of_groups(&[1024; 999]).len(), 250);
}

/// A phrase and an ordinal, and the days of a cue that has them.
type DatedCue<'a> = (&'a [u8], u32, Option<(u32, u32)>);

fn dated_book_of(cues: &[DatedCue]) -> Vec<u8> {
    let mut book = Vec::new();
    for &(phrase, ordinal, days) in cues {
        let mut cue = [0; 1100];
        let (_, length) = write_cue(0, &mut cue, phrase, ordinal, b"", days, 0);
        book.extend_from_slice(&cue[..length as usize]);
    }
    book
}

/// A book of these phrases and ordinals.
fn book_of(cues: &[(&[u8], u32)]) -> Vec<u8> {
    dated_book_of(&cues.iter().map(|&(phrase, ordinal)| (phrase, ordinal, None)).collect::<Vec<_>>())
}

/// Document 02 (vi): n times the groups walked, the group of a refused cue included; (vii): the cue refused with 15 is counted as the one with 12. The
/// 64th cue is the last of the first group. The text has as many lines as there are cues, and each cue stands at the front of its own.
#[test]
fn reads_of_groups() {
    let text = b"la\n".repeat(130);
    let rising: Vec<(&[u8], u32)> = (1..=130).map(|ordinal| (&b"LA"[..], ordinal)).collect();
    let all: Vec<u32> = (0..130).flat_map(|line| [3 * line, line + 1, 1]).collect();
    assert_eq!(resolved(1, &book_of(&rising), &text, 130), ((0, 130, 3 * 390), all.clone()));
    assert_eq!(resolved(1, &book_of(&rising), b"", 130).0, (12, 0, 0));
    for (fault, walked) in [(0, 1), (1, 1), (63, 1), (64, 2), (127, 2), (128, 3), (129, 3)] {
        let written = 3 * fault as usize;
        let left = [&all[..written], &vec![7; 390 - written]].concat();
        let mut missing = rising.clone();
        missing[fault as usize].0 = b"so";
        assert_eq!(resolved(1, &book_of(&missing), &text, 130), ((12, fault, 390 * walked), left.clone()));
        if fault > 0 {
            // The ordinal of the cue before it, which stands at one place with it.
            let mut repeated = rising.clone();
            repeated[fault as usize].1 = fault;
            assert_eq!(resolved(1, &book_of(&repeated), &text, 130), ((15, fault, 390 * walked), left));
        }
    }
}

/// Document 02 (vii): the first cue whose place is not above the one before it is named, 15 is tested after 12, cue by cue, and entries and reads are as
/// with 12. The text is of nine letters; "a" stands at 0, 3 and 6.
#[test]
fn cues_run_forward() {
    let text = b"abcabcabc";
    let given = |cues: &[(&[u8], u32)]| {
        let (answer, entries) = resolved(15, &book_of(cues), text, cues.len());
        let places: Vec<u32> = entries.chunks(3).take_while(|&entry| entry != [7; 3]).map(|entry| entry[0]).collect();
        assert_eq!(entries[3 * places.len()..], vec![7; 3 * (cues.len() - places.len())]);
        (answer, places)
    };
    // The first cue may stand at place 0. Occurrences may overlap.
    assert_eq!(given(&[(b"a", 1)]), ((0, 1, 9), vec![0]));
    assert_eq!(given(&[(b"abcabc", 1), (b"bcab", 1), (b"cabc", 2)]), ((0, 3, 9), vec![0, 1, 5]));
    // One place, and a lower one; place 0 too is refused for a later cue.
    assert_eq!(given(&[(b"a", 1), (b"a", 1)]), ((15, 1, 9), vec![0]));
    assert_eq!(given(&[(b"ab", 2), (b"abc", 2)]), ((15, 1, 9), vec![3]));
    assert_eq!(given(&[(b"a", 3), (b"a", 2)]), ((15, 1, 9), vec![6]));
    assert_eq!(given(&[(b"a", 3), (b"a", 1)]), ((15, 1, 9), vec![6]));
    // The cue before it counts, not the first one: 1, 6, 4.
    assert_eq!(given(&[(b"b", 1), (b"a", 3), (b"b", 2)]), ((15, 2, 9), vec![1, 6]));
    // Only the first fault is named: 15 before a later 12, and 12 before a later 15.
    assert_eq!(given(&[(b"a", 2), (b"a", 2), (b"a", 4)]), ((15, 1, 9), vec![3]));
    assert_eq!(given(&[(b"a", 2), (b"a", 4), (b"a", 1)]), ((12, 1, 9), vec![3]));
    assert_eq!(given(&[(b"a", 4), (b"a", 2), (b"a", 1)]), ((12, 0, 9), vec![]));
    // A cue that is missing has no place, so that it meets 12 alone.
    assert_eq!(given(&[(b"c", 3), (b"so", 1)]), ((12, 1, 9), vec![8]));
}

/// Document 02 (iv): the letters of a pair are one letter on page 15 and two on page 1.
#[test]
fn resolving_by_a_page() {
    let mut book = [0; 1000];
    let (_, length) = write_cue(0, &mut book, b"c\xbcur", 2, b"", None, 0);
    let book = &book[..length as usize];
    assert_eq!(resolved(15, book, b"C\xbdUR\nc\xbcur", 1), ((0, 1, 9), vec![5, 2, 1]));
    assert_eq!(resolved(1, book, b"C\xbdUR\nc\xbcur", 1), ((12, 0, 9), vec![7, 7, 7]));
    assert_eq!(resolved(2, book, b"C\xbdUR\nc\xbcur", 1), ((14, 0, 0), vec![7, 7, 7]));
}

/// Document 02 (viii): entries for the playing cues only; forward running, finding, 11 and the number take those alone; a fault names the index in the
/// book. The text is of nine letters; "a" stands at 0, 3 and 6.
#[test]
fn cues_that_play() {
    let text = b"abcabcabc";
    // Always; from 5 to 7, at the same place as the next; from 8 to 8; never found; always.
    let cues: [DatedCue; 5] = [(b"a", 1, None), (b"a", 2, Some((5, 7))), (b"ab", 2, Some((8, 8))), (b"so", 1, Some((9, 36_524))), (b"a", 3, None)];
    let given = |day, room| resolved_on(day, 1, &dated_book_of(&cues), text, room);
    let entries = |places: &[u32]| places.iter().flat_map(|&place| [place, 1, place + 1]).collect::<Vec<u32>>();
    for (day, places) in [(0, &[0, 6][..]), (4, &[0, 6]), (5, &[0, 3, 6]), (6, &[0, 3, 6]), (7, &[0, 3, 6]), (8, &[0, 3, 6])] {
        let count = places.len();
        assert_eq!(given(day, count), ((0, count as u32, 9), entries(places)), "day {day}");
        assert_eq!(given(day, count - 1), ((11, 0, 0), vec![7; 3 * count - 3]), "day {day}");
    }
    for day in [9, 36_524] {
        assert_eq!(given(day, 3), ((12, 3, 9), [entries(&[0]), vec![7; 6]].concat()), "day {day}");
        assert_eq!(given(day, 2), ((11, 0, 0), vec![7; 6]), "day {day}");
    }
    // 15 compares with the playing cue before it: 0, 6, 3 and 0, 3; and 3, 0, 3 and 3, 3, where the index counts the cue that does not play.
    let between = |ordinals: [u32; 3], day| {
        let days = [None, Some((5, 5)), None];
        let cues = [0, 1, 2].map(|k| (&b"a"[..], ordinals[k], days[k]));
        resolved_on(day, 1, &dated_book_of(&cues), text, 3).0
    };
    assert_eq!([5, 4].map(|day| between([1, 3, 2], day)), [(15, 2, 9), (0, 2, 9)]);
    assert_eq!([5, 4].map(|day| between([2, 1, 2], day)), [(15, 1, 9), (15, 2, 9)]);
}

/// Document 02 (viii): with no playing cue there are no groups, and the copy is folded and the scratch 0 all the same, as `resolved_on` tests.
#[test]
fn no_cue_plays() {
    let off: [DatedCue; 2] = [(b"a", 1, Some((1, 1))), (b"so", 1, Some((3, 4)))];
    for day in [0, 2, 5, 36_524] {
        assert_eq!(resolved_on(day, 1, &dated_book_of(&off), b"ABC", 0), ((0, 0, 0), vec![]), "day {day}");
    }
}

/// Document 02 (viii): grouping takes the playing cues alone, by their number and by their bytes.
#[test]
fn groups_of_playing_cues() {
    let text = vec![b'a'; 1200];
    let cues: Vec<DatedCue> = (1..=130).map(|k| (&b"a"[..], k, (k % 2 == 0).then_some((7, 7)))).collect();
    assert_eq!(resolved_on(7, 1, &dated_book_of(&cues), &text, 130).0, (0, 130, 3 * 1200));
    assert_eq!(resolved_on(8, 1, &dated_book_of(&cues), &text, 65).0, (0, 65, 2 * 1200));
    let long = [b'a'; 1024];
    let cues: Vec<DatedCue> = (1..=8).map(|k| (&long[..], k, (k % 2 == 0).then_some((7, 7)))).collect();
    assert_eq!(resolved_on(7, 1, &dated_book_of(&cues), &text, 8).0, (0, 8, 2 * 1200));
    assert_eq!(resolved_on(8, 1, &dated_book_of(&cues), &text, 4).0, (0, 4, 1200));
}

/// Document 02 (xiv): house cues are passed over for a guest like cues that do not play, and its numbers count open cues, playing or not.
#[test]
fn cues_for_a_guest() {
    let cue = |field: &[u8], phrase: &[u8], ordinal, days| [&dated_book_of(&[(phrase, ordinal, days)])[..], field].concat();
    let off = Some((1, 1));
    // An open cue that does not play, a house cue at no place, an open one, a house cue at that place, and an open one.
    let house = [cue(HOUSE, b"so", 1, None), cue(HOUSE, b"la", 1, None)];
    let open = [cue(OPEN, b"so", 1, off), cue(&[], b"la", 1, None), cue(OPEN, b"la", 2, None)];
    let book = [&open[0], &house[0], &open[1], &house[1], &open[2]].map(|cue| &cue[..]).concat();
    let guest = |book: &[u8], text: &[u8], cues| resolved_by(2, 9569, 1, book, text, cues);
    assert_eq!(guest(&book, b"la la", 2), ((0, 2, 5), vec![0, 1, 1, 3, 1, 4]));
    assert_eq!(resolved(1, &book, b"la la", 4).0, (12, 1, 5));
    assert_eq!(guest(&book, b"la la", 1).0, (11, 0, 0));
    assert_eq!(guest(&book, b"la", 2), ((12, 2, 2), vec![0, 1, 1, 7, 7, 7]));
    assert_eq!(guest(&[&book[..], &house[0], &open[1]].concat(), b"la la", 3).0, (15, 3, 5));
    // The same without the house cues.
    assert_eq!(guest(&open.concat(), b"la", 2), ((12, 2, 2), vec![0, 1, 1, 7, 7, 7]));
    // A fault of the book names the index in the whole of it.
    assert_eq!(guest(&[&book[..], BOOK, NEITHER].concat(), b"la la", 3).0, (9, 5, 0));
    // 65 open cues and 65 house ones between them are two groups.
    let many: Vec<u8> = (1..=65).flat_map(|ordinal| [cue(&[], b"a", ordinal, None), house[0].clone()].concat()).collect();
    assert_eq!(guest(&many, &[b'a'; 65], 65).0, (0, 65, 2 * 65));
}

/// The tests in their order, each met by a call that would also meet the later ones; 19 comes first of all, 16 next, and 14 after 5 and before 6.
#[test]
fn resolving_limits() {
    let text = [b'a'; 32_769];
    let (mut copy, mut scratch) = (vec![7; 32_769], vec![7; 65_535]);
    let mut refusal_by = |role, day, page, n, copied, tables| {
        let lent = Lent { copy: &mut copy[..copied], scratch: &mut scratch[..tables], entries: &mut [] };
        resolve(role, day, page, b"\x02", &text[..n], lent)
    };
    for role in [1, 3, 256, u32::MAX] {
        assert_eq!(refusal_by(role, 36_525, 0, 32_769, 0, 0), (19, 0, 0));
    }
    for (role, day) in [0, 2].into_iter().flat_map(|role| [36_525, 65_536, u32::MAX].map(|day| (role, day))) {
        assert_eq!(refusal_by(role, day, 0, 32_769, 0, 0), (16, 0, 0));
    }
    let mut refusal = |page, n, copied, tables| refusal_by(2, 36_524, page, n, copied, tables);
    assert_eq!(refusal(0, 32_769, 0, 0), (4, 0, 0));
    assert_eq!(refusal(0, 32_768, 0, 65_534), (5, 0, 0));
    assert_eq!(refusal(0, 32_768, 0, 65_535), (14, 0, 0));
    assert_eq!(refusal(0, 32_768, 32_768, 65_535), (14, 0, 0));
    for page in [1, 15] {
        assert_eq!(refusal(page, 32_768, 32_767, 65_535), (6, 0, 0));
        assert_eq!(refusal(page, 32_768, 32_768, 65_535), (7, 0, 0));
    }
}
