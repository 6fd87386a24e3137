//! The program `vectors`: the file that the gate holds its output to is built again here from the reference alone, case by case in the program's order.

use libretto_tests::programs::repository;
use reference::{
    delta1_table, delta2_table, endings, find, fold, horspool_table, kmp_table, line_and_column, max_shift_table, relist, sunday_table, widest_gap,
};
use std::fmt::Display;
use std::fs;
use std::ops::Range;

type Maker = fn(&[u8], &mut [u16]);

/// A line: what is asked, then numbers, one space before each.
fn line<T: Display>(asked: &str, numbers: impl IntoIterator<Item = T>) -> String {
    let numbers: String = numbers.into_iter().map(|number| format!(" {number}")).collect();
    format!("{asked}{numbers}\n")
}

/// Some entries of a table of this length that is 9 throughout before the makers come over it.
fn table(asked: &str, makers: &[Maker], length: usize, pattern: &str, shown: Range<usize>) -> String {
    let mut table = vec![9; length];
    for make in makers {
        make(pattern.as_bytes(), &mut table);
    }
    line(&format!("{asked} {pattern}"), &table[shown])
}

fn tables() -> String {
    let kmp = |pattern, count| table("kmp table", &[kmp_table], 16, pattern, 0..count);
    let in_five = |pattern| table("kmp table in five", &[kmp_table], 5, pattern, 0..5);
    let sunday = |pattern, shown| table("sunday table", &[sunday_table], 257, pattern, shown);
    let horspool = |pattern, shown| table("horspool table", &[horspool_table], 257, pattern, shown);
    let delta1 = |pattern, shown| table("delta1 table", &[delta1_table], 257, pattern, shown);
    let lines = [
        vec![kmp("a", 3), kmp("aaaa", 6), kmp("aaab", 6), kmp("abab", 6), kmp("abaababaab", 12), kmp("abcabcacab", 12), kmp("", 2)],
        vec![in_five("abcab"), in_five("abca")],
        vec![sunday("la", 96..110), sunday("la", 255..257), sunday("abcabcacab", 96..110), sunday("~", 125..128)],
        vec![horspool("la", 96..110), horspool("la", 255..257), horspool("abcabcacab", 96..110), horspool("~", 125..128)],
        vec![table("letter tables in 255", &[sunday_table, horspool_table, delta1_table], 255, "la", 96..110)],
        vec![delta1("la", 96..110), delta1("la", 255..257), delta1("ABCXXXABC", 64..90), delta1("~", 125..128)],
    ];
    lines.concat().concat()
}

/// Two lines: DELTA2 in a table of so many entries, and the borders of the suffixes in as many as were lent for them.
fn delta2(pattern: &str, room: usize, lent: usize) -> String {
    let (mut borders, mut table) = (vec![9; lent], vec![9; room]);
    delta2_table(pattern.as_bytes(), &mut borders, &mut table);
    line(&format!("delta2 table {pattern}"), table) + &line(&format!("borders {pattern}"), borders)
}

/// The tables of source document 003 first, which `reference` holds to the document's own words.
fn delta2_tables() -> String {
    let one_more = ["ABCXXXABC", "ABYXCDEYX", "a", "aaaa", "baaa", "aaab", "abab", "badbacbacba", ""]
        .map(|pattern| delta2(pattern, pattern.len() + 1, pattern.len() + 2));
    let little = [("abca", 4, 5), ("abca", 3, 5), ("abca", 4, 4), ("abca", 3, 4), ("", 0, 1), ("", 0, 0)]
        .map(|(pattern, room, lent)| delta2(pattern, room, lent));
    one_more.concat() + &little.concat()
}

/// Two lines: the widest gap and its position, and the KMP entries and MAX_Shift in a table of so many entries.
fn max_shift(pattern: &str, room: usize) -> String {
    let (width, letter) = widest_gap(pattern.as_bytes());
    let mut table = vec![9; room];
    max_shift_table(pattern.as_bytes(), &mut table);
    line(&format!("widest gap {pattern}"), [width, letter]) + &line(&format!("max shift table {pattern}"), table)
}

/// Source document 001's pattern first.
fn max_shift_tables() -> String {
    let one_more = ["abaaca", "a", "aaaa", "abab", "abcd", "abaab", "abababbbba", ""].map(|pattern| max_shift(pattern, 2 * pattern.len() + 3));
    let little = [("abca", 10), ("abca", 9), ("abca", 5), ("", 2), ("", 1)].map(|(pattern, room)| max_shift(pattern, room));
    one_more.concat() + &little.concat()
}

/// A find with a scratch of so many entries, and a list of four: all that it gives.
fn found(asked: &str, method: u32, pattern: &[u8], text: &[u8], room: usize) -> String {
    let (mut scratch, mut list) = (vec![9; room], [9; 4]);
    let (refusal, total, comparisons) = find(method, pattern, text, &mut scratch, &mut list);
    line(asked, [refusal, total, comparisons].into_iter().chain(list))
}

const NAMES: [&str; 9] = ["naive", "kmp", "horspool", "sunday", "fjs", "double", "bm", "improved", "unknown"];
/// Enough for every method and a few letters.
const ROOM: usize = 1281;
/// Enough for every method and phrase.
const ALL_ROOM: usize = 2306;

/// A case of a few letters.
fn case(method: u32, pattern: &str, text: &str, room: usize) -> String {
    let asked = format!("{} {pattern} in {text} {room}", NAMES[method as usize]);
    found(&asked, method, pattern.as_bytes(), text.as_bytes(), room)
}

/// A case of m letters a in n letters a.
fn limit(method: u32, m: usize, n: usize) -> String {
    found(&format!("{} {m} {n}", NAMES[method as usize]), method, &vec![b'a'; m], &vec![b'a'; n], ALL_ROOM)
}

fn engine(method: u32, enough: usize) -> String {
    let mut lines = vec![case(method, "aba", "ababa", enough)];
    lines.extend(enough.checked_sub(1).map(|short| case(method, "aba", "ababa", short)));
    lines.push(case(method, "", "ababa", enough));
    lines.push(case(method, "lalala", "lala lalalalala lala", ROOM));
    lines.push(case(method, "ababa", "aba", ROOM));
    lines.extend([(1024, 1030), (1025, 1030), (2, 32_768), (2, 32_769)].map(|(m, n)| limit(method, m, n)));
    lines.concat()
}

/// Request (xii) of document 02.
fn kmp_bound() -> String {
    [("aaab", "aaaaaaaa"), ("aaab", "aaaa"), ("ab", "aaaaaaaa"), ("b", "aaaaaaaa")].map(|(pattern, text)| case(1, pattern, text, ROOM)).concat()
}

/// Request (ii) of document 02.
fn boyer_moore() -> String {
    let moves = [("aba", "abcaba"), ("cabdab", "yyyydbcabdab"), ("bba", "ababba"), ("ab", "ababab"), ("aabaa", "aabaabaa"), ("aaaa", "aaaaaa")];
    let document_003 = ("AT-THAT", "WHICH-FINALLY-HALTS.--AT-THAT-POINT");
    moves.into_iter().chain([document_003]).map(|(pattern, text)| case(6, pattern, text, ROOM)).collect()
}

/// Request (x) of document 02.
fn improved() -> String {
    let figure_2 = [("abaaca", "abababcababbbca")];
    let moves = [("abca", "bbbabca"), ("abaaca", "abaacbabaaca"), ("abc", "abcabc"), ("abca", "abcabca"), ("aba", "abaaba")];
    let more = [("abaaca", "abaacababaaca"), ("abaa", "abba"), ("abaaca", "abaaaa"), ("a", "cabcca")];
    figure_2.into_iter().chain(moves).chain(more).map(|(pattern, text)| case(7, pattern, text, ROOM)).collect()
}

/// Request (xiii) of document 02: a late cut of three refrains, and an answer of four.
fn cut(start: usize, end: usize, letters: &str) -> String {
    let mut answer = [9; 4];
    let (refusal, total) = relist(b"la", b"la la la", &[0, 3, 6], start, end, letters.as_bytes(), &mut answer);
    line(&format!("cut with {letters} {start} {end}"), [refusal, total].into_iter().chain(answer))
}

fn cuts() -> String {
    let inside = [cut(3, 5, "so"), cut(3, 5, "la"), cut(4, 4, "-"), cut(1, 7, ""), cut(0, 3, ""), cut(8, 8, " la"), cut(2, 6, " la la la ")];
    let refused = [cut(5, 3, ""), cut(3, 9, "")];
    inside.concat() + &refused.concat()
}

/// A text by its bytes: letters, and the numbers of those that end lines.
fn by_bytes(text: &str) -> String {
    text.chars().map(|letter| if letter < ' ' { format!(" {}", letter as u32) } else { format!(" {letter}") }).collect()
}

/// Request (i) of document 02: line and column of every place, the end's included.
fn lines(text: &str) -> String {
    let endings = endings(text.as_bytes());
    let numbers = (0..=text.len()).flat_map(|place| <[usize; 2]>::from(line_and_column(&endings, place)));
    line(&format!("lines{}", by_bytes(text)), numbers)
}

/// The same of one place, where a line and a column are told of another place: they count where that is not past this one.
fn known(text: &str, place: usize, known: usize, told: (usize, usize)) -> String {
    let endings = endings(text.as_bytes());
    let end = place.min(text.len());
    let own = line_and_column(&endings, end);
    let before = line_and_column(&endings, known.min(end));
    let (lines, column) = match own.0 - before.0 {
        _ if known > end => own,
        0 => (told.0, told.1 + end - known),
        lines => (told.0 + lines, own.1),
    };
    line(&format!("known{}", by_bytes(text)), [place, known, told.0, told.1, lines, column])
}

fn line_rule() -> String {
    let texts = ["", "ab", "a\nb", "a\rb", "a\r\nb", "a\r\r\nb", "a\n\rb", "\r\n\r\n", "a\n", "a\r", "a\r\n"].map(lines);
    let told = [
        [(3, 0, (1, 1)), (3, 2, (2, 1)), (4, 4, (2, 3)), (5, 4, (2, 3)), (5, 4, (9, 9))],
        [(4, 3, (9, 9)), (6, 7, (9, 9)), (7, 6, (3, 2)), (9, 2, (2, 1)), (9, 8, (5, 5))],
    ];
    let told = told.concat().into_iter().map(|(place, other, told)| known("a\nb\r\nc\r", place, other, told));
    texts.concat() + &told.collect::<String>()
}

/// Request (iv) of document 02: letters folded by a page, and pages that there are not.
fn folds() -> String {
    let by_1 = [0xc9, 0xd7, 0xdf, 0xff, 0xbc].map(|letter| (1, letter));
    let by_15 = [0xa6, 0xa8, 0xb4, 0xb8, 0xbc, 0xbd, 0xbe, 0xff, 0xc9, 0xd7, 0xdf].map(|letter| (15, letter));
    let unknown = [0, 2, 16].map(|page| (page, 0xc9));
    let folded = |(page, letter)| line("fold", [page, u32::from(letter)].into_iter().chain(<[u32; 2]>::from(fold(page, letter))));
    by_1.into_iter().chain(by_15).chain(unknown).map(folded).collect()
}

#[test]
fn the_expected_output() {
    let path = repository().join("crates/vectors/stdout");
    let held = fs::read_to_string(&path).unwrap_or_else(|error| panic!("{}: {error}", path.display()));
    let engines = [0, 4, 256, 256, 260, 256, 259, 264].into_iter().zip(0..).map(|(enough, method)| engine(method, enough));
    let tables = [tables(), delta2_tables(), max_shift_tables()].concat();
    let finds = [engines.collect(), case(8, "aba", "ababa", ROOM), kmp_bound(), boyer_moore(), improved()].concat();
    let due = [tables, finds, cuts(), line_rule(), folds()].concat();

    let (mut held_lines, mut due_lines) = (held.lines(), due.lines());
    for number in 1.. {
        let (held_line, due_line) = (held_lines.next(), due_lines.next());
        assert_eq!(held_line, due_line, "line {number}, in the file and by the reference");
        if held_line.is_none() {
            break;
        }
    }
    assert!(held == due, "the line ends differ");
}
