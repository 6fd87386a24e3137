//! The program that draws the moves of FJS, as a process. Each page is read as XML and compared with what the reference gives: the letters of the
//! text, each window and what was compared in it, each move, each occurrence, the tables and the counts.

use libretto_tests::programs::{repository, rust_example};
use libretto_tests::verses::word;
use libretto_tests::xml::{self, Element, Node};
use libretto_tests::Random;
use std::ffi::{OsStr, OsString};
use std::fs::{self, File};
use std::io::Write;
use std::os::unix::ffi::OsStrExt;
use std::path::{Path, PathBuf};
use std::process::{Command, Stdio};
use std::sync::LazyLock;

const SUNDAY: u32 = 1;

/// The width of a cell on the page.
const CELL: f64 = 13.0;

static PROGRAM: LazyLock<PathBuf> = LazyLock::new(|| {
    let target = Path::new(env!("CARGO_TARGET_TMPDIR")).parent().expect("cargo's folder for tests lies in its target folder");
    rust_example("moves", target)
});

/// What the program leaves.
#[derive(Debug, PartialEq)]
struct Left {
    status: Option<i32>,
    out: String,
    errors: String,
}

/// A folder of a test's own, in which the program runs, so that what it tells of a file names no path.
fn desk(test: &str) -> PathBuf {
    let folder = Path::new(env!("CARGO_TARGET_TMPDIR")).join(format!("moves-{test}"));
    fs::create_dir_all(&folder).expect("the folder is made");
    folder
}

fn run(folder: &Path, arguments: &[&OsStr], input: &[u8], out: Stdio) -> Left {
    let mut command = Command::new(&*PROGRAM);
    let mut child = command.current_dir(folder).args(arguments).stdin(Stdio::piped()).stdout(out).stderr(Stdio::piped()).spawn().expect("it starts");
    // A program that refuses its arguments ends before it reads, and the pipe may be closed by then.
    let _ = child.stdin.take().expect("the input is a pipe").write_all(input);
    let output = child.wait_with_output().expect("the program runs");
    let [out, errors] = [output.stdout, output.stderr].map(|bytes| String::from_utf8(bytes).expect("all that is printed is in UTF-8"));
    Left { status: output.status.code(), out, errors }
}

/// Letters of ISO 8859-1 as an argument.
fn argument(phrase: &[u8]) -> OsString {
    phrase.iter().map(|&letter| char::from(letter)).collect::<String>().into()
}

/// The page for a phrase in a text from standard input.
#[track_caller]
fn page(folder: &Path, phrase: &[u8], text: &[u8]) -> String {
    let left = run(folder, &[&argument(phrase), "-".as_ref()], text, Stdio::piped());
    assert!(left.status == Some(0) && left.errors.is_empty(), "{:?} in {:?}: {left:?}", phrase.escape_ascii(), text.escape_ascii());
    left.out
}

/// A window as it must be drawn: its start, a letter for what happened to each letter of the phrase, whether it is an occurrence, the text letter
/// that Sunday's rule goes by, and the words beside it but for where it goes.
#[derive(Debug, PartialEq)]
struct Window {
    start: usize,
    outcomes: String,
    found: bool,
    next: Option<u8>,
    words: String,
}

/// What the reference gives for a phrase and a text.
struct Due {
    places: Vec<usize>,
    comparisons: u32,
    moves: Vec<[u32; 3]>,
    windows: Vec<Window>,
    scratch: Vec<u16>,
}

impl Due {
    fn new(phrase: &[u8], text: &[u8]) -> Due {
        let (m, n) = (phrase.len(), text.len());
        let (mut scratch, mut list, mut numbers) = (vec![0; m + 257], vec![0; n], vec![0; 3 * n]);
        let (refusal, total, comparisons, made) = reference::find_moves(phrase, text, &mut scratch, &mut list, &mut numbers);
        assert_eq!(refusal, 0);
        let places: Vec<usize> = list[..total as usize].iter().map(|&place| place as usize).collect();
        let moves: Vec<[u32; 3]> = numbers.chunks_exact(3).take(made as usize).map(|entries| [entries[0], entries[1], entries[2]]).collect();
        let mut due = Due { places, comparisons, moves, windows: Vec::new(), scratch };
        due.add_windows(phrase, text);
        let compared: usize = due.windows.iter().map(|window| window.outcomes.matches(['e', 'd']).count()).sum();
        assert_eq!(compared, comparisons as usize, "the test's own windows do not have the comparisons of the reference");
        due
    }

    /// The windows of the moves, and of a stop at the end. Letters are compared one by one here, in the order of Algorithm 3.
    fn add_windows(&mut self, phrase: &[u8], text: &[u8]) {
        let m = phrase.len();
        let (mut start, mut carried) = (0, 0);
        for step in self.moves.iter().map(Some).chain([None]) {
            if start + m > text.len() {
                break;
            }
            let (outcomes, differs) = outcomes(phrase, &text[start..start + m], carried);
            let found = self.places.contains(&start);
            let by_sunday = step.is_some_and(|step| step[2] == SUNDAY);
            let next = by_sunday.then(|| text[start + m]);
            self.windows.push(Window { start, outcomes, found, next, words: words(step, next, differs.filter(|_| !found)) });
            let Some(step) = step else { break };
            let border = usize::from(self.scratch[256 + differs.unwrap_or(m + 1) - 1]);
            carried = if by_sunday { 0 } else { border.saturating_sub(1) };
            start = step[1] as usize;
        }
    }
}

/// What happens to each letter of the phrase in a window that carries so many, and which letter, from 1, differs. The letters c, e, d and u stand for
/// carried, equal, different and not compared.
fn outcomes(phrase: &[u8], window: &[u8], carried: usize) -> (String, Option<usize>) {
    let m = phrase.len();
    let last_first = carried == 0;
    let mut outcomes = vec!['u'; m];
    outcomes[..carried].fill('c');
    let order = if last_first { [m - 1].into_iter().chain(0..m - 1) } else { [carried].into_iter().chain(carried + 1..m) };
    for k in order {
        if phrase[k] != window[k] {
            outcomes[k] = 'd';
            return (outcomes.into_iter().collect(), Some(k + 1));
        }
        outcomes[k] = 'e';
    }
    (outcomes.into_iter().collect(), None)
}

fn words(step: Option<&[u32; 3]>, next: Option<u8>, differs: Option<usize>) -> String {
    let Some([old, new, _]) = step else {
        return "stop, no letter follows".to_string();
    };
    let shift = new - old;
    match (next, differs) {
        (Some(b' '), _) => format!("Sunday, {shift} on, by a blank"),
        (Some(letter), _) if !has_sign(letter) => format!("Sunday, {shift} on, by byte {letter:02x}"),
        (Some(letter), _) => format!("Sunday, {shift} on, by {}", shown(letter)),
        (None, Some(letter)) => format!("KMP, {shift} on, letter {letter} differs"),
        (None, None) => format!("KMP, {shift} on, found"),
    }
}

/// Whether a letter can be seen. Byte 10 is drawn as an arrow; the other control bytes, the hard blank and the soft hyphen are drawn as numbers.
fn has_sign(letter: u8) -> bool {
    letter == 10 || !matches!(letter, 0..=31 | 127..=160 | 173)
}

/// How a letter is drawn.
fn shown(letter: u8) -> String {
    match letter {
        10 => "\u{21b5}".to_string(),
        _ if has_sign(letter) => char::from(letter).to_string(),
        _ => format!("{letter:02x}"),
    }
}

/// Letters as they stand on the page, with the middle of each.
fn letters(text: &Element) -> Vec<(u8, f64)> {
    let mut places = text.attribute("x").split(' ').map(|x| x.parse::<f64>().expect("a place is a number"));
    let mut letters = Vec::new();
    add_letters(text, &mut places, &mut letters);
    assert_eq!(places.next(), None, "a place without a letter: {text:?}");
    letters
}

fn add_letters(part: &Element, places: &mut impl Iterator<Item = f64>, letters: &mut Vec<(u8, f64)>) {
    for node in &part.children {
        match node {
            Node::Element(byte) if byte.has_class("byte") => {
                let letter = u8::from_str_radix(&byte.text(), 16).expect("a byte is two digits");
                assert_eq!(byte.text(), shown(letter), "a letter that has a sign is shown as a byte");
                letters.push((letter, (places.next().expect("a place") + places.next().expect("a place")) / 2.0));
            }
            Node::Element(part) => add_letters(part, places, letters),
            Node::Text(text) => {
                for sign in text.chars() {
                    let letter = if sign == '\u{21b5}' { 10 } else { u8::try_from(sign).expect("a letter of ISO 8859-1") };
                    assert_eq!(sign.to_string(), shown(letter), "a letter that could not be seen");
                    letters.push((letter, places.next().expect("each letter has a place")));
                }
            }
        }
    }
}

/// The first number of a path, and its first width where it is that of cells.
fn left_and_width(path: &Element) -> (f64, f64) {
    let d = path.attribute("d");
    let number = |from: &str| -> f64 {
        let from = &d[d.find(from).unwrap_or_else(|| panic!("no {from} in {d}")) + 1..];
        from[..from.find(|c: char| !c.is_ascii_digit() && c != '.').unwrap_or(from.len())].parse().expect("a number")
    };
    (number("M"), if d.contains('h') { number("h") } else { 0.0 })
}

/// A row of the page: its element, the place of its first letter, the place after its last own letter, and the one after the last that it shows.
struct Row<'a> {
    element: &'a Element,
    first: usize,
    end: usize,
    shown: usize,
    /// The middle of the first letter.
    x: f64,
}

impl Row<'_> {
    /// The left edge of a place's cell.
    fn left(&self, place: usize) -> f64 {
        self.x - CELL / 2.0 + CELL * (place as f64 - self.first as f64)
    }
}

/// The rows, whose letters must be those of the text, each in its cell, and after them those of the next row as far as they are shown.
fn rows<'a>(page: &'a Element, text: &[u8]) -> Vec<Row<'a>> {
    let mut rows: Vec<Row> = Vec::new();
    for element in page.all("g", "row") {
        let first = rows.last().map_or(0, |row| row.end);
        let mut shown = letters(element.all("text", "own")[0]);
        let end = first + shown.len();
        for ahead in element.all("text", "ahead") {
            shown.extend(letters(ahead));
        }
        let row = Row { element, first, end, shown: first + shown.len(), x: shown[0].1 };
        for (place, (letter, x)) in (first..).zip(shown) {
            assert_eq!((letter, x - CELL / 2.0), (text[place], row.left(place)), "the letter at {place}");
        }
        rows.push(row);
    }
    assert_eq!(rows.last().map_or(0, |row| row.end), text.len(), "letters of the text are missing");
    rows
}

/// A window as it is drawn, which must be where it stood, with the phrase's letters in its cells.
fn drawn(row: &Row, window: &Element, phrase: &[u8]) -> Window {
    let start: usize = window.all("text", "start")[0].text().strip_prefix("at ").and_then(|start| start.parse().ok()).expect("a start");
    let texts = window.all("text", "letters");
    let expected: Vec<(u8, f64)> = (start..).zip(phrase).map(|(place, &letter)| (letter, row.left(place) + CELL / 2.0)).collect();
    assert_eq!(letters(texts[0]), expected, "the letters of the window at {start}");
    let mut outcomes = vec!['-'; phrase.len()];
    for (class, sign) in [("carried", 'c'), ("equal", 'e'), ("differs", 'd'), ("unseen", 'u')] {
        for cells in window.all("path", class) {
            let (left, width) = left_and_width(cells);
            let from = ((left - row.left(start)) / CELL) as usize;
            outcomes[from..from + (width / CELL) as usize].fill(sign);
        }
        let in_letters: String = texts[0].all("tspan", class).iter().map(|part| part.text()).collect();
        let in_cells: String = phrase.iter().zip(&outcomes).filter(|(_, outcome)| **outcome == sign).map(|(&letter, _)| shown(letter)).collect();
        assert_eq!(in_letters, in_cells, "the letters of class {class} in the window at {start}");
    }
    // Colour alone tells no two outcomes apart.
    let signs = [("stroke", "differs"), ("under", "carried")].map(|(sign, class)| (window.all("path", sign).len(), window.all("path", class).len()));
    assert!(signs.iter().all(|(signs, cells)| signs == cells), "the signs in the window at {start}");
    let next = texts.get(1).map(|after| letters(after)[0].0);
    assert_eq!(window.all("rect", "next").len(), usize::from(next.is_some()));
    let words = window.all("text", "words")[0].text();
    Window { start, outcomes: outcomes.into_iter().collect(), found: !window.all("rect", "found").is_empty(), next, words }
}

/// All windows, in their rows, as they must be. The words say where a window goes that leaves its row.
fn check_windows(page: &Element, rows: &[Row], due: &Due, phrase: &[u8], text: &[u8]) {
    let width: f64 = page.attribute("width").parse().expect("the page has a width");
    let mut windows = due.windows.iter().enumerate();
    for row in rows {
        let here = due.windows.iter().filter(|window| (row.first..row.end).contains(&window.start));
        let needed = here.map(|window| window.start + phrase.len() + usize::from(window.next.is_some())).fold(row.end, usize::max);
        assert_eq!(row.shown, needed, "the letters that the row at {} shows", row.first);
        for element in row.element.all("g", "window") {
            let drawn = drawn(row, element, phrase);
            let (index, window) = windows.next().expect("a window too many");
            let to = match due.moves.get(index).map(|step| step[1] as usize) {
                Some(new) if new + phrase.len() > text.len() => ", past the end".to_string(),
                Some(new) if new >= row.end => format!(", to {new}"),
                _ => String::new(),
            };
            assert!((row.first..row.end).contains(&window.start), "the window at {} is not in its row", window.start);
            assert_eq!(drawn.words, format!("{}{to}", window.words), "the words of the window at {}", window.start);
            assert_eq!(Window { words: window.words.clone(), ..drawn }, *window);

            let words = element.all("text", "words")[0];
            let x: f64 = words.attribute("x").parse().expect("words have a place");
            let cells_end = row.left(window.start + phrase.len() + usize::from(window.next.is_some()));
            assert!(x > cells_end + 4.0 && x + 7.0 * words.text().chars().count() as f64 <= width, "the words of the window at {}", window.start);
        }
    }
    assert_eq!(windows.next(), None, "a window is missing");
}

/// All moves in their order: the rule, the window that each starts at, and the window that it points to.
fn check_moves(page: &Element, rows: &[Row], due: &Due) {
    let run = page.all("g", "run")[0];
    let row_of = |place: usize| rows.iter().find(|row| (row.first..row.end).contains(&place));
    let drawn = run.all("g", "move");
    assert_eq!(drawn.len(), due.moves.len(), "moves");
    for (arrow, &[old, new, rule]) in drawn.iter().zip(&due.moves) {
        assert!(arrow.has_class(["sunday", "kmp"][rule as usize - 1]), "the rule of the move from {old}: {arrow:?}");
        let middle = row_of(old as usize).expect("a row").left(old as usize) + CELL / 2.0;
        let line = arrow.all("path", "line")[0];
        assert_eq!(left_and_width(line).0, middle, "where the move from {old} starts");
        if due.windows.iter().any(|window| window.start == new as usize) {
            let heads = arrow.all("path", "head")[0].attribute("d");
            let tip: f64 = heads[heads.rfind('M').expect("a head") + 1..].split(' ').next().and_then(|x| x.parse().ok()).expect("a tip");
            let left = row_of(new as usize).expect("a row").left(new as usize);
            assert!((left - 5.0..left).contains(&tip), "where the move from {old} to {new} ends: {tip}, {left}");
        }
    }
}

/// The occurrences marked in each row: those that start in it, whole, and what the rows before have left of others. No two marks lie on each other.
fn check_occurrences(rows: &[Row], due: &Due, m: usize) {
    for row in rows {
        let marks = |class: &str| -> Vec<[f64; 3]> { row.element.all("path", class).into_iter().map(extent).collect() };
        let ends = |marks: &[[f64; 3]]| -> Vec<(f64, f64)> { marks.iter().map(|&[left, right, _]| (left, right)).collect() };
        let right = |place: usize| row.left(place + m) - 2.0;
        let (starting, rests) = (marks("occurrence"), marks("rest"));
        let here = due.places.iter().filter(|place| (row.first..row.end).contains(place)).map(|&place| (row.left(place) + 2.0, right(place)));
        assert_eq!(ends(&starting), here.collect::<Vec<_>>(), "occurrences in the row at {}", row.first);
        let left_of = due.places.iter().filter(|&&place| place < row.first && place + m > row.first);
        let left_of = left_of.map(|&place| (row.left(row.first), if place + m <= row.end { right(place) } else { row.left(row.end) }));
        assert_eq!(ends(&rests), left_of.collect::<Vec<_>>(), "rests in the row at {}", row.first);
        let all = [starting, rests].concat();
        for (k, a) in all.iter().enumerate() {
            assert!(all[..k].iter().all(|b| a[2] != b[2] || a[1] < b[0] || b[1] < a[0]), "marks lie on each other in the row at {}", row.first);
        }
    }
}

/// The left and the right end of a path of straight lines, and how far down it goes.
fn extent(path: &Element) -> [f64; 3] {
    let points = path.attribute("d").trim_start_matches('M').split('L').map(|point| {
        let (x, y) = point.split_once(' ').expect("a point is two numbers");
        [x, y].map(|number| number.parse::<f64>().expect("a number"))
    });
    points.fold([f64::MAX, 0.0, 0.0], |[left, right, down], [x, y]| [left.min(x), right.max(x), down.max(y)])
}

/// The tables: each letter of the phrase, its number, and how far each rule moves; and the counts in the heading.
fn check_tables(page: &Element, due: &Due, phrase: &[u8]) {
    let tables = page.all("g", "tables")[0];
    let drawn: Vec<u8> = tables.all("text", "letters").into_iter().flat_map(letters).map(|(letter, _)| letter).collect();
    assert_eq!(drawn, phrase, "the phrase in the tables");
    let shifts = |(k, &letter): (usize, &u8)| [k + 1, k + 1 - usize::from(due.scratch[256 + k]), usize::from(due.scratch[usize::from(letter)])];
    let numbers: Vec<usize> = phrase.iter().enumerate().flat_map(shifts).collect();
    let drawn: Vec<usize> = tables.all("text", "number").iter().map(|number| number.text().parse().expect("a number")).collect();
    assert_eq!(drawn, numbers, "the numbers in the tables");

    let count = |number: usize, thing: &str| format!("{number} {thing}{}", if number == 1 { "" } else { "s" });
    let sunday = due.moves.iter().filter(|step| step[2] == SUNDAY).count();
    let counts = [count(due.places.len(), "occurrence"), count(due.comparisons as usize, "comparison"), count(due.moves.len(), "move")];
    let rules = format!("{sunday} by Sunday\u{2019}s rule and {} by KMP\u{2019}s.", due.moves.len() - sunday);
    let heading = format!("{}, {} of letters, {}: {rules}", counts[0], counts[1], counts[2]);
    assert_eq!(page.all("text", "words")[0].text(), heading);
}

/// No words run off the page. The widths of a letter are those of a wide font, in the mean.
fn check_words(page: &Element) {
    let width: f64 = page.attribute("width").parse().expect("the page has a width");
    for (class, letter) in [("heading", 10.0), ("panel", 8.0), ("words", 6.4)] {
        for words in page.all("text", class) {
            let x: f64 = words.attribute("x").parse().expect("words have a place");
            assert!(x + letter * words.text().chars().count() as f64 <= width, "{:?} may run off the page", words.text());
        }
    }
}

/// Checks the whole page of a phrase in a text. Counts are below 1,000 here, where they have no commas.
fn check(folder: &Path, phrase: &[u8], text: &[u8]) {
    let written = page(folder, phrase, text);
    let due = Due::new(phrase, text);
    let whole = || {
        let page = xml::read(&written).unwrap_or_else(|what| panic!("not well formed: {what}"));
        assert_eq!((page.name.as_str(), page.attribute("role")), ("svg", "img"));
        assert!(!page.all("title", "").is_empty(), "the page has no title");
        let rows = rows(&page, text);
        check_windows(&page, &rows, &due, phrase, text);
        check_moves(&page, &rows, &due);
        check_occurrences(&rows, &due, phrase.len());
        check_tables(&page, &due, phrase);
        check_words(&page);
    };
    if let Err(panic) = std::panic::catch_unwind(std::panic::AssertUnwindSafe(whole)) {
        eprintln!("phrase {:?}\ntext {:?}", phrase.escape_ascii().to_string(), text.escape_ascii().to_string());
        std::panic::resume_unwind(panic);
    }
}

#[test]
fn the_committed_picture() {
    let aria = fs::read(repository().join("examples/aria.txt")).expect("the aria is read");
    let line = aria.split_inclusive(|&letter| letter == b'\n').nth(25).expect("the aria has a line 26");
    let drawn = page(&desk("committed"), b"la la", line);
    let committed = fs::read_to_string(repository().join("docs/moves.svg")).expect("the picture is read");
    assert!(drawn == committed, "docs/moves.svg is not what this prints: sed -n 26p examples/aria.txt | moves 'la la' -");
    check(&desk("committed"), b"la la", line);
}

#[test]
fn cases_by_name() {
    let folder = desk("named");
    let aria = fs::read(repository().join("examples/aria.txt")).expect("the aria is read");
    let bytes: Vec<u8> = (0..=255).collect();
    let cases: [(&[u8], &[u8]); 13] = [
        (b"abaaca", b"abababcababbbca"),
        (b"aba", &[b'a'; 60]),
        (b"aba", b"ccabacaba"),
        (b"a", b"abbabbaabab"),
        (b"abc", b"ab"),
        (b"abc", b""),
        (b"aaaa", &[b'a'; 200]),
        (&[b'a'; 130], &[b'a'; 300]),
        (b"d\xec", &aria),
        (b"la la", &aria),
        (&bytes[1..], &bytes),
        (&[1; 30], b" \n\x01"),
        (b"]]>", b"]]>&lt;]]>"),
    ];
    for (phrase, text) in cases {
        check(&folder, phrase, text);
    }
}

/// Numbers from 1,000 on have commas in the heading.
#[test]
fn large_counts() {
    let page = page(&desk("large"), b"a", &[b'a'; 1234]);
    let counts = "1,234 occurrences, 1,234 comparisons of letters, 1,234 moves: 0 by Sunday\u{2019}s rule and 1,234 by KMP\u{2019}s.";
    for words in ["in a text of 1,234 letters", counts] {
        assert!(page.contains(words), "{words} is not on the page");
    }
}

#[test]
fn random_pages() {
    let folder = desk("random");
    let hostile = b"<>&\"' \t\r\n\x01\x1f\x7f\x80\x9f\xa0\xad\xff\xe8";
    let alphabets: [&[u8]; 6] = [b"a", b"ab", b"abc", b"la \n", b"<&", hostile];
    let mut random = Random::new(117);
    for round in 0..360 {
        let alphabet = alphabets[round % alphabets.len()];
        let length = [random.between(0, 30), random.between(70, 90), random.between(100, 260)][random.below(3)];
        let mut text = word(alphabet, length, &mut random);
        let longest = if round % 20 == 0 { 140 } else { 7 };
        let m = random.between(1, longest);
        let phrase = match random.below(2) {
            0 if m <= length => {
                let start = random.between(0, length - m);
                text[start..start + m].to_vec()
            }
            _ => word(alphabet, m, &mut random),
        };
        // A phrase cannot have a byte 0, since an argument has none; a text can.
        if round % 7 == 0 && length > 0 {
            let place = random.below(length);
            text[place] = 0;
        }
        if !phrase.contains(&0) {
            check(&folder, &phrase, &text);
        }
    }
}

/// Each text and each background of the style, in light and in dark: words are read with a contrast of 4.5 or more.
#[test]
fn words_have_contrast() {
    let page = page(&desk("contrast"), b"la", b"la");
    let style = page.split("<style>\n").nth(1).and_then(|rest| rest.split("</style>").next()).expect("the page has a style");
    let (light, dark) = style.split_once("@media (prefers-color-scheme: dark) {\n").expect("the style has a dark part");
    let papers = [".paper", ".band", "path.equal", "path.differs", "path.carried"];
    for part in [light, dark] {
        let fill = |selector: &str| -> f64 {
            let rule = part.lines().find(|rule| rule.split(" {").next().is_some_and(|all| all.split(", ").any(|one| one == selector)));
            let rule = rule.unwrap_or_else(|| panic!("no rule for {selector} in {part}"));
            luminance(rule.split("fill: #").nth(1).unwrap_or_else(|| panic!("no fill in {rule}")).split(';').next().expect("a colour"))
        };
        let pairs = papers.iter().map(|paper| (".letters", *paper));
        let others = ["text", ".heading", ".panel", ".place", ".start", ".ahead", "tspan.unseen"].map(|words| (words, ".paper"));
        for (words, paper) in pairs.chain(others).chain([("tspan.differs", "path.differs"), (".ahead", ".band")]) {
            let [low, high] = if fill(words) < fill(paper) { [fill(words), fill(paper)] } else { [fill(paper), fill(words)] };
            let contrast = (high + 0.05) / (low + 0.05);
            assert!(contrast >= 4.5, "{words} on {paper}: {contrast:.2}");
        }
    }
}

/// The relative luminance of a colour of three or six digits, by the formula of the Web Content Accessibility Guidelines.
fn luminance(colour: &str) -> f64 {
    let each = colour.len() / 3;
    let channel = |k: usize| {
        let digits = &colour[k * each..(k + 1) * each];
        let value = f64::from(u8::from_str_radix(&digits.repeat(2 / each), 16).expect("a colour")) / 255.0;
        if value <= 0.03928 {
            value / 12.92
        } else {
            ((value + 0.055) / 1.055).powf(2.4)
        }
    };
    0.2126 * channel(0) + 0.7152 * channel(1) + 0.0722 * channel(2)
}

#[track_caller]
fn refused(left: Left, status: i32, errors: &str) {
    assert_eq!(left, Left { status: Some(status), out: String::new(), errors: errors.to_string() });
}

#[test]
fn refusals() {
    let folder = desk("refusals");
    let [longest, too_long] = [1024, 1025].map(|letters| "a".repeat(letters));
    fs::write(folder.join("text"), "la la").expect("the text is written");
    fs::write(folder.join("long"), vec![b'a'; 32_769]).expect("the text is written");
    let run = |phrase: &OsStr, text: &str| run(&folder, &[phrase, text.as_ref()], &[b'a'; 32_769], Stdio::piped());
    refused(run("".as_ref(), "text"), 1, "phrase: refusal 2: the phrase has 0 bytes\n");
    refused(run(too_long.as_ref(), "text"), 1, "phrase: refusal 3: the phrase has more than 1,024 bytes\n");
    refused(run("a".as_ref(), "long"), 1, "long: refusal 4: the text has more than 32,768 bytes\n");
    refused(run("a".as_ref(), "-"), 1, "standard input: refusal 4: the text has more than 32,768 bytes\n");
    refused(run("".as_ref(), "long"), 1, "phrase: refusal 2: the phrase has 0 bytes\n");
    refused(run("dell\u{2019}aria".as_ref(), "text"), 1, "phrase: the letter \u{2019} (U+2019) is not in ISO 8859-1\n");
    refused(run("\u{100}".as_ref(), "text"), 1, "phrase: the letter \u{100} (U+0100) is not in ISO 8859-1\n");
    refused(run(OsStr::from_bytes(b"d\xec"), "text"), 1, "phrase: it is not in UTF-8\n");
    // The largest that is not refused, and a text of a file as from standard input.
    assert_eq!(run(longest.as_ref(), "text").status, Some(0));
    assert_eq!(run("la".as_ref(), "text").out, page(&folder, b"la", b"la la"));
}

#[test]
fn files_that_fail() {
    let folder = desk("files");
    let run_with = |arguments: &[&str], out: Stdio| {
        let arguments: Vec<&OsStr> = arguments.iter().map(OsStr::new).collect();
        run(&folder, &arguments, b"la la", out)
    };
    refused(run_with(&["la", "absent"], Stdio::piped()), 2, "absent: No such file or directory\n");
    refused(run_with(&["la", "."], Stdio::piped()), 2, ".: Is a directory\n");
    for arguments in [&[][..], &["la"], &["la", "-", "more"]] {
        refused(run_with(arguments, Stdio::piped()), 2, "usage: moves PHRASE TEXT\n");
    }
    let full = File::options().write(true).open("/dev/full").expect("the full device opens");
    refused(run_with(&["la", "-"], full.into()), 2, "standard output: No space left on device\n");
}
