//! The programs for titling desks, as processes: `book` writes a cue book from a table, `retitle` gives some of its cues other titles, and `show` prints the
//! show file of a day, for the operator or a guest, once in C and once over the safe interface, which must print the same. All go by either page.

use libretto::{date, read_book, Role};
use libretto_tests::books::{book, Cue, CUES, LAST_DAY, MARKS};
use libretto_tests::evenings::Evening;
use libretto_tests::pages::{letters, sign, PAGES};
use libretto_tests::programs::{c_example, repository, rust_example};
use libretto_tests::roles::GUEST;
use libretto_tests::verses::{self, place_of, places};
use libretto_tests::Random;
use std::fs::{self, File};
use std::path::{Path, PathBuf};
use std::process::{Command, Stdio};
use std::slice;
use std::sync::LazyLock;

const HEAD: &str = "cue  place   line  column  title\n";
const REFRAINS: &str = "\ntotal  phrase, and below it its places\n";
const GUEST_HEAD: &str = "place   line  column\n";

const SHOW_USAGE: &str = "usage: show [--page 1|15] [--bytes] [--guest] DAY TEXT BOOK\n";
const BOOK_USAGE: &str = "usage: book [--page 1|15] [--bytes] < TABLE > BOOK\n";
const RETITLE_USAGE: &str = "usage: retitle [--page 1|15] [--bytes] BOOK < TABLE > NEWBOOK\n";

/// What is told of a field that is refused.
const BAD_FIELD: &str = "a field's length is not allowed, the ordinal is not from 1 to 65,535, or the house mark is above 1";

/// What is told of a cue that was looked for.
const MISSING: &str = "the cue's occurrence does not exist";
const NOT_FORWARD: &str = "the cue does not stand behind the cue before it";

/// What is told of a cue's days that are refused.
const BAD_DATE: &str = "a date is not in the calendar's 2000 to 2099, or the first day is after the last";

/// The day of most tests, on which the first cast of the aria sings.
const TODAY: &str = "2026-03-14";

/// A day as the programs take it.
fn written(day: u16) -> String {
    let date = date(day.into()).expect("the day is in the calendar");
    format!("{}-{:02}-{:02}", date.year, date.month, date.day)
}

/// The options for a page and a role.
fn options_of(page: u32, role: u32) -> Vec<&'static str> {
    let guest: &[&str] = if role == GUEST { &["--guest"] } else { &[] };
    [guest, &of_page(page)].concat()
}

/// The options that name a page. Page 1 need not be named.
fn of_page(page: u32) -> [&'static str; 2] {
    ["--page", if page == 1 { "1" } else { "15" }]
}

struct Programs {
    book: PathBuf,
    retitle: PathBuf,
    shows: [PathBuf; 2],
}

static PROGRAMS: LazyLock<Programs> = LazyLock::new(|| {
    let folder = Path::new(env!("CARGO_TARGET_TMPDIR"));
    let target = folder.parent().expect("cargo's folder for tests lies in its target folder");
    let [book, retitle, show] = ["book", "retitle", "show"].map(|name| c_example(name, folder));
    Programs { book, retitle, shows: [show, rust_example("show", target)] }
});

/// What a program leaves.
#[derive(PartialEq)]
struct Left {
    status: Option<i32>,
    out: Vec<u8>,
    errors: Vec<u8>,
}

impl Left {
    fn told(&self) -> String {
        let [out, errors] = [&self.out, &self.errors].map(|bytes| String::from_utf8_lossy(bytes));
        format!("status {:?}\nprinted\n{out}\nerrors\n{errors}", self.status)
    }

    #[track_caller]
    fn is(&self, status: i32, out: &[u8], errors: &str) {
        let due = Left { status: Some(status), out: out.to_vec(), errors: errors.as_bytes().to_vec() };
        assert!(*self == due, "left: {}\ndue: {}", self.told(), due.told());
    }

    #[track_caller]
    fn is_refusal(&self, errors: &str) {
        self.is(1, b"", errors);
    }

    #[track_caller]
    fn is_failure(&self, errors: &str) {
        self.is(2, b"", errors);
    }
}

/// A folder of a test's own, in which the programs run, so that what they tell of a file names no path.
struct Desk(PathBuf);

impl Desk {
    fn new(test: &str) -> Desk {
        let folder = Path::new(env!("CARGO_TARGET_TMPDIR")).join(format!("desk-{test}"));
        fs::create_dir_all(&folder).expect("the folder is made");
        Desk(folder)
    }

    fn write(&self, name: &str, bytes: &[u8]) {
        fs::write(self.0.join(name), bytes).expect("the file is written");
    }

    fn run(&self, program: &Path, arguments: &[&str], input: Stdio, out: Stdio) -> Left {
        let command = Command::new(program).current_dir(&self.0).args(arguments).stdin(input).stdout(out).stderr(Stdio::piped()).spawn();
        let output = command.and_then(|child| child.wait_with_output()).expect("the program runs");
        Left { status: output.status.code(), out: output.stdout, errors: output.stderr }
    }

    /// Runs a program that takes a table.
    fn run_on_table(&self, program: &Path, arguments: &[&str], table: &[u8]) -> Left {
        self.write("table", table);
        let table = File::open(self.0.join("table")).expect("the table opens");
        self.run(program, arguments, table.into(), Stdio::piped())
    }

    /// Makes a book of this table.
    fn book(&self, arguments: &[&str], table: &[u8]) -> Left {
        self.run_on_table(&PROGRAMS.book, arguments, table)
    }

    /// Gives this book the titles of this table.
    fn retitle(&self, options: &[&str], book: &[u8], table: &[u8]) -> Left {
        self.write("book", book);
        self.run_on_table(&PROGRAMS.retitle, &[options, &["book"]].concat(), table)
    }

    /// Runs both show programs, which must leave the same.
    #[track_caller]
    fn show_into(&self, arguments: &[&str], out: impl Fn() -> Stdio) -> Left {
        let [c, rust] = [0, 1].map(|k| self.run(&PROGRAMS.shows[k], arguments, Stdio::null(), out()));
        assert!(c == rust, "in C: {}\nin Rust: {}", c.told(), rust.told());
        c
    }

    #[track_caller]
    fn show(&self, arguments: &[&str]) -> Left {
        self.show_into(arguments, Stdio::piped)
    }

    /// Shows this book in this text with these options on this day.
    #[track_caller]
    fn show_on(&self, options: &[&str], day: &str, text: &[u8], book: &[u8]) -> Left {
        self.write("text", text);
        self.write("book", book);
        self.show(&[options, &[day, "text", "book"]].concat())
    }

    /// Shows this book in this text with these options.
    #[track_caller]
    fn show_by(&self, options: &[&str], text: &[u8], book: &[u8]) -> Left {
        self.show_on(options, TODAY, text, book)
    }

    /// Shows this book in this text.
    #[track_caller]
    fn show_of(&self, text: &[u8], book: &[u8]) -> Left {
        self.show_by(&[], text, book)
    }
}

fn example(name: &str) -> Vec<u8> {
    fs::read(repository().join("examples").join(name)).unwrap_or_else(|error| panic!("examples/{name}: {error}"))
}

/// Text in UTF-8 turned into ISO 8859-1.
fn latin1(utf8: &[u8]) -> Vec<u8> {
    letters(1, std::str::from_utf8(utf8).expect("the text is in UTF-8"))
}

/// Letters of a page as a show file has them: control bytes by their numbers, 10 as \n, and a backslash twice.
fn shown(page: u32, letters: &[u8]) -> String {
    let written = |&letter: &u8| match letter {
        b'\n' => "\\n".to_string(),
        b'\\' => "\\\\".to_string(),
        0..=31 | 127..=159 => format!("\\x{letter:02x}"),
        _ => sign(page, letter).to_string(),
    };
    letters.iter().map(written).collect()
}

/// The line and the column of a place that a letter stands at: the endings before it are made one byte each, and the text is taken apart there. A 13
/// before a 10 at the place is no ending yet, and any other letter stands for it.
fn line_and_column(text: &[u8], place: usize) -> (usize, usize) {
    let mut before: String = text[..place].iter().map(|&letter| char::from(letter)).collect();
    if before.ends_with('\r') && text[place] == b'\n' {
        before.pop();
        before.push('-');
    }
    let before = before.replace("\r\n", "\n");
    let lines: Vec<&str> = before.split(['\n', '\r']).collect();
    (lines.len(), lines[lines.len() - 1].chars().count() + 1)
}

/// The show file of a guest, who has these cues, which stand in the text.
fn guest_file<'a>(page: u32, text: &[u8], cues: impl IntoIterator<Item = &'a Cue>) -> String {
    let row = |cue| {
        let place = place_of(page, cue, text).expect("the cue stands in the text");
        let (line, column) = line_and_column(text, place);
        format!("{place:5}  {line:5}  {column:6}\n")
    };
    GUEST_HEAD.to_string() + &cues.into_iter().map(row).collect::<String>()
}

/// The show file of cues that all play and stand in the text, by brute force.
fn show_file(page: u32, text: &[u8], cues: &[Cue]) -> String {
    show_file_of(page, text, &cues.iter().enumerate().collect::<Vec<_>>())
}

/// The show file of these cues, each with its index in the book.
fn show_file_of(page: u32, text: &[u8], cues: &[(usize, &Cue)]) -> String {
    let mut file = HEAD.to_string();
    for (index, cue) in cues {
        let place = place_of(page, cue, text).expect("the cue stands in the text");
        let (line, column) = line_and_column(text, place);
        let row = format!("{index:3}  {place:5}  {line:5}  {column:6}  {}", shown(page, &cue.title));
        file += &format!("{}\n", row.trim_end());
    }
    file += REFRAINS;
    let mut printed: Vec<Vec<usize>> = Vec::new();
    for (_, cue) in cues {
        let places = places(page, &cue.phrase, text);
        // Phrases of cues that stand in the text are the same in any case exactly if they are of one length and have one list.
        let list = [&[cue.phrase.len()], &places[..]].concat();
        if !printed.contains(&list) {
            file += &format!("{:5}  \"{}\"\n", places.len(), shown(page, &cue.phrase));
            for row in places.chunks(10) {
                let row: Vec<String> = row.iter().map(|place| format!("{place:5}")).collect();
                file += &format!("       {}\n", row.join("  "));
            }
            printed.push(list);
        }
    }
    file
}

#[test]
fn the_aria() {
    let desk = Desk::new("aria");
    let (text, table, expected) = (example("aria.txt"), example("aria.cues"), example("aria.show"));
    let made = desk.book(&[], &table);
    made.is(0, &example("aria.book"), "");
    desk.book(&["--bytes"], &latin1(&table)).is(0, &made.out, "");
    desk.book(&["--page", "1"], &table).is(0, &made.out, "");

    desk.show_of(&text, &made.out).is(0, &expected, "");
    desk.show_by(&["--page", "1"], &text, &made.out).is(0, &expected, "");
    desk.show_by(&["--bytes"], &text, &made.out).is(0, &latin1(&expected), "");
    // The aria has none of the letters by which the pages differ.
    desk.book(&["--page", "15"], &table).is(0, &made.out, "");
    desk.show_by(&["--page", "15"], &text, &made.out).is(0, &expected, "");
}

/// The two casts of the aria's end: on each day of March 2026 one of the two cues plays, on no day both, and on any other day neither.
#[test]
fn the_casts_of_the_aria() {
    let desk = Desk::new("casts");
    let (text, book) = (example("aria.txt"), example("aria.book"));
    let aria = String::from_utf8(example("aria.show")).expect("the file is in UTF-8");
    let [first, second] = [" 14    475     28       1  REVIENS, REVIENS, MA BARQUE,\n", " 15    475     28       1  Reviens, reviens, ma barque,\n"];
    assert!(aria.contains(first), "{aria}");
    let with = |row: &str| aria.replace(first, row);
    // The refrain is that of earlier cues too, so that its list stays.
    let neither = with("");
    for (day, show) in [
        ("2026-02-28", &neither),
        ("2026-03-01", &aria),
        ("2026-3-1", &aria),
        ("2026-03-14", &aria),
        ("2026-03-15", &with(second)),
        ("2026-03-31", &with(second)),
        ("2026-04-01", &neither),
        ("2000-01-01", &neither),
        ("2099-12-31", &neither),
        ("2025-03-14", &neither),
    ] {
        desk.show_on(&[], day, &text, &book).is(0, show.as_bytes(), "");
    }
}

const SONG: &str = "LE CHŒUR DE L'HAŸ\nMon cœur,\nMON CŒUR\ncoûte 5 €.\n";
const SONG_CUES: &str = "1\tle chœur de l'haÿ\tŒdipe in L'Haÿ\n2\tCœur\tMy heart\n1\tCOÛTE 5 €\tcosts €5\n";
const SONG_SHOW: &str = "cue  place   line  column  title
  0      0      1       1  Œdipe in L'Haÿ
  1     32      3       5  My heart
  2     37      4       1  costs €5

total  phrase, and below it its places
    1  \"le chœur de l'haÿ\"
           0
    2  \"Cœur\"
          22     32
    1  \"COÛTE 5 €\"
          37
";

/// A French song, whose cues are found in capital letters too: the table in UTF-8 and in ISO 8859-15, the options in either order.
#[test]
fn a_french_song() {
    let desk = Desk::new("french");
    let [text, table, show] = [SONG, SONG_CUES, SONG_SHOW].map(|written| letters(15, written));
    let cue = |phrase, ordinal, title| Cue::new(&letters(15, phrase), ordinal, &letters(15, title));
    let cues = [cue("le chœur de l'haÿ", 1, "Œdipe in L'Haÿ"), cue("Cœur", 2, "My heart"), cue("COÛTE 5 €", 1, "costs €5")];
    let made = desk.book(&["--page", "15"], SONG_CUES.as_bytes());
    made.is(0, &book(&cues), "");
    for options in [["--bytes", "--page", "15"], ["--page", "15", "--bytes"]] {
        desk.book(&options, &table).is(0, &made.out, "");
        desk.show_by(&options, &text, &made.out).is(0, &show, "");
    }
    desk.show_by(&["--page", "15"], &text, &made.out).is(0, SONG_SHOW.as_bytes(), "");

    // By page 1 the same bytes are other signs, and the capital and the small letter are two.
    let refused = "book: cue 0: the cue's occurrence does not exist: ordinal 1 of \"le ch½ur de l'haÿ\", total 0\n";
    desk.show_of(&text, &made.out).is_refusal(refused);
    let refused = "book: cue 0: the cue's occurrence does not exist: ordinal 2 of \"C½ur\", total 1\n";
    desk.show_by(&["--page", "1"], &text, &book(&cues[1..])).is_refusal(refused);
}

/// The aria as old desks send it, its lines ended by 13, or by 13 and 10: each cue has the line and the column that it has in the aria.
#[test]
fn the_aria_from_old_desks() {
    let desk = Desk::new("old-desks");
    let [table, aria] = ["aria.cues", "aria.show"].map(|name| String::from_utf8(example(name)).expect("the file is in UTF-8"));
    let lines_and_columns = |show: &str| -> Vec<String> {
        let rows = show.lines().skip(1).take_while(|row| !row.is_empty());
        rows.map(|row| row.split_whitespace().skip(2).take(2).collect::<Vec<_>>().join(" ")).collect()
    };
    for (ending, written) in [(&b"\r"[..], "\\x0d"), (b"\r\n", "\\x0d\\n")] {
        let text = example("aria.txt").split(|&letter| letter == b'\n').collect::<Vec<_>>().join(ending);
        let book = desk.book(&[], table.replace("\\n", written).as_bytes());
        let left = desk.show_of(&text, &book.out);
        let show = String::from_utf8(left.out).expect("the show file is in UTF-8");
        assert_eq!(lines_and_columns(&show), lines_and_columns(&aria), "{written}: lines and columns");
        // One byte for another moves no place.
        assert!(ending.len() > 1 || show == aria.replace("\\n", written), "{show}");
    }
}

#[test]
fn random_verses() {
    let desk = Desk::new("verses");
    let mut random = Random::new(71);
    for round in 0..70 {
        let (page, alphabet) = (PAGES[round % 2], verses::ALPHABETS[round % 7]);
        let length = random.between(1, 300);
        let text = verses::verse(page, alphabet, length, &mut random);
        let count = random.between(0, 12.min(length));
        let cues = verses::rising(page, &text, count, 5, &mut random);
        let evening = Evening::any(&cues, &mut random);
        let resolved: Vec<(usize, &Cue)> = evening.resolved.iter().map(|&index| (index, &evening.cues[index])).collect();
        let show = |evening: &Evening| desk.show_on(&options_of(page, evening.role), &written(evening.day), &text, &evening.book());
        let for_guest = guest_file(page, &text, &cues);
        let due = if evening.role == GUEST { for_guest } else { show_file_of(page, &text, &resolved) };
        show(&evening).is(0, due.as_bytes(), "");

        // One more cue, which is at fault and has others around it that are passed over.
        let with = |cue: &Cue, random: &mut Random| Evening::any(&[&cues[..], slice::from_ref(cue)].concat(), random);
        // A guest is told the number among the open cues, and no more.
        let told = |evening: &Evening, cue: &Cue, why: &str, more: String| {
            let number = evening.number(count);
            match evening.role {
                GUEST => format!("book: open cue {number}: {why}\n"),
                _ => format!("book: cue {number}: {why}: ordinal {} of \"{}\"{more}\n", cue.ordinal, shown(page, &cue.phrase)),
            }
        };
        let missing = verses::missing(page, alphabet, &text, &mut random);
        let total = verses::total(page, &missing.phrase, &text);
        let evening = with(&missing, &mut random);
        show(&evening).is_refusal(&told(&evening, &missing, MISSING, format!(", total {total}")));

        let Some(before) = cues.last().and_then(|last| place_of(page, last, &text)) else {
            continue;
        };
        let backward = verses::not_behind(page, &text, before, 5, &mut random);
        let at = place_of(page, &backward, &text).expect("the cue stands in the text");
        let [(line, column), (line_before, column_before)] = [at, before].map(|place| line_and_column(&text, place));
        let evening = with(&backward, &mut random);
        let before = evening.resolved[count - 1];
        let more = format!(" is at line {line}, column {column}, cue {before} at line {line_before}, column {column_before}");
        show(&evening).is_refusal(&told(&evening, &backward, NOT_FORWARD, more));
    }
}

/// Cues of the aria and of the song in an order in which they do not come, and two at one place.
#[test]
fn cues_that_do_not_run_forward() {
    let desk = Desk::new("forward");
    let cue = |page, phrase, ordinal| Cue::new(&letters(page, phrase), ordinal, b"");
    let aria = example("aria.txt");
    let cases = [
        ([("Torna, torna", 1), ("ma la barca", 1)], "ordinal 1 of \"ma la barca\" is at line 7, column 1, cue 0 at line 9, column 1"),
        ([("Torna, torna", 1), ("TORNA,", 1)], "ordinal 1 of \"TORNA,\" is at line 9, column 1, cue 0 at line 9, column 1"),
        ([("la la la", 4), ("la la la", 3)], "ordinal 3 of \"la la la\" is at line 26, column 1, cue 0 at line 26, column 4"),
        ([("torna, torna", 2), ("mia,\ntorna prima", 1)], "ordinal 1 of \"mia,\\ntorna prima\" is at line 9, column 21, cue 0 at line 21, column 1"),
    ];
    for (cues, told) in cases {
        let cues = cues.map(|(phrase, ordinal)| cue(1, phrase, ordinal));
        desk.show_of(&aria, &book(&cues)).is_refusal(&format!("book: cue 1: {NOT_FORWARD}: {told}\n"));
        // Behind a cue that runs forward, and before one that is missing, which is not told.
        let more = [&[cue(1, "già la sera", 1)], &cues[..], &[cue(1, "l'allodola", 1)]].concat();
        let told = told.replace("cue 0", "cue 1");
        desk.show_of(&aria, &book(&more)).is_refusal(&format!("book: cue 2: {NOT_FORWARD}: {told}\n"));
    }

    let song = letters(15, SONG);
    let cues = [cue(15, "Cœur", 2), cue(15, "chœur", 1)];
    let told = format!("book: cue 1: {NOT_FORWARD}: ordinal 1 of \"chœur\" is at line 1, column 4, cue 0 at line 3, column 5\n");
    desk.show_by(&["--page", "15"], &song, &book(&cues)).is_refusal(&told);
    let as_bytes = desk.show_by(&["--page", "15", "--bytes"], &song, &book(&cues));
    assert!(as_bytes == Left { status: Some(1), out: vec![], errors: letters(15, &told) }, "{}", as_bytes.told());
}

#[test]
fn nothing_to_show() {
    let desk = Desk::new("nothing");
    let no_cues = [HEAD, REFRAINS].concat();
    desk.show_of(b"", b"").is(0, no_cues.as_bytes(), "");
    desk.show_by(&["--guest"], b"", b"").is(0, GUEST_HEAD.as_bytes(), "");
    desk.show_by(&["--guest"], b"la", &book(&[Cue::new(b"so", 1, b"").marked(1)])).is(0, GUEST_HEAD.as_bytes(), "");
    desk.show_of(b"la la", b"").is(0, no_cues.as_bytes(), "");
    let missing = "book: cue 0: the cue's occurrence does not exist: ordinal 1 of \"la\", total 0\n";
    desk.show_of(b"", &book(&[Cue::new(b"la", 1, b"")])).is_refusal(missing);
    // A book of which no cue plays.
    let ended = book(&[Cue::new(b"la", 1, b"").on(0, 0), Cue::new(b"so", 1, b"").on(0, 1)]);
    desk.show_of(b"la la", &ended).is(0, no_cues.as_bytes(), "");
    desk.book(&[], b"").is(0, b"", "");
    desk.book(&[], b"# no cue\n\n\r\n#").is(0, b"", "");
}

#[test]
fn limits() {
    let desk = Desk::new("limits");
    let text = [b'a'; 32_769];
    let longest = [Cue::new(&text[..1024], 31_745, b""), Cue::new(b"A", 32_768, &[b'T'; 200])];
    desk.show_of(&text[..32_768], &book(&longest)).is(0, show_file(1, &text[..32_768], &longest).as_bytes(), "");
    desk.show_of(&text, &book(&longest)).is_refusal("text: the text has more than 32,768 bytes\n");
    // The book is read before the text is looked at.
    desk.show_of(&text, b"\x01").is_refusal("book: cue 0: the book ends inside a field\n");
    // A guest's book is read by the resolver, which looks at the text before.
    desk.show_by(&["--guest"], &text, b"\x01").is_refusal("text: the text has more than 32,768 bytes\n");
    desk.show_by(&["--guest"], &text[..32_768], &book(&longest)).is(0, guest_file(1, &text[..32_768], &longest).as_bytes(), "");

    let numbers: Vec<String> = (0..=CUES).map(|number| format!("#{number:03}")).collect();
    let cues: Vec<Cue> = numbers.iter().map(|number| Cue::new(number.as_bytes(), 1, b"")).collect();
    let text = numbers.concat();
    desk.show_of(text.as_bytes(), &book(&cues[..CUES])).is(0, show_file(1, text.as_bytes(), &cues[..CUES]).as_bytes(), "");
    let too_many = "book: cue 999: bytes remain after 999 cues\n";
    desk.show_of(text.as_bytes(), &book(&cues)).is_refusal(too_many);
    let text = Random::new(72).word(26, CUES + 1023);
    let longest: Vec<Cue> = text.windows(1024).map(|phrase| Cue::new(phrase, 1, &[b'T'; 200])).collect();
    desk.show_of(&text, &book(&longest)).is(0, show_file(1, &text, &longest).as_bytes(), "");
    desk.show_of(&text, &[&book(&longest)[..], &[1]].concat()).is_refusal(too_many);
    let marked: Vec<Cue> = longest.into_iter().map(|cue| cue.on(0, LAST_DAY).marked(1)).collect();
    desk.show_of(&text, &book(&marked)).is(0, show_file(1, &text, &marked).as_bytes(), "");
    desk.show_of(&text, &[&book(&marked)[..], &[5]].concat()).is_refusal(too_many);
    desk.retitle(&[], &[&book(&marked)[..], &[5]].concat(), b"").is_refusal(too_many);
    desk.retitle(&[], &book(&marked), b"").is(0, &book(&marked), "");

    let line = |number: &String| format!("1\t{number}\t\n");
    desk.book(&[], numbers[..CUES].iter().map(line).collect::<String>().as_bytes()).is(0, &book(&cues[..CUES]), "");
    desk.book(&[], numbers.iter().map(line).collect::<String>().as_bytes()).is_refusal("line 1000: the book has 999 cues already\n");
    let longest = format!("65535\t{}\t{}", "\\xE0".repeat(1024), "\\x5C".repeat(200));
    let cue = Cue::new(&[0xe0; 1024], 65_535, &[b'\\'; 200]);
    desk.book(&[], format!("{longest}\r\n").as_bytes()).is(0, &book(slice::from_ref(&cue)), "");
    let dated = cue.on(0, LAST_DAY);
    desk.book(&[], format!("{longest}\t2000-01-01\t2099-12-31\r\n").as_bytes()).is(0, &book(slice::from_ref(&dated)), "");
    desk.book(&[], format!("{longest}\t2000-01-01\t2099-12-31\thouse\r\n").as_bytes()).is(0, &book(&[dated.marked(1)]), "");
}

#[test]
fn damaged_books() {
    let desk = Desk::new("damaged");
    let (text, good) = (example("aria.txt"), example("aria.book"));
    let damaged = |place: usize, byte| [&good[..place], &[byte], &good[place + 1..]].concat();
    // The first cue's phrase has 11 bytes and its title 32, so the fields of the first cue begin at 0, 14 and 19, and the second cue at 54.
    let cases = [
        (good[..54 + 13].to_vec(), "cue 1: the book ends inside a field"),
        (damaged(0, 2), "cue 0: a field's tag is not the one due"),
        (damaged(54, 3), "cue 1: a field's tag is not the one due"),
        (damaged(18, 0), &format!("cue 0: {BAD_FIELD}")),
        (damaged(16, 3), &format!("cue 0: {BAD_FIELD}")),
        ([&good[..], &[0]].concat(), "cue 18: the book ends inside a field"),
        ([&good[..], &[4]].concat(), "cue 17: the book ends inside a field"),
        ([&good[..54], b"\x04\x00\x05"].concat(), &format!("cue 0: {BAD_FIELD}")),
        ([&good[..54], b"\x05\x00\x01\x02"].concat(), &format!("cue 0: {BAD_FIELD}")),
        ([&good[..54], b"\x05\x00\x01"].concat(), "cue 0: the book ends inside a field"),
        ([&good[..54], b"\x04\x00\x04\x00\x00\x8e\xad"].concat(), &format!("cue 0: {BAD_DATE}")),
        ([&good[..54], b"\x04\x00\x04\x00\x01\x00\x00", &good[54..]].concat(), &format!("cue 0: {BAD_DATE}")),
    ];
    for (book, told) in cases {
        // A guest and a translator are told the same, also where the table has no title.
        for left in
            [desk.show_of(&text, &book), desk.show_by(&["--guest"], &text, &book), desk.retitle(&[], &book, b"0\tx"), desk.retitle(&[], &book, b"")]
        {
            left.is_refusal(&format!("book: {told}\n"));
        }
    }
    for end in (1..good.len()).step_by(13) {
        match read_book(Role::Operator, &good[..end]) {
            Ok(_) => assert_eq!(desk.show_of(&text, &good[..end]).status, Some(0)),
            Err(refused) => desk.show_of(&text, &good[..end]).is_refusal(&format!("book: {refused}\n")),
        }
    }
}

#[test]
fn refused_tables() {
    let long_title = format!("1\tla\t{}", "b".repeat(201));
    let [long_phrase, long_line] = [1025, 5000].map(|letters| format!("1\t{}\tNo", "a".repeat(letters)));
    let not_a_line =
        "the line is not ordinal, TAB, phrase, TAB, title, with or without TAB, first day, TAB, last day, and these with or without TAB, house";
    let not_house = "the last column is neither empty nor house";
    let [not_written, not_a_date] = ["a day is not written as year-month-day, as in 2026-03-14", "a date is not in the calendar's 2000 to 2099"];
    let bad_field = "the ordinal is not from 1 to 65,535, or the title has more than 200 letters";
    let no_letter = "a letter is not in ISO 8859-1, or the table is not in UTF-8";
    let no_byte = "a backslash begins none of \\n, \\xNN and \\\\";
    let cases = [
        ("la", not_a_line),
        ("1\tla", not_a_line),
        ("1\tla\tNo\t", not_a_line),
        ("\tla\tNo", "the ordinal is not a number"),
        ("-1\tla\tNo", "the ordinal is not a number"),
        ("0\tla\tNo", bad_field),
        ("65536\tla\tNo", bad_field),
        ("99999999999999999999\tla\tNo", bad_field),
        (&long_title, bad_field),
        ("1\t\tNo", "the phrase has no letters"),
        (&long_phrase, "the phrase has more than 1,024 letters"),
        (&long_line, "the line is too long"),
        ("1\tdell\u{2019}aria\tNo", no_letter),
        ("1\tla\tc\u{153}ur", no_letter),
        ("1\tla\\\tNo", no_byte),
        ("1\tla\t\\x4", no_byte),
        ("1\tla\t\\xg4", no_byte),
        ("1\tla\t\\x4g", no_byte),
        ("1\tla\tNo\t2026-03-14", not_a_line),
        ("1\tla\tNo\thouse", not_a_line),
        ("1\tla\tNo\t2026-03-14\t2026-03-15\thouse\t", not_a_line),
        ("1\tla\tNo\t2026-03-14\t2026-03-15\t1", not_house),
        ("1\tla\tNo\t\t\tHouse", not_house),
        ("1\tla\tNo\t\t\thouse ", not_house),
        ("1\tla\tNo\t\t\thous", not_house),
        ("1\tla\tNo\t\t\thouses", not_house),
        ("1\tla\tNo\t\thouse", not_written),
        ("1\tla\tNo\t2026-03-14\t", not_written),
        ("1\tla\tNo\t\t2026-03-14", not_written),
        ("1\tla\tNo\t2026-03\t2026-03-15", not_written),
        ("1\tla\tNo\t2026-03-14-\t2026-03-15", not_written),
        ("1\tla\tNo\t2026-03-14\t2026-03-15-01", not_written),
        ("1\tla\tNo\t2026/03/14\t2026-03-15", not_written),
        ("1\tla\tNo\t2026-+3-14\t2026-03-15", not_written),
        ("1\tla\tNo\t 2026-03-14\t2026-03-15", not_written),
        ("1\tla\tNo\t--\t2026-03-15", not_written),
        ("1\tla\tNo\t2026-02-29\t2026-03-15", not_a_date),
        ("1\tla\tNo\t2026-02-28\t2026-02-29", not_a_date),
        ("1\tla\tNo\t1999-12-31\t2026-03-15", not_a_date),
        ("1\tla\tNo\t2026-03-15\t2100-01-01", not_a_date),
        ("1\tla\tNo\t4294969322-03-14\t2026-03-15", not_a_date),
        ("1\tla\tNo\t2026-03-4294967310\t2026-03-15", not_a_date),
        ("1\tla\tNo\t2026-00-14\t2026-03-15", not_a_date),
        ("1\tla\tNo\t2026-03-15\t2026-03-14", "the first day is after the last"),
        // What is told is the first fault from the line's front.
        ("0\tla\tNo\t2026-03-15\t2026-02-30", not_a_date),
        ("x\tla\tNo\t2026-03-15\t2026-02-30", "the ordinal is not a number"),
    ];
    // All in one table, with a good line after each, so that every refused line is told and no book is written.
    let table: String = cases.iter().map(|(line, _)| format!("{line}\n1\tla\tNo\r\n")).collect();
    let told: String = cases.iter().enumerate().map(|(index, (_, told))| format!("line {}: {told}\n", 2 * index + 1)).collect();
    let desk = Desk::new("tables");
    desk.book(&[], table.as_bytes()).is_refusal(&told);
    desk.book(&[], b"1\tl\xe0\tNo").is_refusal(&format!("line 1: {no_letter}\n"));
    desk.book(&["--bytes"], b"1\tl\xe0\tNo").is(0, &book(&[Cue::new(b"l\xe0", 1, b"No")]), "");
}

/// Lines with days, at the calendar's ends and around the end of a February, with numbers written in other lengths, and with empty columns.
#[test]
fn tables_with_days() {
    let desk = Desk::new("days");
    let cue = |days: Option<(u16, u16)>| Cue { days, ..Cue::new(b"la", 1, b"No") };
    let cases = [
        ("1\tla\tNo", None),
        ("1\tla\tNo\t\t", None),
        ("1\tla\tNo\t2000-01-01\t2000-01-01", Some((0, 0))),
        ("1\tla\tNo\t2000-01-01\t2099-12-31", Some((0, 36_524))),
        ("1\tla\tNo\t2099-12-31\t2099-12-31", Some((36_524, 36_524))),
        ("1\tla\tNo\t2000-02-29\t2000-03-01", Some((59, 60))),
        ("1\tla\tNo\t2000-2-29\t2000-3-1", Some((59, 60))),
        ("1\tla\tNo\t02000-0002-29\t2000-000000000000003-01", Some((59, 60))),
        ("1\tla\tNo\t2026-03-14\t2026-03-14", Some((9569, 9569))),
    ];
    let table: String = cases.iter().map(|(line, _)| format!("{line}\r\n")).collect();
    desk.book(&[], table.as_bytes()).is(0, &book(&cases.map(|(_, days)| cue(days))), "");
    desk.book(&["--bytes", "--page", "15"], table.as_bytes()).is(0, &book(&cases.map(|(_, days)| cue(days))), "");
    // An empty title before the days.
    desk.book(&[], b"1\tla\t\t2000-01-02\t2000-01-03").is(0, &book(&[Cue::new(b"la", 1, b"").on(1, 2)]), "");
}

/// Lines with a column for the house, with days and without, and books of which a guest is shown the open cues.
#[test]
fn house_cues() {
    let desk = Desk::new("house");
    let table =
        b"1\tla\tOne\n2\tla\tTwo\t\t\thouse\n3\tla\tThree\t2026-03-14\t2026-03-14\thouse\r\n4\tla\tFour\t2026-03-14\t2026-03-14\t\n5\tla\tFive\t\t\t";
    let cue = |ordinal, title: &str| Cue::new(b"la", ordinal, title.as_bytes());
    let today = |cue: Cue| cue.on(9569, 9569);
    let cues = [cue(1, "One"), cue(2, "Two").marked(1), today(cue(3, "Three").marked(1)), today(cue(4, "Four")), cue(5, "Five")];
    let made = desk.book(&[], table);
    made.is(0, &book(&cues), "");
    let text = b"la LA la\nla la";
    desk.show_of(text, &made.out).is(0, show_file(1, text, &cues).as_bytes(), "");
    let open = [0, 3, 4].map(|index: usize| &cues[index]);
    for options in [&["--guest"][..], &["--guest", "--bytes"], &["--page", "15", "--guest"], &["--bytes", "--guest", "--page", "1"]] {
        desk.show_by(options, text, &made.out).is(0, guest_file(1, text, open).as_bytes(), "");
        desk.show_on(options, "2026-03-15", text, &made.out).is(0, guest_file(1, text, [&cues[0], &cues[4]]).as_bytes(), "");
    }
    // A guest is told the number among the open cues, whether they play or not.
    for (options, told) in
        [(&["--guest"][..], format!("open cue 2: {MISSING}\n")), (&[], format!("cue 4: {MISSING}: ordinal 5 of \"la\", total 4\n"))]
    {
        desk.show_on(options, "2026-03-15", b"la LA la\nla", &made.out).is_refusal(&format!("book: {told}"));
    }
}

/// Titles of the aria in another language: each line's cue has the new title, and all else of the book stays.
#[test]
fn titles_of_the_aria() {
    let desk = Desk::new("titles");
    let (text, book) = (example("aria.txt"), example("aria.book"));
    let table = "# German\n0\tSchon sinkt der Abend über das Meer,\n\n17\tEnde.\r\n6\t\n4\tno\n4\tKomm, mein Boot, komm zurück,\n";
    let left = desk.retitle(&[], &book, table.as_bytes());
    let aria = String::from_utf8(example("aria.show")).expect("the file is in UTF-8");
    let rows: Vec<String> = aria
        .lines()
        .map(|row| match row.get(..3) {
            Some("  0") => row.replace("Déjà le soir descend sur la mer,", "Schon sinkt der Abend über das Meer,"),
            Some("  4") => row.replace("Reviens, reviens, ma barque,", "Komm, mein Boot, komm zurück,"),
            Some("  6") => row.replace("  La la la la, sur le chemin", ""),
            Some(" 17") => format!("{row}  Ende."),
            _ => row.to_string(),
        })
        .collect();
    desk.show_of(&text, &left.out).is(0, format!("{}\n", rows.join("\n")).as_bytes(), "");
    // In the page's own bytes, and by the other page, which has all of these letters at the same bytes.
    desk.retitle(&["--bytes"], &book, &latin1(table.as_bytes())).is(0, &left.out, "");
    desk.retitle(&["--page", "15"], &book, table.as_bytes()).is(0, &left.out, "");
    desk.retitle(&[], &book, b"").is(0, &book, "");
}

/// Random books and titles, with every mark: what comes out is the book with these titles.
#[test]
fn random_titles() {
    let desk = Desk::new("random-titles");
    let mut random = Random::new(73);
    for round in 0..40 {
        let page = PAGES[round % 2];
        let mut cues: Vec<Cue> = (0..random.between(1, 40)).map(|_| Cue::random(&mut random)).collect();
        let old = book(&cues);
        let mut table = String::new();
        for _ in 0..random.below(30) {
            let (index, letters) = (random.below(cues.len()), random.between(0, 200));
            cues[index].title = random.word(256, letters);
            table += &format!("{index}\t{}\n", shown(page, &cues[index].title));
        }
        desk.retitle(&of_page(page), &old, table.as_bytes()).is(0, &book(&cues), "");
    }
}

/// Lines that are refused: each is told, and no book is written.
#[test]
fn refused_titles() {
    let desk = Desk::new("refused-titles");
    let cues = MARKS.map(|mark| Cue { mark, ..Cue::new(b"la", 1, b"No") });
    let not_a_line = "the line is not a cue's index, TAB, title";
    let [not_a_number, no_cue] = ["the cue's index is not a number", "the book has no cue of this index"];
    let [long, too_long] = [201, 5000].map(|letters| format!("0\t{}", "t".repeat(letters)));
    let cases = [
        ("0", not_a_line),
        ("0\tx\t", not_a_line),
        ("\tx", not_a_number),
        ("-1\tx", not_a_number),
        ("0x1\tx", not_a_number),
        (" 1\tx", not_a_number),
        ("3\tx", no_cue),
        ("999\tx", no_cue),
        ("65536\tx", no_cue),
        ("4294967296\tx", no_cue),
        ("99999999999999999999\t", no_cue),
        (&long, "the title has more than 200 letters"),
        (&too_long, "the line is too long"),
        ("0\tc\u{153}ur", "a letter is not in ISO 8859-1, or the table is not in UTF-8"),
        ("0\t\\x4", "a backslash begins none of \\n, \\xNN and \\\\"),
    ];
    let table: String = cases.iter().map(|(line, _)| format!("{line}\n1\tYes\r\n")).collect();
    let told: String = cases.iter().enumerate().map(|(index, (_, told))| format!("line {}: {told}\n", 2 * index + 1)).collect();
    desk.retitle(&[], &book(&cues), table.as_bytes()).is_refusal(&told);
    desk.retitle(&[], b"", b"0\tx").is_refusal(&format!("line 1: {no_cue}\n"));
    desk.retitle(&[], &book(&cues), b"2\tYes").is(
        0,
        &book(&[cues[0].clone(), cues[1].clone(), Cue { title: b"Yes".to_vec(), ..cues[2].clone() }]),
        "",
    );
}

/// Days that are told to `show`: those that the calendar has, those that it does not have, and what is no day at all.
#[test]
fn days_to_show() {
    let desk = Desk::new("day");
    let song = book(&[Cue::new(b"la", 1, b"No").on(59, 60), Cue::new(b"la", 1, b"Yes").on(61, LAST_DAY), Cue::new(b"la", 2, b"")]);
    let show = |cues: &[usize]| {
        let rows = ["  0      0      1       1  No\n", "  1      0      1       1  Yes\n", "  2      3      1       4\n"];
        let rows: String = cues.iter().map(|&cue| rows[cue]).collect();
        format!("{HEAD}{rows}{REFRAINS}    2  \"la\"\n           0      3\n")
    };
    for (day, cues) in [
        ("2000-01-01", &[2][..]),
        ("2000-02-28", &[2]),
        ("2000-02-29", &[0, 2]),
        ("2000-2-29", &[0, 2]),
        ("02000-00002-29", &[0, 2]),
        ("2000-03-01", &[0, 2]),
        ("2000-03-02", &[1, 2]),
        ("2099-12-31", &[1, 2]),
    ] {
        desk.show_on(&[], day, b"la la", &song).is(0, show(cues).as_bytes(), "");
        desk.show_on(&["--page", "15", "--bytes"], day, b"la la", &song).is(0, show(cues).as_bytes(), "");
    }
    // A date that the calendar does not have is told before any file is read.
    let none =
        ["1999-12-31", "2100-01-01", "2001-02-29", "2000-02-30", "2000-04-31", "2000-00-01", "2000-13-01", "2000-01-00", "2000-01-32", "0-0-0"];
    let large = ["4294969296-01-01", "2000-4294967297-01", "2000-01-4294967297", "99999999999999999999-01-01", "2000-01-99999999999999999999"];
    for day in none.into_iter().chain(large) {
        let told = format!("{day}: the date is not in the calendar's 2000 to 2099\n");
        desk.show_on(&[], day, b"la la", &song).is_refusal(&told);
        desk.show(&[day, "absent", "absent"]).is_refusal(&told);
    }
    let not_written = ["", "today", "2000", "2000-01", "2000-01-", "-01-01", "2000--01", "2000-01-01-", "2000-01-01-01", "2000/01/01", "20000101"];
    let signed =
        ["+2000-01-01", "2000-+1-01", "-2000-01-01", " 2000-01-01", "2000-01-01 ", "2000-01-01\n", "0x7d0-1-1", "2000-01-1x", "２０００-01-01"];
    for day in not_written.into_iter().chain(signed) {
        desk.show_on(&[], day, b"la la", &song).is_failure(SHOW_USAGE);
    }
}

/// What is told of a line that has a letter which is not on the page.
fn no_letter(page: u32) -> String {
    format!("a letter is not in ISO 8859-{page}, or the table is not in UTF-8")
}

/// All signs that UTF-8 writes in up to three bytes, and some longer ones: those of the page make its letters, and each other one is refused.
#[test]
fn every_sign() {
    let desk = Desk::new("signs");
    for page in PAGES {
        let on_page = |wanted: &char| (0..=255).any(|letter| sign(page, letter) == *wanted);
        let line = |wanted: &char| format!("1\t{wanted}\t\n");
        let signs = ('\u{80}'..='\u{ffff}').chain(['\u{10000}', '\u{1d11e}', '\u{10ffff}']);
        let (own, others): (Vec<char>, Vec<char>) = signs.partition(on_page);
        assert_eq!((own.len(), others.len()), (128, 0x1_0000 - 2048 - 256 + 3), "page {page}");

        let cues: Vec<Cue> = own.iter().map(|&own| Cue::new(&letters(page, &own.to_string()), 1, b"")).collect();
        desk.book(&of_page(page), own.iter().map(line).collect::<String>().as_bytes()).is(0, &book(&cues), "");
        let left = desk.book(&of_page(page), others.iter().map(line).collect::<String>().as_bytes());
        let errors = String::from_utf8(left.errors).expect("what is told is in UTF-8");
        for (index, (told, other)) in errors.lines().zip(&others).enumerate() {
            assert_eq!(told, format!("line {}: {}", index + 1, no_letter(page)), "page {page}, {other:?}");
        }
        assert_eq!((left.status, left.out, errors.lines().count()), (Some(1), vec![], others.len()), "page {page}");
    }
    // The signs of the eight bytes at which the pages differ, on the page that has them and on the other one.
    for (page, other, signs) in [(1, 15, "¤¦¨´¸¼½¾"), (15, 1, "€ŠšŽžŒœŸ")] {
        for own in signs.chars() {
            let table = format!("1\tla\t{own}\n");
            desk.book(&of_page(page), table.as_bytes()).is(0, &book(&[Cue::new(b"la", 1, &letters(page, &own.to_string()))]), "");
            desk.book(&of_page(other), table.as_bytes()).is_refusal(&format!("line 1: {}\n", no_letter(other)));
        }
    }
}

/// Bytes that are no UTF-8: bytes that continue nothing, signs cut short by a TAB, another letter or the line's end, the euro sign behind bytes that do
/// not begin it, and signs in more bytes than they need, which would be letters of the page.
#[test]
fn tables_that_are_not_in_utf8() {
    let desk = Desk::new("utf8");
    let alone = (0x80..=0xff).map(|byte| vec![byte]);
    let cut: [&[u8]; 8] = [b"\xc5a", b"\xe2\x82", b"\xe2\x82a", b"\xe2a\xac", b"\xe2\xc5\x93", b"\xc3\xc3\xa9", b"\xf0\x9d\x84", b"\xff\xff"];
    let begun: [&[u8]; 4] = [b"\x82\x82\xac", b"\xb2\x82\xac", b"\xf2\x82\xac", b"\xfe\x82\xac"];
    let long: [&[u8]; 7] = [b"\xc0\xa1", b"\xc1\xa1", b"\xe0\x81\xa1", b"\xe0\x82\xa4", b"\xe0\x83\xa9", b"\xf0\x82\x82\xac", b"\xf0\x80\x83\xa9"];
    let wrong: Vec<Vec<u8>> = alone.chain(cut.iter().chain(&begun).chain(&long).map(|bytes| bytes.to_vec())).collect();
    for page in PAGES {
        let lines = wrong.iter().flat_map(|bytes| [[b"1\t", &bytes[..], b"\tNo\n"].concat(), [b"1\tla\t", &bytes[..], b"\n"].concat()]);
        let told: String = (1..=2 * wrong.len()).map(|number| format!("line {number}: {}\n", no_letter(page))).collect();
        desk.book(&of_page(page), &lines.collect::<Vec<_>>().concat()).is_refusal(&told);
    }
}

#[test]
fn every_byte() {
    let desk = Desk::new("bytes");
    let odd = b"\0\x1f \\\x7f\x80\x9f\xa0\xff\n";
    let left = desk.show_of(odd, &book(&[Cue::new(odd, 1, odd)]));
    let shown = "\\x00\\x1f \\\\\\x7f\\x80\\x9f\u{a0}\u{ff}\\n";
    left.is(0, format!("{HEAD}  0      0      1       1  {shown}\n{REFRAINS}    1  \"{shown}\"\n           0\n").as_bytes(), "");

    // All bytes, by both pages. What the show file has for a phrase and a title may be put into a table, and makes the same book.
    let all: Vec<u8> = (0..=255).collect();
    let cues: Vec<Cue> = all.chunks(128).map(|half| Cue::new(half, 1, half)).collect();
    for page in PAGES {
        let in_utf8 = desk.show_by(&of_page(page), &all, &book(&cues));
        in_utf8.is(0, show_file(page, &all, &cues).as_bytes(), "");
        let as_bytes = desk.show_by(&[&of_page(page)[..], &["--bytes"]].concat(), &all, &book(&cues));
        as_bytes.is(0, &letters(page, &show_file(page, &all, &cues)), "");

        desk.book(&of_page(page), &table_of(&in_utf8.out)).is(0, &book(&cues), "");
        desk.book(&[&["--bytes"], &of_page(page)[..]].concat(), &table_of(&as_bytes.out)).is(0, &book(&cues), "");
    }
}

/// The table of the two cues of a show file, both with ordinal 1 and one place.
fn table_of(show: &[u8]) -> Vec<u8> {
    let lines: Vec<&[u8]> = show.split(|&byte| byte == b'\n').collect();
    let line = |cue: usize| {
        let (title, phrase) = (&lines[1 + cue][27..], &lines[5 + 2 * cue][8..]);
        [b"1\t", &phrase[..phrase.len() - 1], b"\t", title, b"\n"].concat()
    };
    [line(0), line(1)].concat()
}

#[test]
fn files_that_fail() {
    let desk = Desk::new("files");
    desk.show_of(b"la", b"");
    desk.show(&[TODAY, "absent", "book"]).is_failure("absent: No such file or directory\n");
    desk.show(&[TODAY, "text", "absent"]).is_failure("absent: No such file or directory\n");
    desk.show(&[TODAY, ".", "book"]).is_failure(".: Is a directory\n");

    let full = || File::options().write(true).open("/dev/full").expect("the full device opens").into();
    desk.show_into(&[TODAY, "text", "book"], full).is_failure("standard output: No space left on device\n");
    let folder = || File::open(&desk.0).expect("the folder opens").into();
    desk.run(&PROGRAMS.book, &[], folder(), Stdio::piped()).is_failure("standard input: Is a directory\n");
    desk.run(&PROGRAMS.retitle, &["book"], folder(), Stdio::piped()).is_failure("standard input: Is a directory\n");
    desk.run(&PROGRAMS.retitle, &["absent"], Stdio::null(), Stdio::piped()).is_failure("absent: No such file or directory\n");
    desk.write("book", &book(&[Cue::new(b"la", 1, b"")]));
    desk.run(&PROGRAMS.retitle, &["book"], Stdio::null(), full()).is_failure("standard output: No space left on device\n");
    desk.show_into(&["--guest", TODAY, "text", "book"], full).is_failure("standard output: No space left on device\n");
}

/// Options that are wrong, come twice, or stand behind the files, and another number of files than there should be.
#[test]
fn wrong_calls() {
    let desk = Desk::new("calls");
    desk.show_of(b"la", b"").is(0, [HEAD, REFRAINS].concat().as_bytes(), "");
    let files: [&[&str]; 9] = [
        &[],
        &[TODAY],
        &[TODAY, "text"],
        &["text", "book"],
        &["--bytes", TODAY, "text"],
        &["--page", "15", TODAY, "text"],
        &[TODAY, "text", "book", "more"],
        &[TODAY, "text", "book", "--bytes"],
        &[TODAY, "--bytes", "text", "book"],
    ];
    for arguments in files {
        desk.show(arguments).is_failure(SHOW_USAGE);
    }
    desk.book(&["table"], b"").is_failure(BOOK_USAGE);
    desk.book(&["--page", "15", "table"], b"").is_failure(BOOK_USAGE);

    let pages =
        ["0", "2", "9", "14", "16", "151", "115", "-1", "+1", "01", "015", "1 ", " 15", "15.0", "0x1", "1e0", "", "latin1", "--bytes", "4294967297"];
    let wrong_pages = pages.iter().map(|page| vec!["--page", page]);
    let twice = [vec!["--bytes", "--bytes"], vec!["--page", "15", "--page", "15"], vec!["--page", "1", "--bytes", "--page", "1"]];
    let guests = [vec!["--guest", "--guest"], vec!["--guest", "--page", "1", "--guest"], vec!["--guests"], vec!["--guest=1"]];
    let unknown = [vec!["--latin1"], vec!["--page=15"], vec!["--"], vec!["--bytes", "--help"], vec!["--pages", "15"]];
    for options in wrong_pages.chain(twice).chain(guests).chain(unknown) {
        for files in [&[TODAY, "text", "book"][..], &[]] {
            desk.show(&[&options, files].concat()).is_failure(SHOW_USAGE);
        }
        desk.book(&options, b"").is_failure(BOOK_USAGE);
        desk.retitle(&options, b"", b"").is_failure(RETITLE_USAGE);
    }
    // The other two have no guest's form, and `retitle` takes one book.
    desk.book(&["--guest"], b"").is_failure(BOOK_USAGE);
    for arguments in [&["--guest"][..], &["book"], &["--bytes", "book"]] {
        desk.retitle(arguments, b"", b"").is_failure(RETITLE_USAGE);
    }
    desk.run_on_table(&PROGRAMS.retitle, &[], b"").is_failure(RETITLE_USAGE);
    desk.book(&["--page"], b"").is_failure(BOOK_USAGE);
    desk.show(&["--page"]).is_failure(SHOW_USAGE);
    desk.show(&[TODAY, "text", "book", "--page"]).is_failure(SHOW_USAGE);
}
