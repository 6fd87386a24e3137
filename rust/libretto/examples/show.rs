//! Prints the show file of a libretto and a cue book for a day: show [--page 1|15] [--bytes] [--guest] DAY TEXT BOOK
//!
//! It is `examples/show.c` over the safe interface and prints the same to the byte; what the show file holds is told there.

use libretto::{day, find_all, fold_text, read_book, read_cue, resolve_all, BookError, CuePlace, Date, Method, Page, Refusal, Role};
use std::env;
use std::ffi::{OsStr, OsString};
use std::fmt::Display;
use std::fs;
use std::io::{self, Write};
use std::path::Path;
use std::process::ExitCode;

/// Exit statuses.
const REFUSED: u8 = 1;
const FAILED: u8 = 2;

const PLACES_A_ROW: usize = 10;

const USAGE: &str = "usage: show [--page 1|15] [--bytes] [--guest] DAY TEXT BOOK";

/// The page of text and book, whether letters are printed as the bytes that they are on it, instead of in UTF-8, and for whom the show file is.
#[derive(Clone, Copy)]
struct Options {
    page: Page,
    as_bytes: bool,
    role: Role,
}

/// A cue that plays: its index in the book, what it is there and its bytes, and its phrase folded.
struct Cue<'a> {
    index: usize,
    read: libretto::Cue<'a>,
    bytes: &'a [u8],
    folded: Vec<u8>,
}

/// A text and a book, and where they were read.
struct Files<'a> {
    text_path: &'a Path,
    text: &'a [u8],
    book_path: &'a Path,
    book: &'a [u8],
}

/// Why there is no show file, or not all of it.
struct Failure {
    status: u8,
    told: Vec<u8>,
}

impl Failure {
    fn refused(path: &Path, why: impl Display) -> Failure {
        Failure { status: REFUSED, told: format!("{}: {why}", path.display()).into_bytes() }
    }

    /// A failed file, in the words of C's `perror`, which have no error number behind them.
    fn failed(name: impl Display, error: &io::Error) -> Failure {
        let words = error.to_string();
        let number = error.raw_os_error().map(|number| format!(" (os error {number})"));
        let words = number.and_then(|number| words.strip_suffix(&number)).unwrap_or(&words);
        Failure { status: FAILED, told: format!("{name}: {words}").into_bytes() }
    }
}

fn fold_all(page: Page, letters: &[u8]) -> Vec<u8> {
    let mut folded = vec![0; letters.len()];
    fold_text(page, letters, &mut folded);
    folded
}

/// The cues that play on a day, of a book that the library has accepted as a whole.
fn playing(day: u32, page: Page, book: &[u8]) -> Vec<Cue<'_>> {
    let mut playing = Vec::new();
    let (mut index, mut place) = (0, 0);
    while place < book.len() {
        let read = read_cue(Role::Operator, book, place).expect("the book was read before");
        if read.plays(day) {
            playing.push(Cue { index, read, bytes: &book[place..read.end], folded: fold_all(page, read.phrase) });
        }
        (index, place) = (index + 1, read.end);
    }
    playing
}

/// All places of a cue's folded phrase in the folded text.
fn refrain(cue: &Cue, folded_text: &[u8]) -> Vec<u32> {
    find_all(Method::Fjs, &cue.folded, folded_text).expect("the resolver has searched for this phrase in this text before")
}

/// The sign of Unicode that a letter of the page is: that of the same number, except for eight letters of ISO 8859-15.
fn sign_of(page: Page, letter: u8) -> char {
    match (page, letter) {
        (Page::Latin9, 0xa4) => '\u{20ac}',
        (Page::Latin9, 0xa6) => '\u{160}',
        (Page::Latin9, 0xa8) => '\u{161}',
        (Page::Latin9, 0xb4) => '\u{17d}',
        (Page::Latin9, 0xb8) => '\u{17e}',
        (Page::Latin9, 0xbc) => '\u{152}',
        (Page::Latin9, 0xbd) => '\u{153}',
        (Page::Latin9, 0xbe) => '\u{178}',
        _ => char::from(letter),
    }
}

/// Prints letters of the page.
fn print_letters(out: &mut impl Write, letters: &[u8], options: Options) -> io::Result<()> {
    for &letter in letters {
        match letter {
            b'\n' => out.write_all(b"\\n")?,
            b'\\' => out.write_all(b"\\\\")?,
            0..=0x1f | 0x7f..=0x9f => write!(out, "\\x{letter:02x}")?,
            0x80.. if !options.as_bytes => write!(out, "{}", sign_of(options.page, letter))?,
            _ => out.write_all(&[letter])?,
        }
    }
    Ok(())
}

fn print_phrase(out: &mut impl Write, cue: &Cue, options: Options) -> io::Result<()> {
    out.write_all(b"\"")?;
    print_letters(out, cue.read.phrase, options)?;
    out.write_all(b"\"")
}

fn print_cues(out: &mut impl Write, cues: &[Cue], places: &[CuePlace], options: Options) -> io::Result<()> {
    writeln!(out, "cue  place   line  column  title")?;
    for (cue, CuePlace { place, line, column }) in cues.iter().zip(places) {
        let (index, title) = (cue.index, cue.read.title);
        write!(out, "{index:3}  {place:5}  {line:5}  {column:6}{}", if title.is_empty() { "" } else { "  " })?;
        print_letters(out, title, options)?;
        writeln!(out)?;
    }
    Ok(())
}

fn print_refrains(out: &mut impl Write, cues: &[Cue], folded_text: &[u8], options: Options) -> io::Result<()> {
    writeln!(out, "total  phrase, and below it its places")?;
    for (k, cue) in cues.iter().enumerate() {
        if cues[..k].iter().any(|earlier| earlier.folded == cue.folded) {
            continue;
        }
        let places = refrain(cue, folded_text);
        write!(out, "{:5}  ", places.len())?;
        print_phrase(out, cue, options)?;
        for (i, place) in places.iter().enumerate() {
            write!(out, "{}{place:5}", if i % PLACES_A_ROW == 0 { "\n       " } else { "  " })?;
        }
        writeln!(out)?;
    }
    Ok(())
}

/// Tells which occurrence a cue asks for.
fn tell_occurrence(told: &mut Vec<u8>, cue: &Cue, options: Options) -> io::Result<()> {
    write!(told, ": ordinal {} of ", cue.read.ordinal)?;
    print_phrase(told, cue, options)
}

/// Tells of a missing occurrence which one it is and how many there are.
fn tell_missing(told: &mut Vec<u8>, cue: &Cue, folded_text: &[u8], options: Options) -> io::Result<()> {
    tell_occurrence(told, cue, options)?;
    write!(told, ", total {}", refrain(cue, folded_text).len())
}

/// Tells where a cue stands that does not stand behind the playing one before it, and where that one does. Each by itself is resolved, since both have
/// an occurrence.
fn tell_not_forward(told: &mut Vec<u8>, day: u32, [before, cue]: [&Cue; 2], text: &[u8], options: Options) -> io::Result<()> {
    let [at_before, at] = [before, cue].map(|cue| {
        let places = resolve_all(Role::Operator, day, options.page, cue.bytes, text).expect("the cue was found before");
        places[0]
    });
    tell_occurrence(told, cue, options)?;
    write!(told, " is at line {}, column {}, cue {} at line {}, column {}", at.line, at.column, before.index, at_before.line, at_before.column)
}

/// What the resolver refused of a cue that plays, with all that can be told of it.
fn refused_cue(files: &Files, day: u32, error: BookError, cues: &[Cue], options: Options) -> Failure {
    let text = files.text;
    let mut failure = Failure::refused(files.book_path, error);
    let k = cues.iter().position(|cue| Some(cue.index) == error.cue).expect("the refused cue plays");
    let written = match error.refusal {
        Refusal::NoOccurrence => tell_missing(&mut failure.told, &cues[k], &fold_all(options.page, text), options),
        _ => tell_not_forward(&mut failure.told, day, [&cues[k - 1], &cues[k]], text, options),
    };
    written.expect("a vector takes all that is written");
    failure
}

/// The show file for the operator.
fn show_cues(files: &Files, day: u32, options: Options) -> Result<Vec<u8>, Failure> {
    read_book(Role::Operator, files.book).map_err(|refused| Failure::refused(files.book_path, refused))?;
    let cues = playing(day, options.page, files.book);
    let places = resolve_all(Role::Operator, day, options.page, files.book, files.text).map_err(|error| match error.cue {
        Some(_) => refused_cue(files, day, error, &cues, options),
        None => Failure::refused(files.text_path, error),
    })?;
    let mut shown = Vec::new();
    print_cues(&mut shown, &cues, &places, options)
        .and_then(|()| writeln!(shown))
        .and_then(|()| print_refrains(&mut shown, &cues, &fold_all(options.page, files.text), options))
        .expect("a vector takes all that is written");
    Ok(shown)
}

/// What the resolver refused for a guest. The number of a cue that was looked for counts the open cues.
fn refused_guest(files: &Files, error: BookError) -> Failure {
    match (error.cue, error.refusal) {
        (None, _) => Failure::refused(files.text_path, error),
        (Some(_), Refusal::NoOccurrence | Refusal::NotForward) => Failure::refused(files.book_path, format!("open {error}")),
        (Some(_), _) => Failure::refused(files.book_path, error),
    }
}

/// The show file for a guest, who may have the entries alone.
fn show_places(files: &Files, day: u32, options: Options) -> Result<Vec<u8>, Failure> {
    let places = resolve_all(Role::Guest, day, options.page, files.book, files.text).map_err(|error| refused_guest(files, error))?;
    let row = |at: &CuePlace| {
        format!(
            "{:5}  {:5}  {:6}
",
            at.place, at.line, at.column
        )
    };
    Ok(format!(
        "place   line  column
{}",
        places.iter().map(row).collect::<String>()
    )
    .into_bytes())
}

fn show(day: u32, text_path: &Path, book_path: &Path, options: Options) -> Result<(), Failure> {
    let read = |path: &Path| fs::read(path).map_err(|error| Failure::failed(path.display(), &error));
    let (text, book) = (read(text_path)?, read(book_path)?);
    let files = Files { text_path, text: &text, book_path, book: &book };
    let shown = if options.role == Role::Guest { show_places(&files, day, options) } else { show_cues(&files, day, options) }?;
    io::stdout().write_all(&shown).and_then(|()| io::stdout().flush()).map_err(|error| Failure::failed("standard output", &error))
}

fn named_page(argument: &OsStr) -> Option<Page> {
    match argument.to_str()? {
        "1" => Some(Page::Latin1),
        "15" => Some(Page::Latin9),
        _ => None,
    }
}

/// Reads the options at the front of the arguments, each at most once, and gives them with the arguments after them; nothing if an option is wrong.
fn read_options(mut arguments: &[OsString]) -> Option<(Options, &[OsString])> {
    let (mut page, mut as_bytes, mut role) = (None, false, Role::Operator);
    while let [option, rest @ ..] = arguments {
        match (option.to_str(), rest) {
            (Some("--bytes"), _) if !as_bytes => {
                as_bytes = true;
                arguments = rest;
            }
            (Some("--guest"), _) if role == Role::Operator => {
                role = Role::Guest;
                arguments = rest;
            }
            (Some("--page"), [number, rest @ ..]) if page.is_none() => {
                page = Some(named_page(number)?);
                arguments = rest;
            }
            _ if option.as_encoded_bytes().starts_with(b"--") => return None,
            _ => break,
        }
    }
    Some((Options { page: page.unwrap_or(Page::Latin1), as_bytes, role }, arguments))
}

/// Reads a date written as year-month-day; whether there is such a date is not tested. A number that has no room is above all years as well.
fn read_date(argument: &OsStr) -> Option<Date> {
    let number = |written: &str| {
        let digits = !written.is_empty() && written.bytes().all(|byte| byte.is_ascii_digit());
        digits.then(|| written.parse().unwrap_or(u32::MAX))
    };
    let numbers: Vec<u32> = argument.to_str()?.split('-').map(number).collect::<Option<_>>()?;
    match numbers[..] {
        [year, month, day] => Some(Date { year, month, day }),
        _ => None,
    }
}

/// The options, the date, and it, the text and the book as they were given; nothing if the call is wrong.
fn read_call(arguments: &[OsString]) -> Option<(Options, Date, [&Path; 3])> {
    let (options, [date, text, book]) = read_options(arguments)? else {
        return None;
    };
    Some((options, read_date(date)?, [date, text, book].map(Path::new)))
}

fn main() -> ExitCode {
    let arguments: Vec<OsString> = env::args_os().skip(1).collect();
    let Some((options, date, [given, text, book])) = read_call(&arguments) else {
        eprintln!("{USAGE}");
        return ExitCode::from(FAILED);
    };
    let day = day(date).map_err(|_| Failure::refused(given, "the date is not in the calendar's 2000 to 2099"));
    let Err(failure) = day.and_then(|day| show(day, text, book, options)) else {
        return ExitCode::SUCCESS;
    };
    // Where standard error fails too, the exit status alone is left to tell it.
    let _ = io::stderr().write_all(&[&failure.told[..], b"\n"].concat());
    ExitCode::from(failure.status)
}
