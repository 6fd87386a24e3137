//! Draws how FJS moves its window, for whoever wants to see which rule moved it and why so far: moves PHRASE TEXT
//!
//! PHRASE is the phrase itself, in UTF-8 and of letters that ISO 8859-1 has. TEXT is a file in ISO 8859-1, or `-` for standard input. One SVG page
//! goes to standard output: the text, and under it each window where it stood, with what was compared in it and its move to the next. Its legend
//! says how to read it. All that is drawn comes from the library: `run.rs` says how.

mod page;
mod rows;
mod run;
mod style;
mod svg;

use libretto::Refusal;
use run::Run;
use std::env;
use std::ffi::{OsStr, OsString};
use std::fmt::Display;
use std::fs;
use std::io::{self, Read, Write};
use std::path::Path;
use std::process::ExitCode;

/// Exit statuses.
const REFUSED: u8 = 1;
const FAILED: u8 = 2;

/// Why there is no page.
struct Failure {
    status: u8,
    told: String,
}

impl Failure {
    fn refused(name: impl Display, why: impl Display) -> Failure {
        Failure { status: REFUSED, told: format!("{name}: {why}") }
    }

    /// A failed file, in the words of C's `perror`, which have no error number behind them.
    fn failed(name: impl Display, error: &io::Error) -> Failure {
        let words = error.to_string();
        let number = error.raw_os_error().map(|number| format!(" (os error {number})"));
        let words = number.and_then(|number| words.strip_suffix(&number)).unwrap_or(&words);
        Failure { status: FAILED, told: format!("{name}: {words}") }
    }
}

/// The phrase in ISO 8859-1.
fn phrase(argument: &OsStr) -> Result<Vec<u8>, Failure> {
    let phrase = argument.to_str().ok_or_else(|| Failure::refused("phrase", "it is not in UTF-8"))?;
    let foreign = |letter| Failure::refused("phrase", format!("the letter {letter} (U+{:04X}) is not in ISO 8859-1", u32::from(letter)));
    phrase.chars().map(|letter| u8::try_from(letter).map_err(|_| foreign(letter))).collect()
}

/// The text, and the name by which a failure tells of it.
fn text(argument: &OsStr) -> Result<(Vec<u8>, String), Failure> {
    let mut text = Vec::new();
    let (name, read) = if argument == "-" {
        ("standard input".to_string(), io::stdin().lock().read_to_end(&mut text).map(|_| text))
    } else {
        (Path::new(argument).display().to_string(), fs::read(argument))
    };
    match read {
        Ok(text) => Ok((text, name)),
        Err(error) => Err(Failure::failed(name, &error)),
    }
}

fn draw(phrase_argument: &OsStr, text_argument: &OsStr) -> Result<(), Failure> {
    let phrase = phrase(phrase_argument)?;
    let (text, name) = text(text_argument)?;
    let run = Run::new(&phrase, &text).map_err(|refusal| {
        let name = if refusal == Refusal::LongText { &name } else { "phrase" };
        Failure::refused(name, format!("refusal {}: {refusal}", refusal.number()))
    })?;
    let page = page::page(&run);
    let mut out = io::stdout().lock();
    out.write_all(page.as_bytes()).and_then(|()| out.flush()).map_err(|error| Failure::failed("standard output", &error))
}

fn main() -> ExitCode {
    let arguments: Vec<OsString> = env::args_os().skip(1).collect();
    let [phrase, text] = &arguments[..] else {
        eprintln!("usage: moves PHRASE TEXT");
        return ExitCode::from(FAILED);
    };
    let Err(failure) = draw(phrase, text) else {
        return ExitCode::SUCCESS;
    };
    // Where standard error fails too, the exit status alone is left to tell it.
    let _ = writeln!(io::stderr(), "{}", failure.told);
    ExitCode::from(failure.status)
}
