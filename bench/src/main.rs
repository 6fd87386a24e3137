//! Times the library beside C twins of its engines, the safe-Rust reference and `memmem`, prints the page of results, and writes it with its charts
//! to docs/. With `--print` it writes nothing.

#![deny(unsafe_code)]
#![deny(missing_docs)]

mod books;
mod charts;
mod check;
mod clock;
mod cuts;
mod date;
mod document;
mod finds;
mod folding;
mod goals;
mod growth;
mod growth_chart;
mod lent;
mod measure;
mod phrases;
mod random;
mod ratio_chart;
mod sides;
mod statistics;
mod svg;
mod table;
mod tables;
mod texts;
#[allow(unsafe_code)]
mod twins;
mod verse;

use growth_chart::Axes;
use measure::{Grown, Results};
use std::io;
use std::path::Path;
use std::process::ExitCode;
use std::time::Instant;

fn main() -> ExitCode {
    let write = match std::env::args().nth(1).as_deref() {
        Some("--write") => true,
        Some("--print") => false,
        _ => {
            eprintln!("usage: libretto-bench --write | --print");
            return ExitCode::FAILURE;
        }
    };
    let started = Instant::now();
    let results = measure::everything();
    let page = document::page(&results, &date::today(), &processor(), started.elapsed().as_secs());
    print!("{page}");
    if write {
        if let Err(error) = write_all(&results, &page) {
            eprintln!("docs/: {error}");
            return ExitCode::FAILURE;
        }
    }
    ExitCode::SUCCESS
}

/// The processor's model name; nothing else of the machine is told.
fn processor() -> String {
    let information = std::fs::read_to_string("/proc/cpuinfo").unwrap_or_default();
    let model = information.lines().find(|line| line.starts_with("model name")).and_then(|line| line.split(": ").nth(1));
    model.unwrap_or("unknown processor").to_string()
}

/// Writes the page and its charts. The working folder is the repository's, as `bench/run` sees to.
fn write_all(results: &Results, page: &str) -> io::Result<()> {
    let docs = Path::new("docs");
    std::fs::write(docs.join("BENCHMARKS.md"), page)?;
    std::fs::write(docs.join(document::RATIO_CHART), ratio_chart::draw(results))?;
    std::fs::write(docs.join(document::CHART_BY_N), chart_by_n(results))?;
    std::fs::write(docs.join(document::CHART_BY_M), chart_by_m(results))
}

fn chart_by_n(results: &Results) -> String {
    let axes = Axes {
        heading: "Nanoseconds for a letter of the text, as the text's length n grows",
        below: "Across n, up nanoseconds, both by logarithms. A level line is linear growth.",
        lengths: &growth::TEXT_LENGTHS,
        step: 2,
        ends: (0.2, 50.0),
        ticks: &[0.2, 0.5, 1.0, 2.0, 5.0, 10.0, 20.0, 50.0],
    };
    growth_chart::draw(&axes, &per_letter(&results.by_n, |case| growth::TEXT_LENGTHS[case]))
}

fn chart_by_m(results: &Results) -> String {
    let axes = Axes {
        heading: "Nanoseconds for a letter of the text, as the phrase's length m grows",
        below: "A phrase from the middle of 32,768 letters. Across m, up nanoseconds, both by logarithms. A level line is time that does not depend on m.",
        lengths: &growth::PHRASE_LENGTHS,
        step: 2,
        ends: (0.05, 500.0),
        ticks: &[0.1, 1.0, 10.0, 100.0],
    };
    growth_chart::draw(&axes, &per_letter(&results.by_m, |_| libretto::TEXT_MAX))
}

/// The times of finds divided by the letters of their texts.
fn per_letter(families: &[Grown], letters: impl Fn(usize) -> usize) -> Vec<Grown> {
    let divided = |times: &Vec<f64>| times.iter().enumerate().map(|(case, time)| time / letters(case) as f64).collect();
    families.iter().map(|grown| Grown { family: grown.family, times: grown.times.iter().map(divided).collect() }).collect()
}
