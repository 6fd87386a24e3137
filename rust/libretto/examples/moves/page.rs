//! The page: a heading in words, the legend, the tables that the rules go by, and the run.

use crate::rows::{arrow, draw_cells, draw_next, mark, Rows, BASELINE, CELL};
use crate::run::{Outcome, Run};
use crate::svg::{sign, Svg};
use libretto::Rule;

/// The space around all, and the least width, which the legend needs.
const MARGIN: f64 = 16.0;
const LEAST_WIDTH: f64 = 1000.0;

/// The height of a line of words, and of a line of the legend.
const LINE: f64 = 18.0;
const SAMPLE: f64 = 25.0;

/// The longest phrase, as it is written there, that the heading has room for; every phrase stands in the tables.
const PHRASE_IN_HEADING: usize = 30;

/// The whole page of a run.
pub fn page(run: &Run) -> String {
    let rows = Rows::new(run);
    let width = (rows.width() + MARGIN).ceil().max(LEAST_WIDTH);
    let mut svg = Svg::default();
    let mut y = heading(&mut svg, run);
    y = legend(&mut svg, run, rows.count(), y);
    y = tables(&mut svg, run, width, y);
    svg.words("panel", (MARGIN, y + LINE), "The run");
    if run.windows.is_empty() {
        y += LINE;
        svg.words("words", (MARGIN, y + LINE), "The text has fewer letters than the phrase, so there is no window in it.");
    }
    y += LINE;
    svg.open("run", y);
    rows.draw(&mut svg);
    svg.close();
    svg.finish(width, y + rows.height() + MARGIN, &title(run))
}

fn title(run: &Run) -> String {
    let written = in_words(run.phrase);
    let short = written.chars().count() <= PHRASE_IN_HEADING;
    let phrase = if short { format!("\u{201c}{written}\u{201d}") } else { format!("a phrase of {}", count(run.m(), "letter")) };
    format!("FJS looks for {phrase} in a text of {}", count(run.n(), "letter"))
}

fn heading(svg: &mut Svg, run: &Run) -> f64 {
    let [sunday, kmp] = [Rule::Sunday, Rule::Kmp].map(|rule| grouped(run.moves_by(rule)));
    svg.words("heading", (MARGIN, MARGIN + 15.0), &title(run));
    let places = count(run.places.len(), "occurrence");
    let (comparisons, moves) = (count(run.comparisons as usize, "comparison"), count(run.moves.len(), "move"));
    let counts = format!("{places}, {comparisons} of letters, {moves}: {sunday} by Sunday\u{2019}s rule and {kmp} by KMP\u{2019}s.");
    svg.words("words", (MARGIN, MARGIN + 15.0 + LINE + 2.0), &counts);
    MARGIN + 15.0 + LINE + 16.0
}

/// The legend: a sample of each sign with its words, and how to read the whole.
fn legend(svg: &mut Svg, run: &Run, rows: usize, top: f64) -> f64 {
    svg.words("panel", (MARGIN, top + LINE), "How to read it");
    let explained = [
        "Each window stands where the engine tried the phrase, the later ones below. Its last letter is compared first, and where that is equal,",
        "the others from the first one on; a window that carries letters goes on after them. Places count from 0, letters of the phrase from 1.",
    ];
    let mut y = top + LINE + 4.0;
    for line in explained.into_iter().map(String::from).chain(further_words(run, rows)) {
        y += LINE;
        svg.words("words", (MARGIN, y), &line);
    }
    y += 12.0;
    svg.open("legend", y);
    cell_samples(svg);
    move_samples(svg);
    svg.close();
    y + SAMPLE * 5.0
}

/// What only some pages need: how moves go from row to row, and the signs of letters that could not be seen.
fn further_words(run: &Run, rows: usize) -> Vec<String> {
    let has = |wanted: fn(u8) -> bool| run.phrase.iter().chain(run.text).any(|&letter| wanted(letter));
    let later_row = "A move to a later row leaves at the right and enters at the left; the paler letters after a row are those of the next one.";
    let signs = [
        (has(|letter| letter == b' '), "An empty cell is a blank."),
        (has(|letter| letter == b'\n'), "The sign \u{21b5} is the end of a line."),
        (has(|letter| sign(letter).is_none()), "Two small digits are a byte without a sign, by its number in base 16."),
    ];
    let signs: Vec<&str> = signs.into_iter().filter(|(here, _)| *here).map(|(_, words)| words).collect();
    [if rows > 1 { later_row.to_string() } else { String::new() }, signs.join(" ")].into_iter().filter(|line| !line.is_empty()).collect()
}

/// Where the samples and their words stand, for both columns of the legend.
const SAMPLES: [f64; 2] = [MARGIN + 8.0, 466.0];
const WORDS: [f64; 2] = [MARGIN + 44.0, 526.0];

fn cell_samples(svg: &mut Svg) {
    let samples = [
        (Outcome::Equal, "compared, and equal"),
        (Outcome::Differs, "compared, and not equal"),
        (Outcome::Carried, "carried: known to be equal from the window before, not compared"),
        (Outcome::Unseen, "not compared"),
    ];
    for (line, (outcome, words)) in samples.into_iter().enumerate() {
        let y = SAMPLE * line as f64;
        draw_cells(svg, (SAMPLES[0], y), b"a", &[outcome], false);
        svg.words("words", (WORDS[0], y + BASELINE), words);
    }
    let y = SAMPLE * samples.len() as f64;
    draw_next(svg, (SAMPLES[0] - 1.0, y), b'a');
    svg.words("words", (WORDS[0], y + BASELINE), "the text letter after the window, by which Sunday\u{2019}s rule goes");
}

fn move_samples(svg: &mut Svg) {
    let [left, words] = [SAMPLES[1], WORDS[1]];
    draw_cells(svg, (left, 0.0), b"aba", &[Outcome::Equal; 3], true);
    svg.words("words", (words, BASELINE), "a window that is an occurrence");
    mark(svg, "occurrence", (left, left + 3.0 * CELL.0), SAMPLE + 6.0, true);
    svg.words("words", (words, SAMPLE + BASELINE), "the same occurrence, marked under the text");
    let rules = [
        (Rule::Sunday, "a move by Sunday\u{2019}s rule: nothing is carried and the last letter differs"),
        (Rule::Kmp, "a move by KMP\u{2019}s rule: the last letter is equal, or letters are carried"),
    ];
    for (line, (rule, told)) in (2..).zip(rules) {
        let y = SAMPLE * line as f64;
        arrow(svg, rule, &[&[(left + 6.0, y), (left + 6.0, y + 12.0), (left + 3.0 * CELL.0, y + 12.0)]]);
        svg.words("words", (words, y + BASELINE), told);
    }
    let y = SAMPLE * (2 + rules.len()) as f64 + BASELINE;
    svg.words("words", (words, y), "\u{201c}2 on\u{201d} is a move by 2 letters, \u{201c}by c\u{201d} by the letter c");
}

/// The tables that the library has made of the phrase, as moves: how far KMP's rule goes where a letter differs, and Sunday's where it follows.
fn tables(svg: &mut Svg, run: &Run, width: f64, top: f64) -> f64 {
    const LABELS: f64 = 150.0;
    svg.words("panel", (MARGIN, top + LINE), "How far the rules move the window");
    let digits = (run.m() + 1).to_string().len() as f64;
    let column = CELL.0.max(7.0 * digits + 5.0);
    let columns = ((width - MARGIN - LABELS) / column) as usize;
    let mut y = top + LINE + 8.0;
    svg.open("tables", 0.0);
    for (index, letters) in run.phrase.chunks(columns).enumerate() {
        let first = index * columns + 1;
        for (line, label) in ["letter", "phrase", "KMP, if it differs", "Sunday, if it follows"].into_iter().enumerate() {
            svg.words("words", (MARGIN, y + LINE * line as f64 + BASELINE), label);
        }
        let x = LABELS + column / 2.0;
        svg.cells("own-grid", (LABELS, y + LINE), (column, LINE), letters.len());
        svg.letters("letters", (x, y + LINE + BASELINE), column, &[("", letters)]);
        for (k, &letter) in letters.iter().enumerate() {
            let x = x + column * k as f64;
            for (line, number) in [(0.0, first + k), (2.0, run.kmp_shift(first + k)), (3.0, run.sunday_shift(letter))] {
                svg.words("number", (x, y + LINE * line + BASELINE), &number.to_string());
            }
        }
        y += 4.0 * LINE + 8.0;
    }
    svg.words("words", (MARGIN, y + BASELINE - 4.0), &other_moves(run));
    svg.close();
    y + LINE + 8.0
}

/// The two moves that stand at no letter of the phrase.
fn other_moves(run: &Run) -> String {
    let found = format!("After an occurrence KMP\u{2019}s rule moves it {} on", run.kmp_shift(run.m() + 1));
    match (0..=u8::MAX).find(|letter| !run.phrase.contains(letter)) {
        Some(missing) => {
            format!("{found}; where the letter that follows is not in the phrase, Sunday\u{2019}s rule moves it {} on.", run.sunday_shift(missing))
        }
        None => format!("{found}."),
    }
}

/// Letters within a line of words.
fn in_words(letters: &[u8]) -> String {
    letters.iter().map(|&letter| sign(letter).map_or_else(|| format!("\\x{letter:02x}"), String::from)).collect()
}

/// So many of a thing.
fn count(number: usize, thing: &str) -> String {
    format!("{} {thing}{}", grouped(number), if number == 1 { "" } else { "s" })
}

/// A number with a comma before each three digits.
fn grouped(number: usize) -> String {
    let digits = number.to_string();
    let comma = |k: usize| if k > 0 && (digits.len() - k).is_multiple_of(3) { "," } else { "" };
    digits.chars().enumerate().map(|(k, digit)| format!("{}{digit}", comma(k))).collect()
}
