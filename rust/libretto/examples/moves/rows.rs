//! The run as rows: the text in rows of letters, and under each of them the windows that start in it, in their order, with their moves.

use crate::run::{Outcome, Run, Window};
use crate::svg::{sign, Svg};
use libretto::{Move, Rule};
use std::ops::Range;

/// Where the first cell of each row begins; the starts of the windows stand left of it.
const LEFT: f64 = 74.0;

/// The width and the height of a cell, and how far below its upper edge its letter stands.
pub const CELL: (f64, f64) = (13.0, 18.0);
pub const BASELINE: f64 = 13.5;

/// How far the frame of an occurrence stands outside of the window's cells.
const FRAME: f64 = 2.5;

/// The letters of a row, and of the longest text that stands in a single one.
const ROW: usize = 60;
const SINGLE_ROW: usize = 80;

/// The height of the places above a row of text, of one level of marks below it, of a window with the space below it, and of the space below the last
/// window, in which the move to a later row leaves.
const RULER: f64 = 20.0;
const LEVEL: f64 = 5.0;
const WINDOW: f64 = 27.0;
const LEAVING: f64 = 14.0;

/// The space below the marks of a row, and the one after a row and its windows.
const BELOW_MARKS: f64 = 12.0;
const BETWEEN: f64 = 22.0;

/// The space before words, and the width to allow for each of their letters: more than the usual fonts need in the mean.
const BEFORE_WORDS: f64 = 11.0;
const LETTER_OF_WORDS: f64 = 7.0;

/// A row of the text.
struct Row {
    /// The places of its own letters.
    own: Range<usize>,
    /// The place after the last letter that it shows: its windows are drawn whole, also where they go on in the next row.
    shown: usize,
    /// The windows that start in it, by their index.
    windows: Range<usize>,
    /// The levels of marks that its occurrences need, since overlapping ones stand below each other.
    levels: usize,
    /// The upper edge of its cells.
    top: f64,
}

impl Row {
    fn x(&self, place: usize) -> f64 {
        LEFT + CELL.0 * (place - self.own.start) as f64
    }

    /// The upper edge of a window.
    fn window_top(&self, index: usize) -> f64 {
        self.top + CELL.1 + LEVEL * self.levels as f64 + BELOW_MARKS + WINDOW * (index - self.windows.start) as f64
    }

    fn bottom(&self) -> f64 {
        self.window_top(self.windows.end) + if self.windows.is_empty() { 0.0 } else { LEAVING - (WINDOW - CELL.1) }
    }
}

/// All rows of a run.
pub struct Rows<'a> {
    run: &'a Run<'a>,
    rows: Vec<Row>,
    /// The level of each occurrence's mark.
    levels: Vec<usize>,
}

impl Rows<'_> {
    pub fn new<'a>(run: &'a Run<'a>) -> Rows<'a> {
        let mut rows = Rows { run, rows: Vec::new(), levels: levels(&run.places, run.m()) };
        let length = if run.n() <= SINGLE_ROW { SINGLE_ROW } else { ROW };
        let mut top = RULER;
        for first in (0..run.n()).step_by(length) {
            let row = rows.row(first..run.n().min(first + length), top);
            top = row.bottom() + BETWEEN + RULER;
            rows.rows.push(row);
        }
        rows
    }

    fn row(&self, own: Range<usize>, top: f64) -> Row {
        let [first, end] = [own.start, own.end].map(|place| self.run.windows.partition_point(|window| window.start < place));
        let shown = self.run.windows[first..end].iter().map(|window| self.end(window)).fold(own.end, usize::max);
        let here = |place: usize| place < own.end && place + self.run.m() > own.start;
        let marked = self.run.places.iter().zip(&self.levels).filter(|(&place, _)| here(place));
        let levels = marked.map(|(_, level)| level + 1).max().unwrap_or(0);
        Row { own, shown, windows: first..end, levels, top }
    }

    /// The place after the letters that are drawn for a window: Sunday's rule goes by one letter more than the window has.
    fn end(&self, window: &Window) -> usize {
        window.start + self.run.m() + usize::from(by_sunday(window))
    }

    /// Where the words of a window begin.
    fn words_x(&self, row: &Row, window: &Window) -> f64 {
        row.x(self.end(window)) + BEFORE_WORDS
    }

    /// The width that all cells and words need.
    pub fn width(&self) -> f64 {
        let cells = self.rows.iter().map(|row| row.x(row.shown));
        let words = self.rows.iter().flat_map(|row| {
            let windows = self.run.windows[row.windows.clone()].iter();
            windows.map(move |window| self.words_x(row, window) + LETTER_OF_WORDS * self.words(row, window).chars().count() as f64)
        });
        cells.chain(words).fold(0.0, f64::max)
    }

    pub fn count(&self) -> usize {
        self.rows.len()
    }

    pub fn height(&self) -> f64 {
        self.rows.last().map_or(0.0, Row::bottom)
    }

    pub fn draw(&self, svg: &mut Svg) {
        for (index, row) in self.rows.iter().enumerate() {
            svg.open("row", 0.0);
            self.draw_text(svg, row);
            for index in row.windows.clone() {
                self.draw_window(svg, row, index);
            }
            svg.close();
            for window in row.windows.clone() {
                self.draw_move(svg, index, window);
            }
        }
    }

    fn draw_text(&self, svg: &mut Svg, row: &Row) {
        for place in row.own.clone().filter(|place| place % 10 == 0) {
            svg.words("place", (row.x(place) + CELL.0 / 2.0, row.top - 5.0), &place.to_string());
        }
        self.draw_occurrences(svg, row);
        let ahead = row.own.end..row.shown;
        for (letters, frames, range) in [("letters ahead", "ahead-grid", ahead), ("letters own", "own-grid", row.own.clone())] {
            if !range.is_empty() {
                let x = row.x(range.start);
                svg.cells(frames, (x, row.top), CELL, range.len());
                svg.letters(letters, (x + CELL.0 / 2.0, row.top + BASELINE), CELL.0, &[("", &self.run.text[range])]);
            }
        }
    }

    /// A mark under each occurrence, whole in the row in which it starts, and in the rows after it again under what stands there.
    fn draw_occurrences(&self, svg: &mut Svg, row: &Row) {
        let m = self.run.m();
        let first = self.run.places.partition_point(|&place| place + m <= row.own.start);
        let marks = self.run.places.iter().zip(&self.levels).skip(first).take_while(|(&place, _)| place < row.own.end);
        for (&place, &level) in marks {
            let starts_here = row.own.contains(&place);
            let from = place.max(row.own.start);
            let to = if starts_here { place + m } else { row.own.end.min(place + m) };
            let (left, right) = (row.x(from), row.x(to));
            svg.rectangle("band", (left, row.top), (right - left, CELL.1));
            mark(svg, if starts_here { "occurrence" } else { "rest" }, (left, right), row.top + CELL.1 + LEVEL * level as f64, to == place + m);
        }
    }

    fn draw_window(&self, svg: &mut Svg, row: &Row, index: usize) {
        let window = &self.run.windows[index];
        let (x, top) = (row.x(window.start), row.window_top(index));
        svg.open("window", 0.0);
        svg.words("start", (LEFT - 18.0, top + BASELINE), &format!("at {}", window.start));
        draw_cells(svg, (x, top), self.run.phrase, &window.outcomes, window.differs.is_none());
        if by_sunday(window) {
            let after = window.start + self.run.m();
            draw_next(svg, (row.x(after), top), self.run.text[after]);
        }
        svg.words("words", (self.words_x(row, window), top + BASELINE - 0.5), &self.words(row, window));
        svg.close();
    }

    /// The arrow of a window's move: to the next window where that starts in the same row, otherwise to the row's right end, and in the later row
    /// from its left end on.
    fn draw_move(&self, svg: &mut Svg, row: usize, index: usize) {
        let Some(step) = self.run.windows[index].step else { return };
        let frame = |index: usize| if self.run.windows.get(index).is_some_and(|window| window.differs.is_none()) { FRAME } else { 0.0 };
        let here = &self.rows[row];
        let x = here.x(step.old as usize) + CELL.0 / 2.0;
        let from = (x, here.window_top(index) + CELL.1 + frame(index));
        let below = here.window_top(index + 1);
        let out = [from, (x, below), (here.x(here.shown), below)];
        let Some(next) = self.rows[row..].iter().find(|row| row.windows.contains(&(index + 1))) else {
            return arrow(svg, step.rule, &[&out]);
        };
        let tip = (next.x(step.new as usize) - 1.0 - frame(index + 1), next.window_top(index + 1) + CELL.1 / 2.0);
        if next.own == here.own {
            arrow(svg, step.rule, &[&[from, (x, tip.1), tip]]);
        } else {
            arrow(svg, step.rule, &[&out, &[(LEFT - 13.0, tip.1), tip]]);
        }
    }

    /// What moved a window, how far, and why.
    fn words(&self, row: &Row, window: &Window) -> String {
        let Some(Move { old, new, rule }) = window.step else {
            return "stop, no letter follows".to_string();
        };
        let why = match (rule, window.differs) {
            (Rule::Sunday, _) => format!("by {}", letter_in_words(self.run.text[window.start + self.run.m()])),
            (Rule::Kmp, Some(letter)) => format!("letter {letter} differs"),
            (Rule::Kmp, None) => "found".to_string(),
        };
        let to = match new as usize {
            new if new + self.run.m() > self.run.n() => ", past the end".to_string(),
            new if new >= row.own.end => format!(", to {new}"),
            _ => String::new(),
        };
        format!("{rule}, {} on, {why}{to}", new - old)
    }
}

fn by_sunday(window: &Window) -> bool {
    window.step.is_some_and(|step| step.rule == Rule::Sunday)
}

/// A level for the mark of each occurrence, such that no two that overlap have the same.
fn levels(places: &[usize], m: usize) -> Vec<usize> {
    let mut ends: Vec<usize> = Vec::new();
    let level = |&place: &usize| {
        let level = ends.iter().position(|&end| end <= place).unwrap_or(ends.len());
        if level == ends.len() {
            ends.push(0);
        }
        ends[level] = place + m;
        level
    };
    places.iter().map(level).collect()
}

fn letter_in_words(letter: u8) -> String {
    match sign(letter) {
        Some(' ') => "a blank".to_string(),
        Some(sign) => sign.to_string(),
        None => format!("byte {letter:02x}"),
    }
}

/// The mark under an occurrence, or under what the row before left of it: open where it comes from there, and where it goes on.
pub fn mark(svg: &mut Svg, class: &str, (left, right): (f64, f64), top: f64, ends_here: bool) {
    let (up, down) = (top + 1.5, top + 4.5);
    let (left_end, right_end) = (left + 2.0, right - 2.0);
    let mut points = match class {
        "rest" => vec![(left, down)],
        _ => vec![(left_end, up), (left_end, down)],
    };
    match ends_here {
        true => points.extend([(right_end, down), (right_end, up)]),
        false => points.push((right, down)),
    }
    svg.lines(class, &[&points]);
}

/// The cells of a window, the neighbours with one outcome together. Where two runs of cells share an edge, the one drawn later has it.
pub fn draw_cells(svg: &mut Svg, (x, top): (f64, f64), phrase: &[u8], outcomes: &[Outcome], found: bool) {
    let mut parts = Vec::new();
    let mut from = 0;
    for same in outcomes.chunk_by(|a, b| a == b) {
        parts.push((same[0], from..from + same.len()));
        from += same.len();
    }
    for drawn in [Outcome::Unseen, Outcome::Carried, Outcome::Equal, Outcome::Differs] {
        for (_, range) in parts.iter().filter(|(outcome, _)| *outcome == drawn) {
            let (left, right) = (x + CELL.0 * range.start as f64, x + CELL.0 * range.end as f64);
            svg.cells(class(drawn), (left, top), CELL, range.len());
            match drawn {
                Outcome::Carried => svg.lines("under", &[&[(left, top + CELL.1 - 1.5), (right, top + CELL.1 - 1.5)]]),
                Outcome::Differs => svg.lines("stroke", &[&[(left, top + CELL.1), (right, top)]]),
                Outcome::Equal | Outcome::Unseen => {}
            }
        }
    }
    if found {
        svg.rectangle("found", (x - FRAME, top - FRAME), (CELL.0 * phrase.len() as f64 + 2.0 * FRAME, CELL.1 + 2.0 * FRAME));
    }
    let letters: Vec<(&str, &[u8])> = parts.into_iter().map(|(outcome, range)| (class(outcome), &phrase[range])).collect();
    svg.letters("letters", (x + CELL.0 / 2.0, top + BASELINE), CELL.0, &letters);
}

/// The text letter after a window, by which Sunday's rule goes.
pub fn draw_next(svg: &mut Svg, (x, top): (f64, f64), letter: u8) {
    svg.rectangle("next", (x + 2.0, top + 0.5), (CELL.0 - 1.0, CELL.1 - 1.0));
    svg.letters("letters after", (x + CELL.0 / 2.0 + 1.5, top + BASELINE), CELL.0, &[("", &[letter])]);
}

fn class(outcome: Outcome) -> &'static str {
    match outcome {
        Outcome::Carried => "carried",
        Outcome::Equal => "equal",
        Outcome::Differs => "differs",
        Outcome::Unseen => "unseen",
    }
}

/// Lines that each end in an arrow's head to the right: all the lines of one move.
pub fn arrow(svg: &mut Svg, rule: Rule, lines: &[&[(f64, f64)]]) {
    const HEAD: (f64, f64) = (5.0, 3.5);
    svg.open(if rule == Rule::Sunday { "move sunday" } else { "move kmp" }, 0.0);
    svg.lines("line", lines);
    let tips = lines.iter().filter_map(|line| line.last());
    let heads: Vec<[(f64, f64); 4]> = tips.map(|&(x, y)| [(x, y), (x - HEAD.0, y - HEAD.1), (x - HEAD.0, y + HEAD.1), (x, y)]).collect();
    svg.lines("head", &heads.iter().map(|head| &head[..]).collect::<Vec<_>>());
    svg.close();
}
