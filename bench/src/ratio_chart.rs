//! The chart of ratios: a panel for each engine, a row for each family of texts, and a dot for each class.

use crate::charts::{grouped, heading, Scale, STYLE};
use crate::finds::LENGTHS;
use crate::goals::CLASS;
use crate::measure::{ClassResult, Results};
use crate::statistics::geometric_mean;
use crate::svg::{number, Anchor, Svg};
use crate::texts::Family;
use libretto::Method;

const LEFT: f64 = 92.0;
const TOP: f64 = 96.0;
const PANEL: (f64, f64) = (270.0, 7.0 * ROW);
const GAP: (f64, f64) = (18.0, 74.0);
const ROW: f64 = 36.0;
const COLUMNS: usize = 3;

/// The ratios at the chart's ends; dots outside stand there.
const ENDS: (f64, f64) = (0.4, 2.5);
const TICKS: [f64; 6] = [0.5, 0.7, 1.0, 1.3, 1.7, 2.3];

/// Draws the chart.
pub fn draw(results: &Results) -> String {
    let (width, height) = size();
    let mut svg = Svg::new(width, height, "The library's time over that of the same engine in C, by engine and text", STYLE);
    svg.words((LEFT, 30.0), Anchor::Start, "heading", "Time of the library over the time of the same engine in C");
    legend(&mut svg);
    for (index, method) in Method::ALL.into_iter().enumerate() {
        panel(&mut svg, corner(index), method, results);
    }
    svg.finish()
}

/// The chart's width and height, with as many rows of panels as the engines need.
fn size() -> (f64, f64) {
    let rows = Method::ALL.len().div_ceil(COLUMNS);
    (LEFT + COLUMNS as f64 * (PANEL.0 + GAP.0), TOP + rows as f64 * (PANEL.1 + GAP.1) - 20.0)
}

/// Where the panel of that index begins.
fn corner(index: usize) -> (f64, f64) {
    (LEFT + (index % COLUMNS) as f64 * (PANEL.0 + GAP.0), TOP + (index / COLUMNS) as f64 * (PANEL.1 + GAP.1))
}

fn legend(svg: &mut Svg) {
    let y = 54.0;
    svg.dot((LEFT + 6.0, y - 4.0), 3.6, "long");
    svg.words((LEFT + 16.0, y), Anchor::Start, "small", "one kind of phrase, text of 32,768");
    svg.dot((LEFT + 226.0, y - 4.0), 3.4, "short");
    svg.words((LEFT + 236.0, y), Anchor::Start, "small", "text of 1,024");
    svg.line((LEFT + 332.0, y - 11.0), (LEFT + 332.0, y + 2.0), "long-mean");
    svg.line((LEFT + 338.0, y - 11.0), (LEFT + 338.0, y + 2.0), "short-mean");
    svg.words((LEFT + 346.0, y), Anchor::Start, "small", "geometric means");
    svg.line((LEFT + 456.0, y - 4.0), (LEFT + 480.0, y - 4.0), "even");
    svg.words((LEFT + 486.0, y), Anchor::Start, "small", "as fast as C; left is faster");
    svg.line((LEFT + 660.0, y - 4.0), (LEFT + 684.0, y - 4.0), "limit");
    svg.words((LEFT + 690.0, y), Anchor::Start, "small", "limit for a class, 1.3");
}

fn panel(svg: &mut Svg, corner: (f64, f64), method: Method, results: &Results) {
    let (left, top) = corner;
    let scale = Scale::new(ENDS, (left, left + PANEL.0));
    let bottom = top + PANEL.1;
    for row in (0..Family::ALL.len()).step_by(2) {
        svg.rectangle((left, top + row as f64 * ROW), (PANEL.0, ROW), "band");
    }
    for tick in TICKS {
        let (x, class) = (
            scale.at(tick),
            if tick == 1.0 {
                "even"
            } else if tick == CLASS {
                "limit"
            } else {
                "grid"
            },
        );
        svg.line((x, top), (x, bottom), class);
        svg.words((x, bottom + 15.0), Anchor::Middle, "small", &number(tick));
    }
    let mean = geometric_mean(results.classes.iter().map(|class| class.times.engines[method as usize].ratio()));
    svg.words((left, top - 9.0), Anchor::Start, "panel", heading(method));
    svg.words((left + PANEL.0, top - 9.0), Anchor::End, "small", &format!("geometric mean {mean:.2}"));
    for (row, family) in Family::ALL.into_iter().enumerate() {
        let y = top + row as f64 * ROW;
        if left == LEFT {
            svg.words((left - 8.0, y + ROW / 2.0 + 4.0), Anchor::End, "", family.name());
        }
        lanes(svg, y, &scale, method, family, results);
    }
    svg.rectangle(corner, PANEL, "frame");
}

/// The two lanes of a row: long texts above, short ones below.
fn lanes(svg: &mut Svg, top: f64, scale: &Scale, method: Method, family: Family, results: &Results) {
    for (lane, (length, dot, mean, radius)) in
        [(LENGTHS[0], "long", "long-mean", 3.6), (LENGTHS[1], "short", "short-mean", 3.2)].into_iter().enumerate()
    {
        let y = top + ROW * (0.28 + 0.44 * lane as f64);
        let of_lane = |class: &&ClassResult| class.family == family && class.length == length;
        let ratios: Vec<f64> = results.classes.iter().filter(of_lane).map(|class| class.times.engines[method as usize].ratio()).collect();
        let x = scale.at(geometric_mean(ratios.iter().copied()));
        svg.line((x, y - 7.5), (x, y + 7.5), mean);
        for ratio in ratios {
            svg.dot((scale.at(ratio), y), radius, dot);
        }
    }
}

/// What the chart shows, for the page that it stands in.
pub fn caption() -> String {
    format!("Dots below {} or above {} stand at the edge. Texts have {} or {} letters.", ENDS.0, ENDS.1, grouped(LENGTHS[0]), grouped(LENGTHS[1]))
}

#[cfg(test)]
mod tests {
    use super::*;

    #[test]
    fn every_panel_lies_within_the_chart() {
        let (width, height) = size();
        for index in 0..Method::ALL.len() {
            let (left, top) = corner(index);
            assert!(left + PANEL.0 < width && top + PANEL.1 < height, "panel {index}");
        }
    }
}
