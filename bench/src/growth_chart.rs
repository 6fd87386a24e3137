//! The charts of growth: a panel for each family of texts, a line for each engine, and a letter's time over a growing length.

use crate::charts::{class, grouped, heading, Scale, STYLE};
use crate::measure::Grown;
use crate::svg::{number, Anchor, Svg};
use libretto::Method;

const LEFT: f64 = 58.0;
const TOP: f64 = 100.0;
const PANEL: (f64, f64) = (192.0, 180.0);
const GAP: (f64, f64) = (34.0, 72.0);
const COLUMNS: usize = 4;

/// What a chart shows over what.
pub struct Axes<'a> {
    /// The chart's heading.
    pub heading: &'a str,
    /// The line under it.
    pub below: &'a str,
    /// The lengths.
    pub lengths: &'a [usize],
    /// Every so many lengths one is written.
    pub step: usize,
    /// The least and the largest nanoseconds for a letter.
    pub ends: (f64, f64),
    /// The nanoseconds that have a grid line.
    pub ticks: &'a [f64],
}

/// Draws the chart of the times that stand for each family, engine and length, in nanoseconds for a letter of the text.
pub fn draw(axes: &Axes<'_>, families: &[Grown]) -> String {
    let width = LEFT + COLUMNS as f64 * (PANEL.0 + GAP.0);
    let height = TOP + 2.0 * (PANEL.1 + GAP.1) - 20.0;
    let mut svg = Svg::new(width, height, axes.heading, STYLE);
    svg.words((LEFT, 30.0), Anchor::Start, "heading", axes.heading);
    svg.words((LEFT, 52.0), Anchor::Start, "small", axes.below);
    for (index, family) in families.iter().enumerate() {
        panel(&mut svg, corner(index), axes, family);
    }
    legend(&mut svg, corner(families.len()));
    svg.finish()
}

fn corner(index: usize) -> (f64, f64) {
    (LEFT + (index % COLUMNS) as f64 * (PANEL.0 + GAP.0), TOP + (index / COLUMNS) as f64 * (PANEL.1 + GAP.1))
}

fn panel(svg: &mut Svg, (left, top): (f64, f64), axes: &Axes<'_>, family: &Grown) {
    let (right, bottom) = (left + PANEL.0, top + PANEL.1);
    let lengths: Vec<f64> = axes.lengths.iter().map(|&length| length as f64).collect();
    let x = Scale::new((lengths[0], lengths[lengths.len() - 1]), (left + 8.0, right - 8.0));
    let y = Scale::new(axes.ends, (bottom, top));
    for &tick in axes.ticks {
        svg.line((left, y.at(tick)), (right, y.at(tick)), "grid");
        if left == LEFT {
            svg.words((left - 7.0, y.at(tick) + 4.0), Anchor::End, "small", &number(tick));
        }
    }
    if left == LEFT {
        svg.words((left - 7.0, top - 12.0), Anchor::End, "small", "ns");
    }
    for &length in axes.lengths.iter().step_by(axes.step) {
        svg.line((x.at(length as f64), bottom), (x.at(length as f64), bottom + 4.0), "frame");
        svg.words((x.at(length as f64), bottom + 17.0), Anchor::Middle, "small", &grouped(length));
    }
    svg.words((left, top - 10.0), Anchor::Start, "panel", family.family.name());
    svg.rectangle((left, top), PANEL, "frame");
    for method in order() {
        let points: Vec<(f64, f64)> = lengths.iter().zip(&family.times[method as usize]).map(|(&length, &time)| (x.at(length), y.at(time))).collect();
        svg.polyline(&points, class(method));
    }
}

/// The engines whose growth is promised come last, so that their lines lie above the others.
fn order() -> [Method; 8] {
    use Method::*;
    [Naive, Horspool, Sunday, DoubleWindow, BoyerMoore, ImprovedFjs, Kmp, Fjs]
}

fn legend(svg: &mut Svg, (left, top): (f64, f64)) {
    for (row, method) in Method::ALL.into_iter().enumerate() {
        let y = top + 22.0 + 24.0 * row as f64;
        svg.line((left + 14.0, y - 4.0), (left + 64.0, y - 4.0), class(method));
        svg.words((left + 74.0, y), Anchor::Start, "", heading(method));
    }
}
