//! The goals, and whether a run met them.

use crate::measure::{ClassResult, Results};
use crate::statistics::{geometric_mean, growth_exponent};
use libretto::{Method, TEXT_MAX};

/// The largest geometric mean of an engine's ratios to its C twin.
pub const MEAN: f64 = 1.05;
/// The largest ratio that one class may have.
pub const CLASS: f64 = 1.3;
/// The least speed of folding by page 1, in bytes a nanosecond.
pub const FOLDING: f64 = 1.0;
/// The largest ratio of the resolver to its C twin, for each book.
pub const RESOLVER: f64 = 1.1;
/// The most time of the resolver for a book of short phrases, in times of as many full finds by FJS in C.
pub const SHORT_BOOK: f64 = 0.15;
/// The same for a book of mixed phrases.
pub const MIXED_BOOK: f64 = 0.25;
/// The largest exponent with which the time of KMP and FJS may grow in n: linear, with some room for the clock.
pub const EXPONENT: f64 = 1.1;

/// How an engine stands.
pub struct EngineVerdict<'a> {
    /// The engine.
    pub method: Method,
    /// The geometric mean of its ratios.
    pub mean: f64,
    /// The same where the linker placed the library in this program.
    pub linked: f64,
    /// The class with the largest ratio.
    pub worst: &'a ClassResult,
    /// The classes above the limit, the worst first.
    pub above: Vec<&'a ClassResult>,
    /// The geometric mean of the C twin's slowest over its fastest placement.
    pub placement: f64,
}

impl EngineVerdict<'_> {
    /// Whether the goal is met.
    pub fn met(&self) -> bool {
        self.mean <= MEAN && self.above.is_empty()
    }
}

/// The ratio of an engine to its twin in a class.
pub fn ratio(class: &ClassResult, method: Method) -> f64 {
    class.times.engines[method as usize].ratio()
}

/// How each engine stands.
pub fn engines(results: &Results) -> Vec<EngineVerdict<'_>> {
    Method::ALL.into_iter().map(|method| engine(results, method)).collect()
}

fn engine(results: &Results, method: Method) -> EngineVerdict<'_> {
    let mut ranked: Vec<&ClassResult> = results.classes.iter().collect();
    ranked.sort_by(|a, b| ratio(b, method).total_cmp(&ratio(a, method)));
    let times = |class: &ClassResult| class.times.engines[method as usize];
    EngineVerdict {
        method,
        mean: geometric_mean(results.classes.iter().map(|class| ratio(class, method))),
        linked: geometric_mean(results.classes.iter().map(|class| times(class).linked / times(class).twin)),
        worst: ranked[0],
        placement: geometric_mean(results.classes.iter().map(|class| times(class).worst_twin / times(class).twin)),
        above: ranked.into_iter().take_while(|class| ratio(class, method) > CLASS).collect(),
    }
}

/// The speed at which the longest text is folded in this time, in bytes a nanosecond.
pub fn folding_speed(time: f64) -> f64 {
    TEXT_MAX as f64 / time
}

/// The exponent with which an engine's time grows in n, for each family.
pub fn exponents(results: &Results, method: Method, lengths: &[usize]) -> Vec<f64> {
    let points = |times: &Vec<f64>| -> Vec<(f64, f64)> { lengths.iter().zip(times).map(|(&length, &time)| (length as f64, time)).collect() };
    results.by_n.iter().map(|grown| growth_exponent(&points(&grown.times[method as usize]))).collect()
}
