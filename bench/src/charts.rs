//! What the charts share: the style, scales by logarithms, and an engine's look.

use libretto::Method;

/// Colours and letters, in light and in dark. No element has a colour of its own.
pub const STYLE: &str = "\
text { font-family: system-ui, -apple-system, 'Segoe UI', 'DejaVu Sans', sans-serif; font-size: 12px; fill: #333; }
.heading { font-size: 17px; font-weight: 600; fill: #111; }
.panel { font-size: 13px; font-weight: 600; fill: #111; }
.small { font-size: 11px; fill: #555; }
.paper { fill: #fff; }
.band { fill: #f4f4f2; }
.frame { fill: none; stroke: #c8c8c4; }
.grid { stroke: #e6e6e2; }
.even { stroke: #555; stroke-width: 1.2; }
.limit { stroke: #c0392b; stroke-width: 1.2; stroke-dasharray: 5 3; }
.long { fill: #1f6fd0; fill-opacity: 0.8; }
.short { fill: #fff; fill-opacity: 0; stroke: #c9730a; stroke-width: 1.4; }
.long-mean { stroke: #1f6fd0; stroke-width: 2.5; }
.short-mean { stroke: #c9730a; stroke-width: 2.5; }
.naive, .kmp, .horspool, .sunday, .fjs, .double, .bm, .improved { fill: none; stroke-width: 1.5; }
.naive { stroke: #8a8a86; stroke-dasharray: 2 2; }
.kmp { stroke: #1f6fd0; stroke-width: 2.6; }
.horspool { stroke: #2a9461; stroke-dasharray: 7 3; }
.sunday { stroke: #b07d00; stroke-dasharray: 4 2; }
.fjs { stroke: #cf3f57; stroke-width: 2.6; }
.double { stroke: #8552c9; stroke-dasharray: 9 2 2 2; }
.bm { stroke: #0f8b8d; stroke-dasharray: 12 3; }
.improved { stroke: #b0408f; stroke-dasharray: 6 2 1 2; }
@media (prefers-color-scheme: dark) {
text { fill: #ccc; }
.heading { fill: #f2f2f2; }
.panel { fill: #f2f2f2; }
.small { fill: #aaa; }
.paper { fill: #16181c; }
.band { fill: #1e2126; }
.frame { stroke: #4a4e55; }
.grid { stroke: #2b2f35; }
.even { stroke: #aaa; }
.limit { stroke: #ff7a6b; }
.long { fill: #6cb0ff; }
.short { stroke: #f0a44a; }
.long-mean { stroke: #6cb0ff; }
.short-mean { stroke: #f0a44a; }
.naive { stroke: #9c9c98; }
.kmp { stroke: #6cb0ff; }
.horspool { stroke: #5fcf9a; }
.sunday { stroke: #e3b54a; }
.fjs { stroke: #ff7d8f; }
.double { stroke: #c29bff; }
.bm { stroke: #4fd0d2; }
.improved { stroke: #ee8fd0; }
}
";

/// A scale by logarithms from values to places of the picture.
pub struct Scale {
    values: (f64, f64),
    places: (f64, f64),
}

impl Scale {
    /// The scale that puts the first value at the first place and the second at the second.
    pub fn new(values: (f64, f64), places: (f64, f64)) -> Scale {
        Scale { values, places }
    }

    /// The place of a value; one outside the scale stands at its end.
    pub fn at(&self, value: f64) -> f64 {
        let (low, high) = self.values;
        let part = (value.clamp(low, high) / low).ln() / (high / low).ln();
        self.places.0 + part * (self.places.1 - self.places.0)
    }
}

/// The name of an engine's class in the style.
pub fn class(method: Method) -> &'static str {
    method.name()
}

/// The name of an engine in headings.
pub fn heading(method: Method) -> &'static str {
    match method {
        Method::Naive => "Naive",
        Method::Kmp => "KMP",
        Method::Horspool => "Horspool",
        Method::Sunday => "Sunday",
        Method::Fjs => "FJS",
        Method::DoubleWindow => "Double window",
        Method::BoyerMoore => "Boyer-Moore",
        Method::ImprovedFjs => "Improved FJS",
    }
}

/// A number with commas between thousands.
pub fn grouped(number: usize) -> String {
    let digits = number.to_string();
    let front = digits.len() % 3;
    let mut groups: Vec<&str> = if front == 0 { Vec::new() } else { vec![&digits[..front]] };
    groups.extend((front..digits.len()).step_by(3).map(|start| &digits[start..start + 3]));
    groups.join(",")
}

#[cfg(test)]
mod tests {
    use super::*;

    #[test]
    fn scales_go_by_logarithms_and_end_at_their_ends() {
        let scale = Scale::new((0.5, 2.0), (100.0, 300.0));
        for (value, place) in [(0.5, 100.0), (1.0, 200.0), (2.0, 300.0), (9.0, 300.0), (0.1, 100.0)] {
            assert!((scale.at(value) - place).abs() < 1e-9, "{value}");
        }
    }

    #[test]
    fn thousands_are_grouped() {
        assert_eq!([0, 999, 1024, 32_768, 1_000_000].map(grouped), ["0", "999", "1,024", "32,768", "1,000,000"]);
    }
}
