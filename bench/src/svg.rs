//! A small writer of SVG: shapes and words with classes, whose colours stand in one style for light and one for dark.

/// How words are placed at their point.
#[derive(Clone, Copy)]
pub enum Anchor {
    /// They start at it.
    Start,
    /// They stand around it.
    Middle,
    /// They end at it.
    End,
}

/// A picture being drawn.
pub struct Svg {
    width: f64,
    height: f64,
    title: String,
    style: &'static str,
    body: String,
}

impl Svg {
    /// An empty picture. The title is read out where the picture cannot be seen.
    pub fn new(width: f64, height: f64, title: &str, style: &'static str) -> Svg {
        Svg { width, height, title: title.to_string(), style, body: String::new() }
    }

    /// A straight line.
    pub fn line(&mut self, from: (f64, f64), to: (f64, f64), class: &str) {
        let [x1, y1, x2, y2] = [from.0, from.1, to.0, to.1].map(number);
        self.push(&format!("<line class=\"{class}\" x1=\"{x1}\" y1=\"{y1}\" x2=\"{x2}\" y2=\"{y2}\"/>"));
    }

    /// A line through all these points.
    pub fn polyline(&mut self, points: &[(f64, f64)], class: &str) {
        let points: Vec<String> = points.iter().map(|&(x, y)| format!("{},{}", number(x), number(y))).collect();
        self.push(&format!("<polyline class=\"{class}\" points=\"{}\"/>", points.join(" ")));
    }

    /// A round dot.
    pub fn dot(&mut self, at: (f64, f64), radius: f64, class: &str) {
        let [x, y, r] = [at.0, at.1, radius].map(number);
        self.push(&format!("<circle class=\"{class}\" cx=\"{x}\" cy=\"{y}\" r=\"{r}\"/>"));
    }

    /// A rectangle by its left upper corner, its width and its height.
    pub fn rectangle(&mut self, corner: (f64, f64), size: (f64, f64), class: &str) {
        let [x, y, width, height] = [corner.0, corner.1, size.0, size.1].map(number);
        self.push(&format!("<rect class=\"{class}\" x=\"{x}\" y=\"{y}\" width=\"{width}\" height=\"{height}\"/>"));
    }

    /// Words on one line.
    pub fn words(&mut self, at: (f64, f64), anchor: Anchor, class: &str, words: &str) {
        let anchor = match anchor {
            Anchor::Start => "start",
            Anchor::Middle => "middle",
            Anchor::End => "end",
        };
        let [x, y] = [at.0, at.1].map(number);
        self.push(&format!("<text class=\"{class}\" x=\"{x}\" y=\"{y}\" text-anchor=\"{anchor}\">{}</text>", escaped(words)));
    }

    /// The whole picture.
    pub fn finish(&self) -> String {
        let [width, height] = [self.width, self.height].map(number);
        let title = escaped(&self.title);
        format!(
            "<svg xmlns=\"http://www.w3.org/2000/svg\" viewBox=\"0 0 {width} {height}\" width=\"{width}\" height=\"{height}\" role=\"img\">\n\
             <title>{title}</title>\n<style>\n{}</style>\n<rect class=\"paper\" width=\"{width}\" height=\"{height}\"/>\n{}</svg>\n",
            self.style, self.body
        )
    }

    fn push(&mut self, element: &str) {
        self.body += element;
        self.body += "\n";
    }
}

/// A number with at most two decimals, and none that are 0 at its end.
pub fn number(value: f64) -> String {
    let rounded = format!("{value:.2}");
    let short = rounded.trim_end_matches('0').trim_end_matches('.');
    if short == "-0" {
        "0".to_string()
    } else {
        short.to_string()
    }
}

/// Words as they stand between tags or in an attribute.
fn escaped(words: &str) -> String {
    words.replace('&', "&amp;").replace('<', "&lt;").replace('>', "&gt;").replace('"', "&quot;")
}

#[cfg(test)]
mod tests {
    use super::*;

    #[test]
    fn numbers_are_short() {
        let written = [0.0, -0.001, 1.0, 100.0, 12.5, 0.125, -7.128, 960.0].map(number);
        assert_eq!(written, ["0", "0", "1", "100", "12.5", "0.12", "-7.13", "960"]);
    }

    #[test]
    fn words_are_escaped() {
        assert_eq!(escaped("a<b & \"c\" > d"), "a&lt;b &amp; &quot;c&quot; &gt; d");
        let mut svg = Svg::new(10.0, 20.0, "1 < 2", "");
        svg.words((1.0, 2.5), Anchor::End, "label", "x & y");
        let picture = svg.finish();
        assert!(picture.contains("<title>1 &lt; 2</title>"));
        assert!(picture.contains("<text class=\"label\" x=\"1\" y=\"2.5\" text-anchor=\"end\">x &amp; y</text>"));
        assert!(picture.ends_with("</svg>\n"));
    }
}
