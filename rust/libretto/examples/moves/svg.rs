//! A small writer of SVG: shapes, words, and letters in cells, all with classes, whose colours stand in the page's style.

use crate::style::STYLE;

/// A page being drawn.
#[derive(Default)]
pub struct Svg {
    body: String,
}

impl Svg {
    /// Begins a group, which is moved down by so much.
    pub fn open(&mut self, class: &str, down: f64) {
        let moved = if down == 0.0 { String::new() } else { format!(" transform=\"translate(0 {})\"", number(down)) };
        self.push(&format!("<g class=\"{class}\"{moved}>"));
    }

    /// Ends the group that was begun last.
    pub fn close(&mut self) {
        self.push("</g>");
    }

    /// A rectangle by its left upper corner, its width and its height.
    pub fn rectangle(&mut self, class: &str, corner: (f64, f64), size: (f64, f64)) {
        let [x, y, width, height] = [corner.0, corner.1, size.0, size.1].map(number);
        self.push(&format!("<rect class=\"{class}\" x=\"{x}\" y=\"{y}\" width=\"{width}\" height=\"{height}\"/>"));
    }

    /// Straight lines, each through its points.
    pub fn lines(&mut self, class: &str, lines: &[&[(f64, f64)]]) {
        let point = |&(x, y): &(f64, f64)| format!("{} {}", number(x), number(y));
        let line = |points: &&[(f64, f64)]| format!("M{}", points.iter().map(point).collect::<Vec<_>>().join("L"));
        self.push(&format!("<path class=\"{class}\" d=\"{}\"/>", lines.iter().map(line).collect::<String>()));
    }

    /// The frames of so many cells side by side.
    pub fn cells(&mut self, class: &str, corner: (f64, f64), cell: (f64, f64), count: usize) {
        let [x, y, width, height] = [corner.0, corner.1, cell.0 * count as f64, cell.1].map(number);
        let inner: String = (1..count).map(|k| format!("M{} {y}v{height}", number(corner.0 + cell.0 * k as f64))).collect();
        self.push(&format!("<path class=\"{class}\" d=\"M{x} {y}h{width}v{height}H{x}z{inner}\"/>"));
    }

    /// Words on one line.
    pub fn words(&mut self, class: &str, at: (f64, f64), words: &str) {
        let [x, y] = [at.0, at.1].map(number);
        self.push(&format!("<text class=\"{class}\" x=\"{x}\" y=\"{y}\">{}</text>", escaped(words)));
    }

    /// Letters, so far from each other, the first one around this point. Each part has a class of its own, or none.
    pub fn letters(&mut self, class: &str, at: (f64, f64), apart: f64, parts: &[(&str, &[u8])]) {
        let mut places = Vec::new();
        let mut letters = String::new();
        let mut x = at.0;
        for &(part, bytes) in parts {
            let mut shown = String::new();
            for &letter in bytes {
                match sign(letter) {
                    Some(sign) => {
                        places.push(number(x));
                        shown += &escaped(&sign.to_string());
                    }
                    None => {
                        places.extend([x - 2.5, x + 2.5].map(number));
                        shown += &format!("<tspan class=\"byte\">{letter:02x}</tspan>");
                    }
                }
                x += apart;
            }
            letters += &if part.is_empty() || shown.is_empty() { shown } else { format!("<tspan class=\"{part}\">{shown}</tspan>") };
        }
        self.push(&format!("<text class=\"{class}\" x=\"{}\" y=\"{}\">{letters}</text>", places.join(" "), number(at.1)));
    }

    /// The whole page. The title is read out where the page cannot be seen. Blanks are letters too, so they are preserved.
    pub fn finish(&self, width: f64, height: f64, title: &str) -> String {
        let [width, height] = [width, height].map(number);
        format!(
            "<svg xmlns=\"http://www.w3.org/2000/svg\" viewBox=\"0 0 {width} {height}\" width=\"{width}\" height=\"{height}\" role=\"img\" \
             xml:space=\"preserve\">\n<title>{}</title>\n<style>\n{STYLE}</style>\n<rect class=\"paper\" width=\"{width}\" height=\"{height}\"/>\n{}\
             </svg>\n",
            escaped(title),
            self.body
        )
    }

    fn push(&mut self, element: &str) {
        self.body += element;
        self.body += "\n";
    }
}

/// The sign of a letter in its cell: itself, and an arrow for the end of a line. The other control bytes, the hard blank and the soft hyphen have
/// none, since they could not be seen.
pub fn sign(letter: u8) -> Option<char> {
    match letter {
        b'\n' => Some('\u{21b5}'),
        0..=0x1f | 0x7f..=0xa0 | 0xad => None,
        _ => Some(char::from(letter)),
    }
}

/// A number with at most two decimals, and none that are 0 at its end.
fn number(value: f64) -> String {
    let rounded = format!("{value:.2}");
    rounded.trim_end_matches('0').trim_end_matches('.').to_string()
}

/// Words as they stand between tags or in an attribute.
fn escaped(words: &str) -> String {
    words.replace('&', "&amp;").replace('<', "&lt;").replace('>', "&gt;").replace('"', "&quot;").replace('\'', "&#39;")
}
