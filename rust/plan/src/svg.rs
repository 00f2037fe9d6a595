//! The few shapes of a drawing, written as SVG.

use crate::curve::{Curve, Frame, Point};

/// Letters are of one width, so that boxes can be measured beforehand.
pub const FONT: f64 = 12.0;
pub const LETTER: f64 = FONT * 0.61;
pub const LINE: f64 = 15.0;
/// The colours of texts and lines: each has a contrast of at least 4.5 to
/// white and to the grounds below, as WCAG wants it of texts.
pub const PLAIN: &str = "#333333";
pub const FAINT: &str = "#595959";
pub const START: &str = "#156b34";
pub const FORBIDDEN: &str = "#b3261e";
pub const TRAIL: &str = "#1f5fbf";
pub const LOOP: &str = "#9a4a00";
/// Grounds.
pub const WHITE: &str = "#ffffff";
pub const PLAIN_GROUND: &str = "#f6f6f6";
pub const START_GROUND: &str = "#e9f6ee";
pub const FORBIDDEN_GROUND: &str = "#fdecea";
const FAMILY: &str = "DejaVu Sans Mono, Menlo, Consolas, monospace";
const SPACE: &str = "http://www.w3.org/2000/svg";

pub struct Svg {
    body: String,
}

impl Svg {
    pub fn new() -> Svg {
        Svg {
            body: String::new(),
        }
    }

    pub fn frame(&mut self, frame: &Frame, round: f64, style: &str) {
        let corner = format!("x=\"{:.1}\" y=\"{:.1}\"", frame.left, frame.top);
        let size = format!(
            "width=\"{:.1}\" height=\"{:.1}\"",
            frame.width, frame.height
        );
        self.body += &format!("<rect {corner} {size} rx=\"{round}\" {style}/>\n");
    }

    pub fn curve(&mut self, curve: &Curve, style: &str) {
        let [a, b, c, d] = curve
            .0
            .map(|point| format!("{:.1} {:.1}", point.x, point.y));
        self.body += &format!("<path d=\"M {a} C {b}, {c}, {d}\" fill=\"none\" {style}/>\n");
    }

    /// A line through these points.
    pub fn line(&mut self, points: &[Point], style: &str) {
        let points = points
            .iter()
            .map(|point| format!("{:.1},{:.1}", point.x, point.y));
        self.body += &format!(
            "<polyline points=\"{}\" fill=\"none\" {style}/>\n",
            points.collect::<Vec<String>>().join(" ")
        );
    }

    /// An arrowhead whose tip is here, pointing in a direction.
    pub fn arrow(&mut self, tip: Point, angle: f64, length: f64, colour: &str) {
        let wing = |side: f64| tip.towards(angle + side, -length);
        let points =
            [tip, wing(0.4), wing(-0.4)].map(|point| format!("{:.1},{:.1}", point.x, point.y));
        self.body += &format!(
            "<polygon points=\"{}\" fill=\"{colour}\"/>\n",
            points.join(" ")
        );
    }

    /// Text whose baseline begins here, or has its middle here.
    pub fn text(&mut self, at: Point, anchor: &str, style: &str, words: &str) {
        self.body += &format!(
            "<text x=\"{:.1}\" y=\"{:.1}\" text-anchor=\"{anchor}\" {style}>{}</text>\n",
            at.x,
            at.y,
            escaped(words)
        );
    }

    /// A group with a title, which viewers show when pointed at.
    pub fn group(&mut self, title: &str, fill: impl FnOnce(&mut Svg)) {
        self.body += &format!("<g><title>{}</title>\n", escaped(title));
        fill(self);
        self.body += "</g>\n";
    }

    /// The whole drawing; who cannot see it is told what it shows.
    pub fn finished(self, width: f64, height: f64, shows: &str) -> String {
        let size = format!("width=\"{width:.0}\" height=\"{height:.0}\"");
        let view = format!("viewBox=\"0 0 {width:.0} {height:.0}\" {size}");
        let font = format!("font-family=\"{FAMILY}\" font-size=\"{FONT}\"");
        let role = format!("role=\"img\" aria-label=\"{}\"", escaped(shows));
        let ground = format!("<rect width=\"100%\" height=\"100%\" fill=\"{WHITE}\"/>");
        let body = self.body;
        format!("<svg xmlns=\"{SPACE}\" {view} {font} {role}>\n{ground}\n{body}</svg>\n")
    }
}

impl Default for Svg {
    fn default() -> Svg {
        Svg::new()
    }
}

/// Words without signs that XML and HTML give a meaning.
pub fn escaped(words: &str) -> String {
    words
        .replace('&', "&amp;")
        .replace('<', "&lt;")
        .replace('>', "&gt;")
        .replace('"', "&quot;")
        .replace('\'', "&#39;")
}
