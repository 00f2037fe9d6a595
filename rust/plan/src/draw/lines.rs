//! Lines of text in a drawing: their colours, their sizes, and how they break.

use crate::curve::{Frame, Point};
use crate::svg::{Svg, FONT, LETTER, LINE};

/// Headlines are so much larger.
const LARGE: f64 = 1.35;

/// A line of text.
#[derive(Clone, Debug)]
pub struct Line {
    pub text: String,
    colour: &'static str,
    is_bold: bool,
    size: f64,
}

pub fn plain(text: &str, colour: &'static str) -> Line {
    Line {
        text: text.to_string(),
        colour,
        is_bold: false,
        size: 1.0,
    }
}

pub fn bold(text: &str, colour: &'static str) -> Line {
    Line {
        is_bold: true,
        ..plain(text, colour)
    }
}

pub fn large(text: &str, colour: &'static str) -> Line {
    Line {
        size: LARGE,
        ..bold(text, colour)
    }
}

impl Line {
    fn width(&self) -> f64 {
        self.text.chars().count() as f64 * LETTER * self.size
    }

    fn height(&self) -> f64 {
        LINE * self.size
    }

    fn style(&self) -> String {
        let weight = match self.is_bold {
            true => " font-weight=\"bold\"",
            false => "",
        };
        let size = match self.size {
            1.0 => String::new(),
            size => format!(" font-size=\"{:.1}\"", FONT * size),
        };
        format!("fill=\"{}\"{weight}{size}", self.colour)
    }

    /// The line broken at blanks, and in words that are too long, so that it
    /// is no wider than this.
    pub fn wrapped(&self, width: f64) -> Vec<Line> {
        let letters = ((width / (LETTER * self.size)) as usize).max(1);
        let mut texts: Vec<String> = Vec::new();
        for word in self.text.split(' ').flat_map(|word| cut(word, letters)) {
            match texts.last_mut() {
                Some(text) if text.chars().count() + word.chars().count() < letters => {
                    *text += &format!(" {word}")
                }
                _ => texts.push(word),
            }
        }
        let line = |text| Line {
            text,
            ..self.clone()
        };
        texts.into_iter().map(line).collect()
    }
}

/// A word in pieces of so many letters.
fn cut(word: &str, letters: usize) -> Vec<String> {
    let all: Vec<char> = word.chars().collect();
    all.chunks(letters)
        .map(|piece| piece.iter().collect())
        .collect()
}

/// Width and height of these lines.
pub fn extent(lines: &[Line]) -> (f64, f64) {
    let widest = lines.iter().map(Line::width).fold(0.0, f64::max);
    (widest, lines.iter().map(Line::height).sum())
}

/// Lines below each other, from the left; the point is their upper corner.
pub fn column(svg: &mut Svg, lines: &[Line], at: Point) {
    stack(svg, lines, at, "start");
}

/// Lines below each other in the middle of a frame.
pub fn centred(svg: &mut Svg, lines: &[Line], frame: &Frame) {
    let centre = frame.centre();
    let top = centre.y - extent(lines).1 / 2.0;
    stack(svg, lines, Point::new(centre.x, top), "middle");
}

fn stack(svg: &mut Svg, lines: &[Line], at: Point, anchor: &str) {
    let mut top = at.y;
    for line in lines {
        let baseline = Point::new(at.x, top + line.height() * 0.75);
        svg.text(baseline, anchor, &line.style(), &line.text);
        top += line.height();
    }
}

#[cfg(test)]
mod tests {
    use super::*;

    #[test]
    fn lines_are_broken_at_blanks_and_in_long_words() {
        let texts = |text: &str, letters: f64| {
            let lines = plain(text, "").wrapped(LETTER * letters + 0.1);
            lines.into_iter().map(|line| line.text).collect::<Vec<_>>()
        };
        assert_eq!(texts("to the edge of", 6.0), ["to the", "edge", "of"]);
        assert_eq!(texts("a collision", 4.0), ["a", "coll", "isio", "n"]);
        assert_eq!(texts("", 4.0), Vec::<String>::new());
    }
}
