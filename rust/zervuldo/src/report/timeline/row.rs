//! One row of a time line.

use super::run::{Piece, Stay};
use super::{width, Scale, GAP, PAD};
use plan::curve::{Frame, Point};
use plan::svg::*;
use plan::tell::edge_name;
use std::f64::consts::PI;

/// The length of an arrowhead, and how far a letter's middle is above its
/// baseline.
const ARROW: f64 = 7.0;
const MIDDLE: f64 = 4.0;
/// The size of the teeth along a break.
const TOOTH: f64 = 4.0;

/// A piece between its left and right ends.
pub struct Placed<'a> {
    pub left: f64,
    pub right: f64,
    pub piece: &'a Piece,
}

impl<'a> Placed<'a> {
    fn stay(&self) -> Option<&'a Stay> {
        match self.piece {
            Piece::Stay(stay) => Some(stay),
            Piece::Break(_) => None,
        }
    }

    fn centre(&self) -> f64 {
        (self.left + self.right) / 2.0
    }

    fn frame(&self, top: f64, bottom: f64) -> Frame {
        Frame {
            left: self.left,
            top,
            width: self.right - self.left,
            height: bottom - top,
        }
    }
}

pub struct Row<'a> {
    scale: &'a Scale<'a>,
    placed: &'a [Placed<'a>],
    /// The tops of the first lane and of the bands, and their ends.
    lanes: f64,
    lanes_end: f64,
    band: f64,
    band_end: f64,
}

impl<'a> Row<'a> {
    /// A row of these pieces: the names of the jumps stand over the lanes.
    pub fn new(scale: &'a Scale<'a>, placed: &'a [Placed<'a>]) -> Row<'a> {
        let stays = placed.iter().filter_map(Placed::stay);
        let names = stays.filter_map(|stay| stay.jump);
        let above = names.map(|edge| width(&edge_name(scale.plan, edge)));
        let lanes = above.fold(0.0, f64::max) + 3.0 * PAD;
        let lanes_end = lanes + scale.lanes();
        let band = lanes_end + GAP;
        let mut row = Row {
            scale,
            placed,
            lanes,
            lanes_end,
            band,
            band_end: band,
        };
        let heights = placed.iter().map(|placed| row.name_height(placed));
        row.band_end += heights.fold(0.0, f64::max) + 2.0 * PAD;
        row
    }

    /// Where the row ends, with the times below its bands.
    pub fn end(&self) -> f64 {
        self.band_end + LINE + GAP
    }

    pub fn draw(&self, svg: &mut Svg) {
        self.draw_lanes(svg);
        for placed in self.placed {
            match placed.piece {
                Piece::Stay(stay) => self.draw_stay(svg, placed, stay),
                Piece::Break(words) => self.draw_break(svg, placed, words),
            }
        }
    }

    fn name_of(&self, stay: &Stay) -> &'a str {
        &self.scale.plan.locations[stay.location].name
    }

    /// Whether a location's name must stand upright to fit into its band.
    fn is_upright(&self, placed: &Placed, stay: &Stay) -> bool {
        width(self.name_of(stay)) + PAD > placed.right - placed.left
    }

    fn name_height(&self, placed: &Placed) -> f64 {
        match placed.stay() {
            Some(stay) if self.is_upright(placed, stay) => width(self.name_of(stay)),
            _ => FONT,
        }
    }

    fn point(&self, x: f64, clock: usize, value: f64) -> Point {
        Point::new(x, self.lanes + self.scale.level(clock, value))
    }

    /// The names of the clocks, and a line for each whole value.
    fn draw_lanes(&self, svg: &mut Svg) {
        let ceiling = self.scale.plan.ceiling;
        let (left, right) = (self.scale.left, self.placed[self.placed.len() - 1].right);
        for (clock, name) in self.scale.plan.clocks.iter().enumerate() {
            for value in 0..=ceiling {
                let ends = [left, right].map(|x| self.point(x, clock, value.into()));
                svg.line(&ends, "stroke=\"#cccccc\" stroke-width=\"0.8\"");
            }
            for value in [0, ceiling] {
                let at = self.point(left - PAD, clock, value.into());
                text(svg, at, "end", PLAIN, &value.to_string());
            }
            let middle = f64::from(ceiling) / 2.0;
            let at = self.point(left - 2.0 * PAD - LETTER, clock, middle);
            text(svg, at, "end", PLAIN, name);
        }
    }

    fn draw_stay(&self, svg: &mut Svg, placed: &Placed, stay: &Stay) {
        self.draw_band(svg, placed, stay);
        let dots = match stay.length == 0.0 {
            true => " stroke-dasharray=\"2 3\"",
            false => "",
        };
        let style = format!("stroke=\"{TRAIL}\" stroke-width=\"2\"{dots}");
        for (clock, &value) in stay.clocks.iter().enumerate() {
            let begin = self.point(placed.left, clock, value);
            let end = self.point(placed.right, clock, value + stay.length);
            svg.line(&[begin, end], &style);
        }
        if let Some(edge) = stay.jump {
            self.draw_jump(svg, placed.right, stay, edge);
        }
    }

    /// The name of the edge above the lanes, and the clocks that it resets.
    fn draw_jump(&self, svg: &mut Svg, x: f64, stay: &Stay, number: usize) {
        let plan = self.scale.plan;
        let ends = [self.lanes - PAD, self.band_end].map(|y| Point::new(x, y));
        svg.line(&ends, &format!("stroke=\"{PLAIN}\" stroke-width=\"1\""));
        let foot = Point::new(x, self.lanes - 2.0 * PAD);
        upright(svg, foot, "start", PLAIN, &edge_name(plan, number));
        for (clock, &value) in stay.clocks.iter().enumerate() {
            let is_reset = plan.edges[number].resets >> clock & 1 == 1;
            if is_reset && value + stay.length > 0.0 {
                let from = self.point(x, clock, value + stay.length);
                let to = self.point(x, clock, 0.0);
                svg.line(
                    &[from, to],
                    &format!("stroke=\"{TRAIL}\" stroke-width=\"2\""),
                );
                svg.arrow(to, PI / 2.0, ARROW, TRAIL);
            }
        }
    }

    /// The location, the time spent there, and whether that is a loop's turn.
    fn draw_band(&self, svg: &mut Svg, placed: &Placed, stay: &Stay) {
        let location = &self.scale.plan.locations[stay.location];
        let (fill, colour) = match location.forbidden {
            true => (FORBIDDEN_GROUND, FORBIDDEN),
            false => (PLAIN_GROUND, PLAIN),
        };
        let frame = placed.frame(self.band, self.band_end);
        svg.frame(&frame, 3.0, &format!("fill=\"{fill}\" stroke=\"{colour}\""));
        match self.is_upright(placed, stay) {
            true => upright(svg, frame.centre(), "middle", colour, &location.name),
            false => text(svg, frame.centre(), "middle", colour, &location.name),
        }
        if !location.forbidden {
            let below = Point::new(placed.centre(), self.band_end + PAD + MIDDLE);
            text(svg, below, "middle", FAINT, &stay.words);
        }
        if stay.in_turn {
            let y = self.band_end + LINE + PAD;
            let ends = [placed.left, placed.right].map(|x| Point::new(x, y));
            svg.line(
                &ends,
                &format!("stroke=\"{LOOP}\" stroke-width=\"3\" stroke-dasharray=\"8 4\""),
            );
        }
    }

    /// A break in time, with torn edges.
    fn draw_break(&self, svg: &mut Svg, placed: &Placed, words: &[String]) {
        let frame = placed.frame(self.lanes - PAD, self.lanes_end + PAD);
        let frame = Frame::around(frame.centre(), frame.width - 4.0 * TOOTH, frame.height);
        svg.frame(&frame, 0.0, &format!("fill=\"{WHITE}\""));
        let style = format!("stroke=\"{LOOP}\" stroke-width=\"1.5\"");
        for x in [frame.left, frame.right()] {
            svg.line(&torn(x, &frame), &style);
        }
        let top = frame.centre().y - LINE * (words.len() as f64 - 1.0) / 2.0;
        for (at, word) in words.iter().enumerate() {
            let at = Point::new(frame.centre().x, top + LINE * at as f64);
            text(svg, at, "middle", LOOP, word);
        }
    }
}

/// A line with teeth, down along a frame.
fn torn(x: f64, frame: &Frame) -> Vec<Point> {
    let count = (frame.height / (2.0 * TOOTH)) as usize;
    let step = frame.height / count as f64;
    (0..=count)
        .map(|at| {
            let side = if at % 2 == 0 { -TOOTH } else { TOOTH };
            Point::new(x + side / 2.0, frame.top + step * at as f64)
        })
        .collect()
}

/// A text whose middle is at a height.
fn text(svg: &mut Svg, at: Point, anchor: &str, colour: &str, words: &str) {
    let baseline = Point::new(at.x, at.y + MIDDLE);
    svg.text(baseline, anchor, &format!("fill=\"{colour}\""), words);
}

/// A text that is read from below to above.
fn upright(svg: &mut Svg, at: Point, anchor: &str, colour: &str, words: &str) {
    let x = at.x + MIDDLE;
    let turned = format!("transform=\"rotate(-90 {x:.1} {:.1})\"", at.y);
    svg.text(
        Point::new(x, at.y),
        anchor,
        &format!("fill=\"{colour}\" {turned}"),
        words,
    );
}
