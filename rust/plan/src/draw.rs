//! A plan drawn as SVG, with a trail over it if there is one.

mod legend;
mod lines;

use crate::curve::Point;
use crate::layout::{layout, Layout, Sketch, SketchEdge, ARROW};
use crate::marks::{marks_of, numbers_words, Mark, Marks};
use crate::svg::*;
use crate::tell::edge_name;
use crate::tell::story::{loop_name, Story};
use crate::trail::Step;
use crate::{Plan, BY_LAST_EDGE, EDGES_MARK};
use legend::{legend, loops_told, Entry};
use lines::{bold, centred, column, extent, large, plain, Line};

const MARGIN: f64 = 24.0;
const PADDING: f64 = 7.0;
const LABEL_PADDING: f64 = 3.0;
/// Longer lines of a box are broken.
const WIDEST: usize = 26;
/// The room that heading and legend have at least: with the margins, a page of
/// A4 shows it in letters of full size.
const TEXT_WIDTH: f64 = 620.0;

/// What stands above a drawing.
#[derive(Clone, Copy, Debug, Default)]
pub struct Heading<'a> {
    pub title: &'a str,
    /// The verdict in words, if the plan was judged.
    pub verdict: Option<&'a str>,
}

/// Draws a plan; the steps of a trail, if any, are numbered where they go.
pub fn draw(plan: &Plan, heading: &Heading, trail: Option<&[Step]>) -> String {
    Drawing::new(plan, trail).svg(heading)
}

/// The layout of a plan's drawing, for a look at its boxes.
pub fn layout_of(plan: &Plan, trail: Option<&[Step]>) -> Layout {
    Drawing::new(plan, trail).layout
}

struct Drawing<'a> {
    plan: &'a Plan,
    story: Story,
    marks: Marks,
    boxes: Vec<Vec<Line>>,
    labels: Vec<Vec<Line>>,
    layout: Layout,
}

impl<'a> Drawing<'a> {
    fn new(plan: &'a Plan, trail: Option<&[Step]>) -> Drawing<'a> {
        let story = Story::of(trail.unwrap_or(&[]));
        let marks = marks_of(plan, &story);
        let boxes: Vec<Vec<Line>> = (0..plan.locations.len())
            .map(|at| location_lines(plan, at, &marks.locations[at]))
            .collect();
        let labels: Vec<Vec<Line>> = (0..plan.edges.len())
            .map(|at| edge_lines(plan, at, &marks.edges[at]))
            .collect();
        let edges = plan.edges.iter().zip(&labels);
        let sketch = Sketch {
            locations: boxes.iter().map(|lines| size(lines, PADDING)).collect(),
            edges: edges
                .map(|(edge, lines)| SketchEdge {
                    from: edge.from,
                    to: edge.to,
                    label: size(lines, LABEL_PADDING),
                })
                .collect(),
        };
        let layout = layout(&sketch);
        Drawing {
            plan,
            story,
            marks,
            boxes,
            labels,
            layout,
        }
    }

    fn svg(mut self, heading: &Heading) -> String {
        let bounds = self.layout.bounds();
        let inner = bounds.width.max(TEXT_WIDTH);
        let above = self.heading(heading, inner);
        let told = loops_told(self.plan, &self.story, inner);
        let signs = legend(self.plan, &self.marks, &self.story, inner);

        let top = MARGIN + extent(&above).1 + LINE;
        let bottom = top + bounds.height + 1.5 * LINE;
        let left = MARGIN + (inner - bounds.width) / 2.0;
        let shift = Point::new(left - bounds.left, top - bounds.top);
        self.layout = self.layout.moved(shift);

        let mut svg = Svg::new();
        column(&mut svg, &above, Point::new(MARGIN, MARGIN));
        (0..self.plan.edges.len()).for_each(|at| self.edge_curve(&mut svg, at));
        (0..self.plan.edges.len()).for_each(|at| self.edge_label(&mut svg, at));
        (0..self.plan.locations.len()).for_each(|at| self.location(&mut svg, at));
        let end = listed(&mut svg, &told, Point::new(MARGIN, bottom));
        let gap = if told.is_empty() { 0.0 } else { LINE };
        let end = listed(&mut svg, &signs, Point::new(MARGIN, end + gap));
        let shows = format!("drawing of the plan {}", heading.title);
        svg.finished(inner + 2.0 * MARGIN, end + MARGIN, &shows)
    }

    fn heading(&self, heading: &Heading, width: f64) -> Vec<Line> {
        let plural = if self.plan.clocks.len() == 1 { "" } else { "s" };
        let clocks = self.plan.clocks.join(", ");
        let mark = match self.plan.mark {
            EDGES_MARK => format!("; mark {EDGES_MARK}"),
            _ => String::new(),
        };
        let about = format!(
            "clock{plural} {clocks}; ceiling {}{mark}",
            self.plan.ceiling
        );
        let verdict = heading.verdict.map(|verdict| large(verdict, PLAIN));
        let lines = [bold(heading.title, PLAIN)]
            .into_iter()
            .chain(verdict)
            .chain([plain(&about, FAINT)]);
        lines.flat_map(|line| line.wrapped(width)).collect()
    }

    fn edge_curve(&self, svg: &mut Svg, at: usize) {
        let curve = &self.layout.curves[at];
        let how = match stroke_of(&self.marks.edges[at]) {
            Stroke::Plain if !self.plan.opens_alone(&self.plan.edges[at]) => Stroke::Shut,
            stroke => stroke,
        };
        let title = self.plan.shut_words(at);
        let title = title.unwrap_or_else(|| self.plan.edge_title(at));
        svg.group(&title, |svg| {
            for style in stroke(how) {
                svg.curve(curve, &style);
            }
            svg.arrow(curve.0[3], curve.arrival(), ARROW, how.colour());
        });
    }

    fn edge_label(&self, svg: &mut Svg, at: usize) {
        let frame = &self.layout.labels[at];
        let style = format!("fill=\"{WHITE}\" stroke=\"#dddddd\"");
        svg.frame(frame, 4.0, &style);
        centred(svg, &self.labels[at], frame);
    }

    fn location(&self, svg: &mut Svg, at: usize) {
        let frame = &self.layout.locations[at];
        let (fill, stroke, width) = match (self.plan.locations[at].forbidden, self.plan.start == at)
        {
            (true, _) => (FORBIDDEN_GROUND, FORBIDDEN, 2.5),
            (_, true) => (START_GROUND, START, 2.5),
            _ => (PLAIN_GROUND, PLAIN, 1.3),
        };
        svg.group(&format!("location {at} {}", self.plan.quoted(at)), |svg| {
            svg.frame(
                frame,
                9.0,
                &format!("fill=\"{fill}\" stroke=\"{stroke}\" stroke-width=\"{width}\""),
            );
            if self.plan.locations[at].forbidden {
                // A second rim, so that the mark does not hang on colour alone.
                svg.frame(
                    &frame.grown(-4.0),
                    6.0,
                    &format!("fill=\"none\" stroke=\"{stroke}\""),
                );
            }
            centred(svg, &self.boxes[at], frame);
        });
    }
}

/// How an edge is drawn.
#[derive(Clone, Copy, Debug, PartialEq, Eq)]
enum Stroke {
    Plain,
    /// It can never open.
    Shut,
    Trail,
    Loop,
    TrailAndLoop,
}

impl Stroke {
    fn colour(self) -> &'static str {
        match self {
            Stroke::Plain => PLAIN,
            Stroke::Shut => FAINT,
            Stroke::Trail | Stroke::TrailAndLoop => TRAIL,
            Stroke::Loop => LOOP,
        }
    }
}

fn stroke_of(mark: &Mark) -> Stroke {
    match (mark.on_trail(), mark.on_loop()) {
        (true, true) => Stroke::TrailAndLoop,
        (true, false) => Stroke::Trail,
        (false, true) => Stroke::Loop,
        (false, false) => Stroke::Plain,
    }
}

/// The styles that a line is drawn in, one over the other. Loops are dashed and
/// edges that can never open dotted, so that all are told apart without colours
/// too.
fn stroke(how: Stroke) -> Vec<String> {
    let line = |colour: &str, width: f64| format!("stroke=\"{colour}\" stroke-width=\"{width}\"");
    let dashed = |width: f64| line(LOOP, width) + " stroke-dasharray=\"8 4\"";
    match how {
        Stroke::Plain => vec![line(PLAIN, 1.3)],
        Stroke::Shut => vec![line(FAINT, 1.3) + " stroke-dasharray=\"2 4\""],
        Stroke::Trail => vec![line(TRAIL, 3.0)],
        Stroke::Loop => vec![dashed(3.0)],
        // The loop shows as a rim on both sides of the trail.
        Stroke::TrailAndLoop => vec![dashed(9.0), line(WHITE, 5.5), line(TRAIL, 3.0)],
    }
}

/// Entries below each other; where they end.
fn listed(svg: &mut Svg, entries: &[Entry], at: Point) -> f64 {
    let mut top = at.y;
    for entry in entries {
        entry.draw(svg, Point::new(at.x, top));
        top += entry.height();
    }
    top
}

/// The box of these lines with some padding.
fn size(lines: &[Line], padding: f64) -> (f64, f64) {
    let (width, height) = extent(lines);
    (width + 2.0 * padding + 4.0, height + 2.0 * padding)
}

fn location_lines(plan: &Plan, at: usize, mark: &Mark) -> Vec<Line> {
    let location = &plan.locations[at];
    let mut lines = vec![bold(&location.name, PLAIN)];
    if plan.start == at {
        lines.insert(0, bold("▶ start", START));
    }
    if location.forbidden {
        lines.push(bold("forbidden", FORBIDDEN));
    }
    lines.extend(stay_lines(plan, at));
    lines.extend(mark_lines(mark, "wait"));
    lines
}

/// The stay limits that hold; what tells those of the last edge apart stands
/// below them, so that no box becomes wider by it.
fn stay_lines(plan: &Plan, at: usize) -> Vec<Line> {
    let stay = |limits: &String| plain(&format!("stay {}", pretty(limits)), PLAIN);
    let written = broken(&plan.stay_words(at));
    let by_edges = broken(&plan.last_edge_words(at));
    let by_edges = by_edges
        .iter()
        .flat_map(|limits| [stay(limits), plain(BY_LAST_EDGE, PLAIN)]);
    written.iter().map(stay).chain(by_edges).collect()
}

fn edge_lines(plan: &Plan, at: usize, mark: &Mark) -> Vec<Line> {
    let edge = &plan.edges[at];
    let mut lines = vec![bold(&edge_name(plan, at), FAINT)];
    if !plan.opens_alone(edge) {
        lines.push(plain("never opens", FAINT));
    }
    let guard = broken(&plan.guard_words(edge));
    lines.extend(guard.iter().map(|line| plain(&pretty(line), PLAIN)));
    if guard.is_empty() {
        lines.push(plain("any time", PLAIN));
    }
    let names: Vec<String> = plan
        .reset_names(edge)
        .iter()
        .map(|name| name.to_string())
        .collect();
    for part in broken(&names) {
        lines.push(plain(&format!("reset {part}"), START));
    }
    lines.extend(mark_lines(mark, "step"));
    lines
}

/// The numbers of the steps that pass here, in their order, and the loops.
fn mark_lines(mark: &Mark, steps: &str) -> Vec<Line> {
    let mut notes = vec![
        (mark.steps.first(), numbered(steps, &mark.steps)),
        (mark.faces.first(), numbered("rim", &mark.faces)),
    ];
    for (steps, number) in &mark.drifts {
        let mut lines = numbered("drift", steps);
        lines.push(bold(&format!("round {}", loop_name(*number)), LOOP));
        notes.push((steps.first(), lines));
    }
    notes.sort_by_key(|(first, _)| *first);
    let names = mark.loops.iter().map(|&number| loop_name(number));
    let loops = names.map(|name| bold(&name, LOOP));
    notes
        .into_iter()
        .flat_map(|(_, lines)| lines)
        .chain(loops)
        .collect()
}

fn numbered(what: &str, numbers: &[usize]) -> Vec<Line> {
    if numbers.is_empty() {
        return Vec::new();
    }
    let words = numbers_words(numbers);
    let parts: Vec<String> = words.split(", ").map(str::to_string).collect();
    let mut lines = broken(&parts);
    lines[0] = format!("{what} {}", lines[0]);
    lines.iter().map(|line| bold(line, TRAIL)).collect()
}

/// Parts joined by commas into lines that are not too long.
fn broken(parts: &[String]) -> Vec<String> {
    let mut lines: Vec<String> = Vec::new();
    for part in parts {
        match lines.last_mut() {
            Some(line) if line.chars().count() + part.chars().count() + 2 <= WIDEST - 8 => {
                *line += &format!(", {part}")
            }
            _ => lines.push(part.clone()),
        }
    }
    lines
}

/// Comparisons as they are written by hand.
fn pretty(words: &str) -> String {
    words.replace("<=", "≤").replace(">=", "≥")
}
