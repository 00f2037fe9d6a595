//! What stands below a drawing: the loops told, and what its signs mean.

use super::lines::{bold, column, extent, plain, Line};
use super::{stroke, Stroke};
use crate::curve::Point;
use crate::marks::Marks;
use crate::svg::{Svg, FAINT, LINE, LOOP, PLAIN, TRAIL};
use crate::tell::clock_words;
use crate::tell::story::{loop_name, loop_words, Event, Part, Story};
use crate::Plan;

/// The length of a sample of a line, and of the gap behind it.
const SAMPLE: f64 = 30.0;
const GAP: f64 = 8.0;

/// Lines of text, with a sample of the line that they speak of.
pub struct Entry {
    sample: Option<Stroke>,
    lines: Vec<Line>,
}

impl Entry {
    fn new(sample: Option<Stroke>, line: Line, width: f64) -> Entry {
        let taken = sample.map_or(0.0, |_| SAMPLE + GAP);
        Entry {
            sample,
            lines: line.wrapped(width - taken),
        }
    }

    pub fn height(&self) -> f64 {
        extent(&self.lines).1
    }

    pub fn draw(&self, svg: &mut Svg, at: Point) {
        let Some(sample) = self.sample else {
            return column(svg, &self.lines, at);
        };
        let middle = at.plus(Point::new(0.0, LINE / 2.0), 1.0);
        let ends = [middle, middle.plus(Point::new(SAMPLE, 0.0), 1.0)];
        for style in stroke(sample) {
            svg.line(&ends, &style);
        }
        let beside = at.plus(Point::new(SAMPLE + GAP, 0.0), 1.0);
        column(svg, &self.lines, beside);
    }
}

/// The loops of a trail, told one after the other.
pub fn loops_told(plan: &Plan, story: &Story, width: f64) -> Vec<Entry> {
    let told = story.parts.iter().filter_map(|part| {
        let Event::Drift { number, .. } = part.event else {
            return None;
        };
        let words = drift_words(plan, story, part, number);
        Some(Entry::new(Some(Stroke::Loop), bold(&words, LOOP), width))
    });
    told.collect()
}

fn drift_words(plan: &Plan, story: &Story, part: &Part, number: usize) -> String {
    format!(
        "{}, {}: {}; round this loop, a hair later each time, until the clocks stand so: {}",
        loop_name(number),
        part.steps_words(),
        loop_words(plan, &story.loops[number]),
        clock_words(plan, &part.to.region)
    )
}

/// What the signs of a drawing mean, those that are in it.
pub fn legend(plan: &Plan, marks: &Marks, story: &Story, width: f64) -> Vec<Entry> {
    let has_faces = marks.locations.iter().any(|mark| !mark.faces.is_empty());
    let shown = [
        (true, &OF_ALL[..]),
        (plan.has_last_edge_limits(), &OF_LAST_EDGES),
        (plan.has_shut_edges(), &OF_SHUT_EDGES),
        (!story.parts.is_empty(), &OF_TRAILS),
        (has_faces, &OF_FACES),
        (!story.loops.is_empty(), &OF_LOOPS),
    ];
    let signs = shown
        .iter()
        .filter(|(is_shown, _)| *is_shown)
        .flat_map(|(_, signs)| *signs);
    signs
        .map(|(sample, words, colour)| Entry::new(*sample, plain(words, colour), width))
        .collect()
}

/// A sample of the line, if the sign is one, its meaning and its colour.
type Sign = (Option<Stroke>, &'static str, &'static str);

const OF_ALL: [Sign; 2] = [
    (
        None,
        "▶ and thick green rim: the start; double red rim: forbidden",
        FAINT,
    ),
    (
        None,
        "a clock that an edge does not name may stand anywhere up to the ceiling",
        FAINT,
    ),
];

const OF_LAST_EDGES: [Sign; 1] = [(
    None,
    "(last edge): no limit is written, and with mark 2 that means until the last edge closes",
    FAINT,
)];

const OF_SHUT_EDGES: [Sign; 1] = [(
    Some(Stroke::Shut),
    "never opens: the edge needs a clock above a stay limit, where it leaves or where it leads",
    FAINT,
)];

const OF_TRAILS: [Sign; 1] = [(
    Some(Stroke::Trail),
    "the trail, a way to what is forbidden, with the numbers of its steps",
    TRAIL,
)];

const OF_FACES: [Sign; 1] = [(
    None,
    "rim: the clocks are within a hair of whole numbers and count as there",
    TRAIL,
)];

const OF_LOOPS: [Sign; 2] = [
    (
        Some(Stroke::Loop),
        "a loop: edges that lead round to where they began",
        LOOP,
    ),
    (
        None,
        "drift: no crystal keeps time exactly, so every limit gives way by a hair; each turn of \
         a loop adds a hair, and in the end the clocks can stand where perfect clocks never do",
        PLAIN,
    ),
];
