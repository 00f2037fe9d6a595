//! Places for the locations, edges and labels of a drawing: locations on an
//! ellipse, parallel edges fanned out, loops as petals outward, each label on
//! its own edge. Drawings of several shapes grow until nothing overlaps, and
//! the one that is read best on a page is taken.

mod labels;

use crate::curve::{Curve, Frame, Point, Track};
use labels::Labels;
use std::f64::consts::PI;

/// What is to be placed: sizes of locations, ends and label sizes of edges.
#[derive(Clone, Debug)]
pub struct Sketch {
    pub locations: Vec<(f64, f64)>,
    pub edges: Vec<SketchEdge>,
}

#[derive(Clone, Copy, Debug)]
pub struct SketchEdge {
    pub from: usize,
    pub to: usize,
    pub label: (f64, f64),
}

#[derive(Clone, Debug)]
pub struct Layout {
    pub locations: Vec<Frame>,
    /// The visible part of each edge, and its label.
    pub curves: Vec<Curve>,
    pub labels: Vec<Frame>,
}

/// The free room kept around labels and locations.
pub const GAP: f64 = 6.0;
/// The length of an arrowhead; no label may cover one.
pub const ARROW: f64 = 12.0;
/// Width and height that a page of A4 leaves to a drawing at full size, its
/// heading and legend taken off.
const ROOM: (f64, f64) = (632.0, 760.0);
/// Shapes to try: heights of the ellipse against its width, and how far apart
/// parallel edges run, in labels.
const SLOPES: [f64; 4] = [0.7, 0.5, 1.0, 1.4];
const SPREADS: [f64; 3] = [0.5, 0.75, 1.0];
/// The scale of the first try, and how much larger each next one is.
const SMALLEST: f64 = 0.5;
const GROWTH: f64 = 1.08;
const MOST_TRIES: i32 = 50;
/// What it costs that a foreign edge runs under a label, that edges are short,
/// and that a drawing which fits is larger; in shares of the room.
const COVERED: f64 = 0.05;
const SHORT: f64 = 0.1;
const LARGER: f64 = 0.001;
/// From this scale on edges are not short.
const AMPLE: f64 = 1.4;

/// The measures of a try.
#[derive(Clone, Copy, Debug)]
struct Measures {
    scale: f64,
    slope: f64,
    spread: f64,
}

impl Measures {
    fn of(attempt: i32, slope: f64, spread: f64) -> Measures {
        Measures {
            scale: SMALLEST * GROWTH.powi(attempt),
            slope,
            spread,
        }
    }
}

pub fn layout(sketch: &Sketch) -> Layout {
    let mut tries = Tries {
        sketch,
        order: best_order(sketch),
        best: None,
    };
    for slope in SLOPES {
        for spread in SPREADS {
            tries.grow(slope, spread);
        }
    }
    let Tries { order, best, .. } = tries;
    best.map_or_else(
        || {
            let largest = Measures::of(MOST_TRIES, SLOPES[0], SPREADS[0]);
            place(sketch, &order, largest).labelled(sketch)
        },
        |(_, placed)| placed,
    )
}

/// Drawings of one sketch, and the best so far with its cost.
struct Tries<'a> {
    sketch: &'a Sketch,
    order: Vec<usize>,
    best: Option<(f64, Layout)>,
}

impl Tries<'_> {
    /// Tries drawings of one shape, until larger ones cannot be better.
    fn grow(&mut self, slope: f64, spread: f64) {
        for attempt in 0..MOST_TRIES {
            let measures = Measures::of(attempt, slope, spread);
            let bare = place(self.sketch, &self.order, measures);
            let least = bare.page_cost();
            if self.best.as_ref().is_some_and(|(cost, _)| *cost <= least) {
                return;
            }
            if bare.is_clear() {
                self.judge(bare.labelled(self.sketch), measures.scale);
            }
        }
    }

    /// Keeps a drawing in which nothing overlaps, if it is the best so far.
    fn judge(&mut self, placed: Layout, scale: f64) {
        let Some(covered) = placed.covered() else {
            return;
        };
        let short = SHORT * (AMPLE - scale).max(0.0);
        let cost = placed.page_cost() * (1.0 + COVERED * covered as f64 + short);
        if self.best.as_ref().is_none_or(|(least, _)| cost < *least) {
            self.best = Some((cost, placed));
        }
    }
}

/// The order of the locations along the ellipse with the fewest crossings,
/// then the shortest edges; the first location stays first.
fn best_order(sketch: &Sketch) -> Vec<usize> {
    let mut pairs: Vec<(usize, usize)> = sketch
        .edges
        .iter()
        .map(|edge| (edge.from.min(edge.to), edge.from.max(edge.to)))
        .collect();
    pairs.retain(|(from, to)| from != to);
    let mut order: Vec<usize> = (0..sketch.locations.len()).collect();
    let mut best = (cost(&pairs, &order), order.clone());
    permute(&mut order, 1, &mut |order| {
        let cost = cost(&pairs, order);
        if cost < best.0 {
            best = (cost, order.to_vec());
        }
    });
    best.1
}

/// Shows all orders of the entries from `first` on.
fn permute(order: &mut Vec<usize>, first: usize, show: &mut dyn FnMut(&[usize])) {
    if first + 1 >= order.len() {
        show(order);
        return;
    }
    for at in first..order.len() {
        order.swap(first, at);
        permute(order, first + 1, show);
        order.swap(first, at);
    }
}

fn cost(pairs: &[(usize, usize)], order: &[usize]) -> usize {
    let count = order.len();
    let mut place = [0; second::limits::MAX_LOCATIONS];
    order
        .iter()
        .enumerate()
        .for_each(|(at, &location)| place[location] = at);
    let chord =
        |&(from, to): &(usize, usize)| (place[from].min(place[to]), place[from].max(place[to]));
    let mut crossings = 0;
    let mut length = 0;
    for (at, pair) in pairs.iter().enumerate() {
        let (low, high) = chord(pair);
        length += (high - low).min(count + low - high);
        let inside = |end: usize| low < end && end < high;
        let outside = |end: usize| end < low || high < end;
        crossings += pairs[..at]
            .iter()
            .map(chord)
            .filter(|&(one, other)| {
                (inside(one) && outside(other)) || (outside(one) && inside(other))
            })
            .count();
    }
    crossings * 100 + length
}

/// Locations and edges; the labels come last.
fn place(sketch: &Sketch, order: &[usize], measures: Measures) -> Layout {
    let (locations, angles) = place_locations(sketch, order, measures);
    let curves: Vec<Curve> = whole_curves(sketch, &locations, &angles, measures)
        .iter()
        .zip(&sketch.edges)
        .map(|(curve, edge)| curve.outside(&locations[edge.from], &locations[edge.to]))
        .collect();
    Layout {
        locations,
        curves,
        labels: Vec::new(),
    }
}

/// Frames on an ellipse, and the direction outward of each.
fn place_locations(sketch: &Sketch, order: &[usize], measures: Measures) -> (Vec<Frame>, Vec<f64>) {
    let count = order.len();
    let mut frames = vec![Frame::around(Point::new(0.0, 0.0), 0.0, 0.0); count];
    let mut angles = vec![-PI / 2.0; count];
    let widest = sketch
        .locations
        .iter()
        .fold(0.0, |widest: f64, size| widest.max(size.0));
    let tallest = sketch
        .locations
        .iter()
        .fold(0.0, |tallest: f64, size| tallest.max(size.1));
    let steps = count as f64 / 5.0;
    let across = measures.scale * (widest * 0.9 + 60.0) * steps.max(1.0);
    let down = measures.scale * (tallest + 60.0) * steps.max(1.0);
    for (at, &location) in order.iter().enumerate() {
        // Two locations may stand side by side, more of them begin at the top.
        let beside = count == 2 && measures.slope < 1.0;
        let first = if beside { PI } else { -PI / 2.0 };
        let angle = first + 2.0 * PI * at as f64 / count as f64;
        let (across, down) = if count == 1 {
            (0.0, 0.0)
        } else {
            (across, down.max(across * measures.slope))
        };
        let centre = Point::new(across * angle.cos(), down * angle.sin());
        let (width, height) = sketch.locations[location];
        frames[location] = Frame::around(centre, width, height);
        angles[location] = if count == 1 {
            -PI / 2.0
        } else {
            centre.y.atan2(centre.x)
        };
    }
    (frames, angles)
}

/// The edges from centre to centre.
fn whole_curves(
    sketch: &Sketch,
    locations: &[Frame],
    angles: &[f64],
    measures: Measures,
) -> Vec<Curve> {
    let all = sketch.edges.iter().enumerate();
    all.map(|(at, edge)| {
        let alike = parallel(sketch, at);
        let slot = alike.iter().position(|&other| other == at);
        let slot = slot.expect("an edge is parallel to itself");
        let middle = slot as f64 - (alike.len() as f64 - 1.0) / 2.0;
        if edge.from == edge.to {
            let around = if locations.len() == 1 { 2.0 * PI } else { PI };
            let apart = (around / alike.len() as f64).min(0.8);
            let angle = angles[edge.from] + middle * apart;
            petal(&locations[edge.from], angle, apart, measures.scale)
        } else {
            let label = label_across(sketch, locations, edge, &alike);
            let bend = middle * (measures.spread * label + 2.0 * GAP);
            fanned(locations, edge, bend)
        }
    })
    .collect()
}

/// The edges between the same two locations as this one: those one way first,
/// then those the other way.
fn parallel(sketch: &Sketch, edge: usize) -> Vec<usize> {
    let ends = |at: usize| {
        let SketchEdge { from, to, .. } = sketch.edges[at];
        (from.min(to), from.max(to))
    };
    let all = 0..sketch.edges.len();
    let mut alike: Vec<usize> = all.filter(|&other| ends(other) == ends(edge)).collect();
    alike.sort_by_key(|&other| (sketch.edges[other].from, other));
    alike
}

/// How far the largest label of parallel edges reaches across them.
fn label_across(sketch: &Sketch, locations: &[Frame], edge: &SketchEdge, alike: &[usize]) -> f64 {
    let way = locations[edge.to]
        .centre()
        .minus(locations[edge.from].centre());
    let (along_x, along_y) = (
        way.x.abs() / way.length().max(1.0),
        way.y.abs() / way.length().max(1.0),
    );
    let extents = alike.iter().map(|&other| {
        let (width, height) = sketch.edges[other].label;
        along_y * width + along_x * height
    });
    extents.fold(0.0, f64::max)
}

/// A loop that leaves its location in a direction and comes back.
fn petal(location: &Frame, angle: f64, apart: f64, scale: f64) -> Curve {
    let centre = location.centre();
    let length = location.width.min(location.height * 2.0) / 2.0 + 75.0 * scale;
    let half = (apart * 0.45).clamp(0.12, 0.36);
    let handle = |angle| centre.towards(angle, length * 4.0 / 3.0);
    Curve([centre, handle(angle - half), handle(angle + half), centre])
}

/// An edge bent sideways by so much at its middle, seen from the lower number.
fn fanned(locations: &[Frame], edge: &SketchEdge, bend: f64) -> Curve {
    let (from, to) = (locations[edge.from].centre(), locations[edge.to].centre());
    let way = to.minus(from);
    let sign = if edge.from < edge.to { 1.0 } else { -1.0 };
    let side = Point::new(-way.y, way.x);
    let push = sign * bend * 4.0 / 3.0 / way.length().max(1.0);
    let handle = |share: f64| from.plus(way, share).plus(side, push);
    Curve([from, handle(0.3), handle(0.7), to])
}

fn arrow_frame(curve: &Curve) -> Frame {
    let tip = curve.0[3];
    Frame::around(tip.towards(curve.arrival(), -ARROW / 2.0), ARROW, ARROW)
}

impl Layout {
    fn labelled(mut self, sketch: &Sketch) -> Layout {
        self.labels = Labels::new(sketch, &self.locations, &self.curves).settled();
        self
    }

    /// The share of a page's room that the drawing takes, if that is more than
    /// there is: so much smaller must its letters be.
    fn page_cost(&self) -> f64 {
        let bounds = self.bounds();
        let share = (bounds.width / ROOM.0).max(bounds.height / ROOM.1);
        share.max(1.0) + LARGER * share
    }

    /// How many times a foreign edge runs under a label, if nothing overlaps
    /// that must not: labels, locations, arrowheads, edges through locations.
    pub fn covered(&self) -> Option<usize> {
        if !self.is_clear() {
            return None;
        }
        let tracks: Vec<Track> = self.curves.iter().map(Curve::track).collect();
        let foreign = |edge: usize| {
            let others = tracks.iter().enumerate();
            others
                .filter(|(other, track)| *other != edge && track.runs_through(&self.labels[edge]))
                .count()
        };
        Some((0..self.labels.len()).map(foreign).sum())
    }

    fn is_clear(&self) -> bool {
        let mut frames = self.locations.clone();
        frames.extend(&self.labels);
        let apart = frames
            .iter()
            .enumerate()
            .all(|(at, frame)| !frames[..at].iter().any(|other| other.overlaps(frame)));
        let arrows: Vec<Frame> = self.curves.iter().map(arrow_frame).collect();
        let heads_free = self
            .labels
            .iter()
            .all(|label| !arrows.iter().any(|arrow| arrow.overlaps(label)));
        apart && heads_free && self.passes_locations()
    }

    /// Whether no edge runs through a location on its way. An edge that is
    /// clipped at its own two locations touches only their borders.
    fn passes_locations(&self) -> bool {
        self.curves.iter().all(|curve| {
            let points = curve.points();
            let inner = &points[2..points.len() - 2];
            !self
                .locations
                .iter()
                .any(|location| inner.iter().any(|point| location.contains(*point)))
        })
    }

    /// The frame around everything.
    pub fn bounds(&self) -> Frame {
        let curves = self.curves.iter().map(|curve| curve.track().around);
        let frames = self.locations.iter().chain(&self.labels).copied();
        frames
            .chain(curves)
            .reduce(|all, frame| all.joined(&frame))
            .expect("a plan has a location")
    }

    pub fn moved(mut self, by: Point) -> Layout {
        let shift = |frame: &mut Frame| {
            frame.left += by.x;
            frame.top += by.y;
        };
        self.locations
            .iter_mut()
            .chain(&mut self.labels)
            .for_each(shift);
        let points = self.curves.iter_mut().flat_map(|curve| curve.0.iter_mut());
        points.for_each(|point| *point = point.plus(by, 1.0));
        self
    }
}
