//! Labels looking for free places on their curves.

use super::{arrow_frame, Sketch, GAP};
use crate::curve::{Curve, Frame, Track};

/// The labels of a drawing whose locations and curves stand.
pub struct Labels<'a> {
    sketch: &'a Sketch,
    tracks: Vec<Track>,
    /// What no label may cover: locations and arrowheads.
    taken: Vec<Frame>,
    /// Per edge the places that are free of those, with how good they are.
    places: Vec<Vec<(f64, Frame)>>,
}

/// Places tried along a curve.
const PLACES: usize = 48;
const ROUNDS: usize = 12;

impl<'a> Labels<'a> {
    pub fn new(sketch: &'a Sketch, locations: &[Frame], curves: &[Curve]) -> Labels<'a> {
        let arrows = curves.iter().map(arrow_frame);
        let taken = locations.iter().copied().chain(arrows).collect();
        let tracks = curves.iter().map(Curve::track).collect();
        let mut labels = Labels {
            sketch,
            tracks,
            taken,
            places: Vec::new(),
        };
        labels.places = (0..curves.len())
            .map(|edge| labels.places_of(edge, &curves[edge]))
            .collect();
        labels
    }

    /// The places of a label without regard to other labels, best first.
    fn places_of(&self, edge: usize, curve: &Curve) -> Vec<(f64, Frame)> {
        let (width, height) = self.sketch.edges[edge].label;
        let mut places: Vec<(f64, Frame)> = (1..PLACES)
            .map(|at| {
                let t = at as f64 / PLACES as f64;
                let frame = Frame::around(curve.at(t), width, height);
                let roomy = frame.grown(GAP);
                let blocked = self
                    .taken
                    .iter()
                    .filter(|taken| taken.overlaps(&roomy))
                    .count();
                let cost = 1000.0 * blocked as f64
                    + 20.0 * self.crossing(edge, &frame) as f64
                    + (t - 0.5).abs() * 10.0;
                (cost, frame)
            })
            .collect();
        places.sort_by(|one, other| one.0.total_cmp(&other.0));
        places
    }

    /// How many other edges run through a frame.
    fn crossing(&self, edge: usize, frame: &Frame) -> usize {
        let others = self.tracks.iter().enumerate();
        others
            .filter(|(other, track)| *other != edge && track.runs_through(frame))
            .count()
    }

    /// Each label in turn takes its best place, until none wants to move.
    pub fn settled(&self) -> Vec<Frame> {
        let mut chosen: Vec<Frame> = self.places.iter().map(|places| places[0].1).collect();
        for _ in 0..ROUNDS {
            let before = chosen.clone();
            for edge in 0..chosen.len() {
                chosen[edge] = self.best_place(edge, &chosen);
            }
            if chosen == before {
                break;
            }
        }
        chosen
    }

    fn best_place(&self, edge: usize, chosen: &[Frame]) -> Frame {
        let mut best = (f64::INFINITY, chosen[edge]);
        for (cost, frame) in &self.places[edge] {
            if *cost >= best.0 {
                break; // the rest is no better, whatever the labels do
            }
            let roomy = frame.grown(GAP);
            let others = chosen
                .iter()
                .enumerate()
                .filter(|(other, _)| *other != edge);
            let covered = others.filter(|(_, other)| other.overlaps(&roomy)).count();
            let cost = cost + 400.0 * covered as f64;
            if cost < best.0 {
                best = (cost, *frame);
            }
        }
        best.1
    }
}
