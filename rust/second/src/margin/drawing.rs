//! The margin by the drawing: from its definition in crates/robust/specs,
//! which docs/DRIFT.md tells in words.

use crate::model::{Edge, Model};

/// Twice the entries at halves of a unit, and the clocks.
pub fn by_drawing(model: &Model) -> usize {
    let entries = (0..model.locations.len()).map(|location| entries_of(model, location));
    2 * entries.sum::<usize>() + model.clocks
}

/// The ways to enter a location with all clocks at halves of a unit: by the
/// start and its edges, but never more than it has such points.
fn entries_of(model: &Model, location: usize) -> usize {
    let edges = model.edges.iter().filter(|edge| edge.to == location);
    let by_edges: usize = edges.map(|edge| entries_by(model, edge)).sum();
    let by_start = usize::from(location == model.start);
    let points = half_points(model, |clock| model.locations[location].limit[clock]);
    points.min(by_start + by_edges)
}

/// What a jump leaves: 0 at a clock that it resets, elsewhere at most its
/// high and the limits of both locations.
fn entries_by(model: &Model, edge: &Edge) -> usize {
    half_points(model, |clock| {
        if edge.resets >> clock & 1 == 1 {
            return 0;
        }
        let limit = |location: usize| model.locations[location].limit[clock];
        edge.high[clock].min(limit(edge.from)).min(limit(edge.to))
    })
}

/// Points with a limit for each clock, in steps of a half from 0.
fn half_points(model: &Model, limit: impl Fn(usize) -> u8) -> usize {
    let values = (0..model.clocks).map(|clock| 2 * usize::from(limit(clock)) + 1);
    values.product()
}
