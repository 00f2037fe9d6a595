//! A run into a forbidden location, found along our trail: where the trail
//! touches a loop, the run goes round it until drift has carried it across.
//! The search is not proved; the run is an example and no more.

use crate::facts::{Example, Jump};
use crate::units::Drift;
use plan::trail::{Kind, Step};
use plan::Plan;
use second::widened::Runs;

/// The drift of an example is 1/q; this where the plan names no crystals.
const COARSE: u128 = 100;

/// Runs that are longer are not searched for.
const MOST_JUMPS: usize = 200_000;

/// A run along a trail at the drift of the plan's crystals, or a coarse one.
pub fn example(plan: &Plan, trail: &[Step]) -> Option<Example> {
    let drift = Drift::of(plan);
    let q = drift.map_or(COARSE, Drift::part);
    let model = plan.model();
    let runs = Runs::new(&model, 1, i64::try_from(q).ok()?);
    let parts = parts_of(trail);
    let turns = fewest_turns(&runs, &parts)?;
    let edges: Vec<usize> = unrolled(&parts, turns).collect();
    let moments = runs.moments(&edges)?;
    let jumps = edges.iter().zip(moments);
    Some(Example {
        e: 1,
        d: u64::try_from(q).ok()?,
        is_crystals: drift.is_some(),
        jumps: jumps
            .map(|(&edge, moment)| Jump {
                edge,
                moment: moment.unsigned_abs(),
            })
            .collect(),
    })
}

/// Edges of a trail, taken once or round and round.
enum Part {
    Once(usize),
    Loop(Vec<usize>),
}

fn parts_of(trail: &[Step]) -> Vec<Part> {
    let part = |step: &Step| match &step.kind {
        Kind::Jump(edge) => Some(Part::Once(*edge)),
        Kind::Touch(walk) => Some(Part::Loop(walk.iter().filter_map(edge_of).collect())),
        Kind::Time | Kind::Face => None,
    };
    trail.iter().filter_map(part).collect()
}

fn edge_of(step: &Step) -> Option<usize> {
    match step.kind {
        Kind::Jump(edge) => Some(edge),
        _ => None,
    }
}

/// The edges, with so many turns of each loop.
fn unrolled(parts: &[Part], turns: usize) -> impl Iterator<Item = usize> + '_ {
    parts.iter().flat_map(move |part| {
        let (edges, times) = match part {
            Part::Once(edge) => (std::slice::from_ref(edge), 1),
            Part::Loop(edges) => (&edges[..], turns),
        };
        std::iter::repeat_n(edges, times).flatten().copied()
    })
}

/// How many turns of each loop are enough, and one fewer is not.
fn fewest_turns(runs: &Runs, parts: &[Part]) -> Option<usize> {
    let is_enough = |turns: usize| runs.has_run(unrolled(parts, turns));
    let turn: usize = unrolled(parts, 1).count().max(1);
    let (mut few, mut enough) = (0, 1);
    while !is_enough(enough) {
        (few, enough) = (enough, 2 * enough);
        if enough * turn > MOST_JUMPS {
            return None;
        }
    }
    while enough - few > 1 {
        let middle = few + (enough - few) / 2;
        if is_enough(middle) {
            enough = middle;
        } else {
            few = middle;
        }
    }
    Some(enough)
}
