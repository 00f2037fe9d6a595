//! Harm within so many jumps, beyond document 01: how soon our trail of an
//! unsafe plan becomes a widened run.

use crate::graph::Graph;
use crate::trail::TrailStep;

/// For all e, D and q from 1 with D <= q*e, some widened run with drift e/D
/// and at most base + rate*q jumps enters a forbidden location.
#[derive(Clone, Copy, Debug, Default, PartialEq, Eq)]
pub struct Bound {
    pub base: u64,
    pub rate: u64,
}

impl Bound {
    /// The sums over the steps of a trail.
    pub fn of_trail(graph: &Graph, trail: &[TrailStep]) -> Bound {
        let mut sum = Bound::default();
        for step in trail {
            let part = Bound::of_step(graph, step);
            sum.base += part.base;
            sum.rate += part.rate;
        }
        sum
    }

    /// A jump is one jump of the run; a touch stands for rounds of its closed
    /// walk, more of them the slighter the drift is.
    fn of_step(graph: &Graph, step: &TrailStep) -> Bound {
        match step {
            TrailStep::Time | TrailStep::Face(_) => Bound::default(),
            TrailStep::Jump(_) => Bound { base: 1, rate: 0 },
            TrailStep::Touch(region, walk) => {
                let top = u64::from(graph.regions.list[*region].top_rank());
                let corners = top + 1;
                let jumps = jumps_of(walk);
                Bound {
                    base: 2 * top * jumps,
                    rate: corners * corners * jumps,
                }
            }
        }
    }
}

fn jumps_of(walk: &[TrailStep]) -> u64 {
    let is_jump = |step: &&TrailStep| matches!(step, TrailStep::Jump(_));
    walk.iter().filter(is_jump).count() as u64
}
