//! The least time from the start to a location with perfect clocks: request (e)
//! of document 02.
//!
//! Guards and stay limits are whole and not strict, so that moments of jumps
//! which keep them, made earliest first, are whole: runs on whole times tell the
//! least time of all. They stay in the states whose clocks have no fraction. Two
//! time steps make a unit between two of these; a jump takes no time.

use crate::graph::{Graph, TIME};

/// The units of the soonest run to this location; none if no run gets there.
pub fn least_time(graph: &Graph, location: usize) -> Option<u64> {
    let mut seen = vec![false; graph.states()];
    let mut time = 0;
    // All states that some run is in at this time are found before any later one.
    let mut now = vec![graph.start];
    while !now.is_empty() {
        let mut later = Vec::new();
        while let Some(state) = now.pop() {
            if graph.location_of(state) == location {
                return Some(time);
            }
            if std::mem::replace(&mut seen[state], true) {
                continue;
            }
            for step in graph.steps(state) {
                if step.kind == TIME {
                    later.extend(waited(graph, step.to as usize));
                } else {
                    now.push(step.to as usize);
                }
            }
        }
        now = later;
        time += 1;
    }
    None
}

/// Where time leads from a state.
fn waited(graph: &Graph, state: usize) -> Option<usize> {
    let mut steps = graph.steps(state).iter();
    let step = steps.find(|step| step.kind == TIME);
    step.map(|step| step.to as usize)
}

#[cfg(test)]
mod tests {
    use super::*;
    use crate::model::read_model;
    use crate::regions::Region;

    fn times(model: &[u8]) -> Vec<Option<u64>> {
        let graph = Graph::new(read_model(model).expect("an accepted model"));
        let locations = 0..graph.model.locations.len();
        locations.map(|at| least_time(&graph, at)).collect()
    }

    #[test]
    fn a_wait_and_a_jump() {
        // One clock, ceiling 2: an edge from 1 on, one at 2, none from the last.
        let edges = [0, 1, 0, 1, 2, 1, 2, 0, 2, 2];
        let plan = |limit: u8| {
            let header = [1, 1, 2, 4, 2, 0, 0, 0, 0, limit, 0, 0, 0, 0];
            times(&[&header, &edges[..]].concat())
        };
        assert_eq!(plan(0), [Some(0), Some(1), Some(2), None]);
        // With a limit of 1 one cannot wait for 2; with 0 one cannot enter.
        assert_eq!(plan(2), [Some(0), Some(1), None, None]);
        assert_eq!(plan(1), [Some(0), None, None, None]);
    }

    /// A unit leads from whole clocks to whole clocks, if it leads anywhere.
    #[test]
    fn two_time_steps_make_a_unit() {
        for (clocks, ceiling) in [(1, 4), (2, 3), (3, 2)] {
            let header = [1, clocks, ceiling, 1, 0, 0];
            let model = [&header[..], &vec![0; 1 + usize::from(clocks)]].concat();
            let graph = Graph::new(read_model(&model).expect("an accepted model"));
            for state in 0..graph.states() {
                let region = graph.regions.list[state];
                if region.top_rank() > 0 {
                    continue;
                }
                let raised = region.whole.map(|whole| whole + 1);
                let mut after = Region::ZERO;
                let own = usize::from(clocks);
                after.whole[..own].copy_from_slice(&raised[..own]);
                let unit = waited(&graph, state).and_then(|open| waited(&graph, open));
                let within = raised[..own].iter().all(|&whole| whole <= ceiling);
                assert_eq!(unit, within.then(|| graph.regions.index(&after)));
            }
        }
    }
}
