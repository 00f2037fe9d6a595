//! Whether perfect clocks enter a forbidden location too.
//!
//! The proved call for the least time, asked for each of them, says whether
//! and how soon. With perfect clocks a run goes by time and jump steps alone; a
//! search that is not proved finds such a trail, to be told and drawn, and the
//! proved check then says that it is one.

use crate::facts::{Perfect, Soonest};
use crate::library::Library;
use crate::source::Accepted;
use drift::Kind;
use second::graph::{Graph, Step, JUMP};
use second::trail::{spell_trail, TrailStep};
use std::collections::VecDeque;

/// What perfect clocks do in a plan; an error if the search and the proved
/// answers disagree.
pub fn perfect(library: &mut Library, accepted: &Accepted) -> Result<Perfect, String> {
    let soonest = soonest_forbidden(library, accepted)?;
    let trail = trail_without_drift(library, accepted)?;
    agreed(soonest, trail).map_err(str::to_string)
}

fn agreed(soonest: Option<Soonest>, trail: Option<Vec<u8>>) -> Result<Perfect, &'static str> {
    match (soonest, trail) {
        (None, None) => Ok(Perfect::Clean),
        (Some(soonest), Some(trail)) => Ok(Perfect::FailsToo { trail, soonest }),
        (Some(_), None) => {
            Err("a forbidden location has a least time, but no trail of time and jump steps")
        }
        (None, Some(_)) => {
            Err("a trail of time and jump steps passes, but no forbidden location has a least time")
        }
    }
}

fn soonest_forbidden(
    library: &mut Library,
    accepted: &Accepted,
) -> Result<Option<Soonest>, String> {
    let Accepted { plan, model } = accepted;
    let mut found = Vec::new();
    for location in (0..plan.locations.len()).filter(|&at| plan.locations[at].forbidden) {
        let units = library.soonest(model, location);
        let units = units.map_err(|refusal| refusal.to_string())?;
        found.extend(units.map(|units| Soonest { location, units }));
    }
    // The first of the least, so that of the lowest number.
    Ok(found.into_iter().min_by_key(|soonest| soonest.units))
}

/// The trail that a search finds, if it finds one, once the proved check has
/// passed it.
fn trail_without_drift(
    library: &mut Library,
    accepted: &Accepted,
) -> Result<Option<Vec<u8>>, String> {
    let graph = Graph::new(accepted.plan.model());
    let Some(steps) = way_to_forbidden(&graph) else {
        return Ok(None);
    };
    let trail = spell_trail(&graph, &steps);
    match library.check(&accepted.model, &trail) {
        Ok(Kind::Trail) => Ok(Some(trail)),
        answer => Err(format!("a trail of time and jump steps is {answer:?}")),
    }
}

/// The shortest way of time and jump steps from the start, breadth first.
fn way_to_forbidden(graph: &Graph) -> Option<Vec<TrailStep>> {
    let mut before: Vec<Option<(usize, Step)>> = vec![None; graph.states()];
    let mut seen = vec![false; graph.states()];
    let mut waiting = VecDeque::from([graph.start]);
    seen[graph.start] = true;
    while let Some(state) = waiting.pop_front() {
        if graph.is_forbidden(state) {
            return Some(way_back(&before, state));
        }
        for step in graph.steps(state) {
            let to = step.to as usize;
            if !seen[to] {
                seen[to] = true;
                before[to] = Some((state, *step));
                waiting.push_back(to);
            }
        }
    }
    None
}

fn way_back(before: &[Option<(usize, Step)>], mut state: usize) -> Vec<TrailStep> {
    let mut steps = Vec::new();
    while let Some((from, step)) = before[state] {
        steps.push(match step.kind {
            JUMP => TrailStep::Jump(step.edge.into()),
            _ => TrailStep::Time,
        });
        state = from;
    }
    steps.reverse();
    steps
}

#[cfg(test)]
mod tests {
    use super::*;

    #[test]
    fn disagreement_is_noticed() {
        let soonest = Soonest {
            location: 3,
            units: 2,
        };
        let trail = vec![2, 0];
        assert_eq!(agreed(None, None), Ok(Perfect::Clean));
        let both = agreed(Some(soonest), Some(trail.clone()));
        assert!(matches!(both, Ok(Perfect::FailsToo { .. })));
        assert!(agreed(Some(soonest), None).is_err());
        assert!(agreed(None, Some(trail)).is_err());
    }
}
