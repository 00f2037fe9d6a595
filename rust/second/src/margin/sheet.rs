//! The margin of a sheet: twice the visits of the longest walk just outside
//! its in-states, and the clocks.

use crate::components::Components;
use crate::graph::{Graph, JUMP};
use crate::marking::CornerNotes;

/// The margin of a passing sheet with these states in.
pub fn by_sheet(graph: &Graph, components: &Components, is_in: &[bool]) -> u32 {
    let fringe = fringe(graph, is_in);
    let visits = most_visits(graph, components, &fringe);
    (2 * visits).max(1) + graph.model.clocks as u32
}

/// Which states are out and share a corner with an in-state of their location.
fn fringe(graph: &Graph, is_in: &[bool]) -> Vec<bool> {
    let mut noted = CornerNotes::new(graph);
    for state in (0..graph.states()).filter(|&state| is_in[state]) {
        noted.note(graph, state);
    }
    let touches = |state| graph.allowed[state] && noted.has_any(graph, state);
    (0..graph.states())
        .map(|state| !is_in[state] && touches(state))
        .collect()
}

/// The most visits of locations by a walk of time and jump steps within the
/// fringe: one more than its jumps, and 0 where the fringe is empty.
fn most_visits(graph: &Graph, components: &Components, fringe: &[bool]) -> u32 {
    // Each step from a fringe state lowers the height, so that no walk returns
    // to it: it is a component of its own, numbered after those it leads to.
    let mut in_order = vec![None; graph.states()];
    for state in (0..graph.states()).filter(|&state| fringe[state]) {
        in_order[components.of[state] as usize] = Some(state);
    }
    let mut visits = vec![0; graph.states()];
    for state in in_order.into_iter().flatten() {
        let steps = graph.steps(state).iter();
        let longest = steps
            .filter(|step| fringe[step.to as usize])
            .map(|step| visits[step.to as usize] + u32::from(step.kind == JUMP))
            .max();
        visits[state] = longest.unwrap_or(1);
    }
    visits.into_iter().max().unwrap_or(0)
}
