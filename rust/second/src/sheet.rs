//! Sheets: 1, then for each state in order 2h+i, with h its height and i = 1
//! for a state that is in.

use crate::components::Components;
use crate::graph::Graph;
use crate::marking::CornerNotes;
use crate::numbers::{push_number, shortest};

/// The number with which a sheet begins.
pub const SHEET: u32 = 1;

/// The greatest number in a sheet of so many states, the 1 at its front apart.
pub fn greatest_number(states: usize) -> u32 {
    2 * states as u32 - 1
}

/// The most bytes of a sheet of so many states that passes: the number in front
/// takes one, and no state's takes more than the greatest in its shortest form.
pub fn most_bytes(states: usize) -> usize {
    states * shortest(&[greatest_number(states)]).len() + 1
}

/// The sheet we write for a safe model: the marked set, with the heights
/// that the components give.
pub fn our_sheet(graph: &Graph, components: &Components, marked: &[bool]) -> Vec<u8> {
    let mut bytes = Vec::new();
    push_number(&mut bytes, SHEET);
    for state in 0..graph.states() {
        // A state not allowed has height 0 and is never marked.
        push_number(
            &mut bytes,
            2 * components.height[state] + u32::from(marked[state]),
        );
    }
    bytes
}

/// Whether the numbers of a sheet (each within its range, 0 where a state is
/// not allowed) keep all rules.
pub fn keeps_rules(graph: &Graph, numbers: &[u32]) -> bool {
    let is_in = |state: usize| numbers[state] & 1 == 1;
    let height = |state: usize| numbers[state] >> 1;

    if !is_in(graph.start) {
        return false;
    }
    let mut noted = CornerNotes::new(graph);
    for state in (0..graph.states()).filter(|&state| is_in(state)) {
        let base = graph.base_of(state);
        let faces = &graph.regions.faces[graph.region_of(state)];
        if graph.is_forbidden(state)
            || graph
                .steps(state)
                .iter()
                .any(|step| !is_in(step.to as usize))
            || faces
                .iter()
                .any(|face| graph.allowed[base + face] && !is_in(base + face))
        {
            return false;
        }
        noted.note(graph, state);
    }
    (0..graph.states()).all(|state| {
        // A loop that an in-state touches must not hide among the out-states.
        let touching = !is_in(state) && noted.has_any(graph, state);
        graph.steps(state).iter().all(|step| {
            let (here, there) = (height(state), height(step.to as usize));
            if touching {
                there < here
            } else {
                there <= here
            }
        })
    })
}
