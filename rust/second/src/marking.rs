//! The marked set, the rounds in which it is found, and the distance of each
//! state from a forbidden location.
//!
//! Touch partners are found through the corners: a corner of a location is
//! noted once, and leads at once to all states there that have this corner.

use crate::components::Components;
use crate::graph::{Graph, Reversed};
use crate::regions::{point_number, POINTS};

pub const UNREACHED: u32 = u32::MAX;

/// Which steps to take, besides time and jump. A touch leads to a state on a closed
/// walk, so that touches need those to be known, and nothing else does.
#[derive(Clone, Copy)]
pub struct Closure<'a> {
    pub face: bool,
    pub touch: Option<&'a Components>,
}

/// The steps of the marked set.
pub fn with_touch(components: &Components) -> Closure<'_> {
    Closure {
        face: true,
        touch: Some(components),
    }
}

/// The steps of plans with a joint reset (request (g) of document 02): each closed
/// walk of steps passes a state whose clocks are all 0, so that what is touched is
/// marked without it.
pub const WITHOUT_TOUCH: Closure = Closure {
    face: true,
    touch: None,
};

/// A marking under way.
struct Marking<'a> {
    graph: &'a Graph,
    closure: Closure<'a>,
    marked: Vec<bool>,
    noted: CornerNotes,
}

impl<'a> Marking<'a> {
    /// The start is marked and no other state.
    fn new(graph: &'a Graph, closure: Closure<'a>) -> Marking<'a> {
        let mut marked = vec![false; graph.states()];
        marked[graph.start] = true;
        Marking {
            graph,
            closure,
            marked,
            noted: CornerNotes::new(graph),
        }
    }

    /// Marks every unmarked state that is one step from this one, and adds it
    /// to a list.
    fn go_over(&mut self, state: usize, newly: &mut Vec<usize>) {
        let graph = self.graph;
        let marked = &mut self.marked;
        let mut mark = |next: usize| {
            if graph.allowed[next] && !marked[next] {
                marked[next] = true;
                newly.push(next);
            }
        };
        for step in graph.steps(state) {
            mark(step.to as usize);
        }
        if self.closure.face {
            let base = graph.base_of(state);
            for face in &graph.regions.faces[graph.region_of(state)] {
                mark(base + face);
            }
        }
        if let Some(components) = self.closure.touch {
            self.noted.for_new_corners(graph, state, |near| {
                if components.on_cycle[near] {
                    mark(near);
                }
            });
        }
    }
}

/// The smallest set with the start that is closed under the chosen steps.
pub fn reached(graph: &Graph, closure: Closure) -> Vec<bool> {
    let mut marking = Marking::new(graph, closure);
    let mut waiting = vec![graph.start];
    while let Some(state) = waiting.pop() {
        marking.go_over(state, &mut waiting);
    }
    marking.marked
}

/// The same set by the rounds of request (d) of document 02: each level is what
/// one round goes over, and the next level what it marks. The round over the
/// last level marks nothing.
pub fn levels(graph: &Graph, closure: Closure) -> Vec<Vec<usize>> {
    let mut marking = Marking::new(graph, closure);
    let mut levels = Vec::new();
    let mut level = vec![graph.start];
    while !level.is_empty() {
        let mut next = Vec::new();
        for &state in &level {
            marking.go_over(state, &mut next);
        }
        levels.push(level);
        level = next;
    }
    levels
}

/// The marked set of document 01.
pub fn marked_set(graph: &Graph, components: &Components) -> Vec<bool> {
    reached(graph, with_touch(components))
}

/// Whether a forbidden location is among the marked states.
pub fn is_unsafe(graph: &Graph, marked: &[bool]) -> bool {
    (0..graph.states()).any(|state| marked[state] && graph.is_forbidden(state))
}

/// For each allowed state the fewest of the chosen steps to a forbidden location, by
/// a breadth-first search backward.
pub fn distance_to_forbidden(graph: &Graph, closure: Closure, reversed: &Reversed) -> Vec<u32> {
    let regions = graph.regions;
    let mut distance = vec![UNREACHED; graph.states()];
    let mut noted = CornerNotes::new(graph);
    let mut queue: Vec<usize> = (0..graph.states())
        .filter(|&state| graph.allowed[state] && graph.is_forbidden(state))
        .collect();
    for &state in &queue {
        distance[state] = 0;
    }
    let mut at = 0;
    let mut found = Vec::new();
    while at < queue.len() {
        let state = queue[at];
        at += 1;
        found.extend(reversed.sources(state).iter().map(|&from| from as usize));
        if closure.face {
            let base = graph.base_of(state);
            let cofaces = regions.cofaces[graph.region_of(state)].iter();
            found.extend(cofaces.map(|coface| base + coface));
        }
        if closure
            .touch
            .is_some_and(|components| components.on_cycle[state])
        {
            // Every state with one of these corners can touch this one.
            noted.for_new_corners(graph, state, |near| found.push(near));
        }
        for previous in found.drain(..) {
            if graph.allowed[previous] && distance[previous] == UNREACHED {
                distance[previous] = distance[state] + 1;
                queue.push(previous);
            }
        }
    }
    distance
}

/// The corners already seen, per location.
pub struct CornerNotes {
    seen: Vec<bool>,
}

impl CornerNotes {
    pub fn new(graph: &Graph) -> CornerNotes {
        CornerNotes {
            seen: vec![false; graph.model.locations.len() * POINTS],
        }
    }

    /// Notes the corners of a state; for each new one, hands out all states
    /// of the location that have it.
    pub fn for_new_corners(
        &mut self,
        graph: &Graph,
        state: usize,
        mut hand_out: impl FnMut(usize),
    ) {
        let regions = graph.regions;
        let base = graph.base_of(state);
        for corner in &regions.corners[graph.region_of(state)] {
            let point = point_number(corner);
            let seen = &mut self.seen[graph.location_of(state) * POINTS + point];
            if !*seen {
                *seen = true;
                for region in &regions.at_corner[point] {
                    hand_out(base + region);
                }
            }
        }
    }

    /// Notes the corners of a state.
    pub fn note(&mut self, graph: &Graph, state: usize) {
        for corner in &graph.regions.corners[graph.region_of(state)] {
            self.seen[graph.location_of(state) * POINTS + point_number(corner)] = true;
        }
    }

    /// Whether some corner of the state has been noted in its location.
    pub fn has_any(&self, graph: &Graph, state: usize) -> bool {
        graph.regions.corners[graph.region_of(state)]
            .iter()
            .any(|corner| self.seen[graph.location_of(state) * POINTS + point_number(corner)])
    }
}
