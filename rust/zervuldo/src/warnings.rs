//! Where 'safe' could mislead.

use crate::facts::Warning;
use crate::library::entered;
use plan::tell::region_words;
use plan::{Edge, Plan};
use second::graph::Graph;

impl Warning {
    /// Whether the proved marks say so; else code that is not proved does.
    pub fn is_proved(&self) -> bool {
        match self {
            Warning::NothingForbidden
            | Warning::SafeByMark
            | Warning::AcceptedByMark
            | Warning::NeverEntered { .. } => true,
            Warning::NeverOpens { .. } | Warning::Stuck { .. } => false,
        }
    }

    /// One sentence with the plan's own names.
    pub fn words(&self, plan: &Plan) -> String {
        let words = match self {
            Warning::NothingForbidden => {
                "no location is forbidden, so the plan is safe whatever it does".to_string()
            }
            Warning::SafeByMark => "the plan is safe by its mark: with mark 1, where a blank stay \
                                    limit is the ceiling, it is unsafe"
                .to_string(),
            Warning::AcceptedByMark => {
                "the plan is accepted by its mark: with mark 1, where a blank stay limit is the \
                 ceiling, a loop of edges leaves a clock unreset, and it is refused"
                    .to_string()
            }
            Warning::NeverEntered { location } => {
                format!("{} is never entered", plan.quoted(*location))
            }
            Warning::NeverOpens { edge } => plan
                .shut_words(*edge)
                .unwrap_or_else(|| format!("{} never opens", plan.edge_title(*edge))),
            Warning::Stuck { location, region } => format!(
                "the plan can get stuck in {} at {}: no time can pass and no edge opens, so the \
                 plan says nothing of what the ring does then",
                plan.quoted(*location),
                region_words(plan, region)
            ),
        };
        match self.is_proved() {
            true => words,
            false => words + " (not proved)",
        }
    }
}

/// The warnings of a plan, from its proved marks: one for each state, in the
/// order of states.
pub fn warnings(plan: &Plan, marks: &[u8]) -> Vec<Warning> {
    let mut found = Vec::new();
    if plan.locations.iter().all(|location| !location.forbidden) {
        found.push(Warning::NothingForbidden);
    }
    let entered = entered(marks, plan.locations.len());
    // That a forbidden location is never entered is what 'safe' means.
    let never = (0..plan.locations.len())
        .filter(|&location| !plan.locations[location].forbidden && !entered[location]);
    found.extend(never.map(|location| Warning::NeverEntered { location }));
    let graph = Graph::new(plan.model());
    found.extend(never_opening(plan, &graph, marks));
    found.extend(stuck(&graph, marks));
    found
}

/// Edges that open in no marked state, but for those into forbidden locations,
/// which are meant not to. One that can never open is named wherever it leads:
/// without a way to what is forbidden, 'safe' says little.
fn never_opening(plan: &Plan, graph: &Graph, marks: &[u8]) -> Vec<Warning> {
    let mut opens = vec![false; plan.edges.len()];
    for state in marked(marks) {
        for step in graph.steps(state) {
            if step.kind == second::graph::JUMP {
                opens[usize::from(step.edge)] = true;
            }
        }
    }
    let is_meant = |edge: &Edge| plan.locations[edge.to].forbidden && plan.opens_alone(edge);
    let closed = (0..plan.edges.len()).filter(|&edge| !opens[edge] && !is_meant(&plan.edges[edge]));
    closed.map(|edge| Warning::NeverOpens { edge }).collect()
}

/// The first stuck state of each ordinary location.
fn stuck(graph: &Graph, marks: &[u8]) -> Vec<Warning> {
    let mut found: Vec<usize> = marked(marks)
        .filter(|&state| !graph.is_forbidden(state) && graph.steps(state).is_empty())
        .collect();
    found.dedup_by_key(|state| graph.location_of(*state));
    let warning = |state: usize| Warning::Stuck {
        location: graph.location_of(state),
        region: graph.regions.list[graph.region_of(state)],
    };
    found.into_iter().map(warning).collect()
}

fn marked(marks: &[u8]) -> impl Iterator<Item = usize> + '_ {
    (0..marks.len()).filter(|&state| marks[state] == 1)
}
