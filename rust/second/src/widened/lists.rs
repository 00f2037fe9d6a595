//! The search over lists of edges: whether a widened run can take a given one
//! is a system of difference constraints over the moments of its jumps.

use super::Widening;
use crate::model::Model;

/// A list of edges of at most `jumps` jumps by which a widened run enters a
/// forbidden location, if there is one.
pub fn run_to_forbidden(model: &Model, jumps: usize, e: i64, d: i64) -> Option<Vec<usize>> {
    let mut edges = Vec::new();
    let widening = Widening { e, d };
    Search { model, widening }
        .extend(jumps, &mut edges)
        .then_some(edges)
}

struct Search<'a> {
    model: &'a Model,
    widening: Widening,
}

impl Search<'_> {
    /// Extends a possible list of edges to one that ends in a forbidden location.
    fn extend(&self, jumps: usize, edges: &mut Vec<usize>) -> bool {
        let at = edges
            .last()
            .map_or(self.model.start, |&edge| self.model.edges[edge].to);
        if self.model.locations[at].forbidden {
            return true;
        }
        if edges.len() == jumps {
            return false;
        }
        for edge in 0..self.model.edges.len() {
            if self.model.edges[edge].from == at {
                edges.push(edge);
                if self.is_possible(edges) && self.extend(jumps, edges) {
                    return true;
                }
                edges.pop();
            }
        }
        false
    }

    /// Whether a widened run can take these edges.
    fn is_possible(&self, edges: &[usize]) -> bool {
        has_solution(edges.len() + 1, &self.constraints(edges))
    }

    /// What the moments of the start and of the jumps must keep.
    fn constraints(&self, edges: &[usize]) -> Vec<Constraint> {
        let model = self.model;
        let mut constraints = Vec::new();
        let at_most = |limit: u8| self.widening.at_most(limit);
        let mut last_reset = vec![0; model.clocks];
        let mut location = &model.locations[model.start];
        for (before, &edge) in edges.iter().enumerate() {
            let now = before + 1;
            let edge = &model.edges[edge];
            constraints.push((now, before, 0)); // waits are not negative
            for clock in 0..model.clocks {
                let since = last_reset[clock];
                // The wait ends within the invariant, and the guard holds.
                constraints.push((since, now, at_most(location.limit[clock])));
                constraints.push((since, now, at_most(edge.high[clock])));
                constraints.push((now, since, -self.widening.at_least(edge.low[clock])));
            }
            location = &model.locations[edge.to];
            for clock in 0..model.clocks {
                if edge.resets >> clock & 1 == 1 {
                    last_reset[clock] = now;
                }
                // The invariant holds on entry.
                constraints.push((last_reset[clock], now, at_most(location.limit[clock])));
            }
        }
        constraints
    }
}

/// Moments a and b and a number c: "b - a <= c", in units of 1/D.
type Constraint = (usize, usize, i64);

/// Constraints have a solution, and then one in whole units, exactly if no
/// cycle of them adds up to less than 0.
fn has_solution(moments: usize, constraints: &[Constraint]) -> bool {
    let mut potential = vec![0i64; moments];
    for _ in 0..=moments {
        let mut changed = false;
        for &(from, to, bound) in constraints {
            if potential[from] + bound < potential[to] {
                potential[to] = potential[from] + bound;
                changed = true;
            }
        }
        if !changed {
            return true;
        }
    }
    false
}
