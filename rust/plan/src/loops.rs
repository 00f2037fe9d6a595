//! Loops of edges that leave a clock unreset (refusal 7), or have no edge that
//! resets every clock (refusal 17).

use crate::{Edge, Plan};

/// Loops of edges that can open alone, without a reset of the clock.
pub fn unreset_loops(plan: &Plan, clock: usize) -> Vec<Vec<usize>> {
    loops(plan, |edge| edge.resets >> clock & 1 == 0)
}

/// Loops of edges that can open alone, none of which resets every clock.
pub fn disjoint_loops(plan: &Plan) -> Vec<Vec<usize>> {
    let every_clock = (1 << plan.clocks.len()) - 1;
    loops(plan, |edge| edge.resets != every_clock)
}

/// Loops of such edges among those that can open alone, no two of which share
/// an edge, shortest first. None is left once these are mended or taken away.
fn loops(plan: &Plan, is_such: impl Fn(&Edge) -> bool) -> Vec<Vec<usize>> {
    let counts = |edge: &Edge| is_such(edge) && plan.opens_alone(edge);
    let edges = 0..plan.edges.len();
    let mut kept: Vec<usize> = edges.filter(|&at| counts(&plan.edges[at])).collect();
    let mut found = Vec::new();
    while let Some(shortest) = shortest_loop(plan, &kept) {
        kept.retain(|at| !shortest.contains(at));
        found.push(shortest);
    }
    found
}

fn shortest_loop(plan: &Plan, kept: &[usize]) -> Option<Vec<usize>> {
    (0..plan.locations.len())
        .filter_map(|home| loop_from(home, plan, kept))
        .min_by_key(Vec::len)
}

/// The shortest way from a location back to itself, breadth first.
fn loop_from(home: usize, plan: &Plan, kept: &[usize]) -> Option<Vec<usize>> {
    let edges = &plan.edges;
    let mut way: Vec<Option<Vec<usize>>> = vec![None; plan.locations.len()];
    let mut queue = std::collections::VecDeque::from([(home, Vec::new())]);
    while let Some((at, so_far)) = queue.pop_front() {
        for &number in kept.iter().filter(|&&number| edges[number].from == at) {
            let to = edges[number].to;
            let longer: Vec<usize> = so_far.iter().copied().chain([number]).collect();
            if to == home {
                return Some(longer);
            }
            if way[to].is_none() {
                way[to] = Some(longer.clone());
                queue.push_back((to, longer));
            }
        }
    }
    None
}

/// What the loops named leave out, where a plan has edges that do not count.
pub fn uncounted_words(plan: &Plan) -> &'static str {
    match plan.has_shut_edges() {
        true => "; edges that can never open do not count",
        false => "",
    }
}

#[cfg(test)]
mod tests {
    use super::*;
    use crate::{Location, Units, CEILING_MARK};

    /// An edge with this low of the first of two clocks.
    fn edge(from: usize, to: usize, resets: u8, low: u8) -> Edge {
        Edge {
            name: None,
            from,
            to,
            resets,
            guard: vec![(low, 2), (0, 2)],
        }
    }

    /// A plan of these edges between locations with these limits of the first.
    fn plan(limits: &[u8], edges: &[Edge]) -> Plan {
        let location = |&limit: &u8| Location {
            name: String::new(),
            forbidden: false,
            stay: vec![Some(limit), None],
        };
        Plan {
            mark: CEILING_MARK,
            clocks: ["x", "y"].map(str::to_string).to_vec(),
            ceiling: 2,
            start: 0,
            locations: limits.iter().map(location).collect(),
            edges: edges.to_vec(),
            units: Units::default(),
        }
    }

    #[test]
    fn loops_without_a_reset() {
        let edges = [
            edge(0, 1, 1, 0),
            edge(1, 2, 0, 0),
            edge(2, 1, 0, 0),
            edge(2, 0, 0, 0),
            edge(2, 2, 2, 0),
        ];
        let all = plan(&[2; 3], &edges);
        assert_eq!(unreset_loops(&all, 0), [vec![4], vec![1, 2]]);
        assert_eq!(unreset_loops(&all, 1), [vec![1, 2]]);
        let one = plan(&[2; 3], &edges[3..4]);
        assert_eq!(unreset_loops(&one, 1), Vec::<Vec<usize>>::new());
    }

    /// The edges of the first loop reset both clocks together, but none alone.
    #[test]
    fn loops_without_a_joint_reset() {
        let there = |second: u8, third: u8| {
            let edges = [
                edge(0, 1, 1, 0),
                edge(1, 0, second, 0),
                edge(1, 1, 3, third),
            ];
            disjoint_loops(&plan(&[2, 1], &edges))
        };
        assert_eq!(there(2, 0), [vec![0, 1]]);
        assert_eq!(there(3, 0), Vec::<Vec<usize>>::new());
        assert_eq!(there(3, 2), Vec::<Vec<usize>>::new());
        assert_eq!(disjoint_loops(&plan(&[2], &[])), Vec::<Vec<usize>>::new());
    }

    /// An edge that can never open is in no loop, and hides none.
    #[test]
    fn loops_that_count() {
        let there = |low| {
            let edges = [edge(0, 1, 0, low), edge(1, 0, 0, 0), edge(1, 1, 0, 2)];
            unreset_loops(&plan(&[2, 1], &edges), 0)
        };
        assert_eq!(there(1), [vec![0, 1]]);
        assert_eq!(there(2), Vec::<Vec<usize>>::new());
    }
}
