//! Strongly connected components of the time and jump steps, by Tarjan's
//! algorithm with its own stack, and what follows from them: which states lie
//! on a closed walk, and the heights that a sheet carries.

use crate::graph::Graph;

const NONE: u32 = u32::MAX;

pub struct Components {
    /// The component of each allowed state. A component gets its number
    /// after every component that it leads to.
    pub of: Vec<u32>,
    /// Whether the state lies on a closed walk of time and jump steps.
    pub on_cycle: Vec<bool>,
    /// The most steps between components that a walk from the state takes:
    /// those are exactly the steps it can't return from.
    pub height: Vec<u32>,
}

impl Components {
    pub fn new(graph: &Graph) -> Components {
        let states = graph.states();
        let mut result = Components {
            of: vec![NONE; states],
            on_cycle: vec![false; states],
            height: vec![0; states],
        };
        let mut components = 0;
        let mut discovered = 0;
        let mut order = vec![NONE; states];
        let mut low = vec![NONE; states];
        let mut open = Vec::new(); // states whose component is not complete
        let mut path: Vec<(usize, usize)> = Vec::new(); // state, steps already seen
        for root in 0..states {
            if !graph.allowed[root] || order[root] != NONE {
                continue;
            }
            path.push((root, 0));
            while let Some(&mut (state, ref mut seen)) = path.last_mut() {
                if *seen == 0 {
                    order[state] = discovered;
                    low[state] = discovered;
                    discovered += 1;
                    open.push(state);
                }
                if let Some(step) = graph.steps(state).get(*seen) {
                    *seen += 1;
                    let to = step.to as usize;
                    if order[to] == NONE {
                        path.push((to, 0));
                    } else if result.of[to] == NONE {
                        low[state] = low[state].min(order[to]);
                    }
                    continue;
                }
                path.pop();
                if let Some(&(parent, _)) = path.last() {
                    low[parent] = low[parent].min(low[state]);
                }
                if low[state] == order[state] {
                    let from = open
                        .iter()
                        .rposition(|&member| member == state)
                        .expect("its root is open");
                    result.complete(graph, components, &open[from..]);
                    open.truncate(from);
                    components += 1;
                }
            }
        }
        result
    }

    /// Notes a complete component. All components it leads to are complete.
    fn complete(&mut self, graph: &Graph, component: u32, members: &[usize]) {
        for &member in members {
            self.of[member] = component;
        }
        let mut cyclic = members.len() > 1;
        let mut height = 0;
        for &member in members {
            for step in graph.steps(member) {
                let to = step.to as usize;
                if self.of[to] == component {
                    cyclic = true; // with one member, a step to itself
                } else {
                    height = height.max(self.height[to] + 1);
                }
            }
        }
        for &member in members {
            self.on_cycle[member] = cyclic;
            self.height[member] = height;
        }
    }
}
