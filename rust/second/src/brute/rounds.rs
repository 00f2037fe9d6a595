//! The rounds of the marking: all that is marked so far is gone over again in
//! each of them, which marks no more than going over the newest would.

use super::states::States;
use super::Brute;

impl Brute {
    /// The rounds, with the one that marks nothing, and the marked states.
    pub fn rounds(&self) -> (usize, usize) {
        let mut marked = vec![false; self.states.list.len()];
        marked[self.states.start] = true;
        let mut rounds = 0;
        loop {
            rounds += 1;
            let after = after_round(&self.states, &marked);
            if after == marked {
                return (rounds, marked.iter().filter(|&&mark| mark).count());
            }
            marked = after;
        }
    }
}

/// What is marked, and all that is one step from it.
fn after_round(states: &States, marked: &[bool]) -> Vec<bool> {
    let mut after = marked.to_vec();
    for (state, steps) in states.steps.iter().enumerate() {
        for label in steps {
            after[label.to] |= marked[state];
        }
    }
    after
}
