//! The margin of our sheet: all walks within the fringe, one step longer each
//! time.

use super::states::States;
use super::Brute;
use std::collections::BTreeSet;

impl Brute {
    /// The margin of the sheet we write for a safe model.
    pub fn sheet_margin(&self) -> u32 {
        let sheet = self.sheet();
        let fringe = fringe(&self.states, &sheet[1..]);
        let visits = match most_jumps(&self.states, &fringe) {
            Some(jumps) => jumps + 1,
            None => 0,
        };
        u32::max(1, 2 * visits) + self.plan.clocks as u32
    }
}

/// The allowed states that are out and share a corner with an in-state of
/// their location.
fn fringe(states: &States, numbers: &[u32]) -> BTreeSet<usize> {
    let all = 0..states.list.len();
    let is_in = |state: usize| numbers[state] % 2 == 1;
    let shares = |one: usize, other: usize| {
        let ((here, region), (there, its)) = (states.list[one], states.list[other]);
        here == there && states.regions.shares[region][its]
    };
    all.clone()
        .filter(|&state| states.allowed[state] && !is_in(state))
        .filter(|&state| {
            all.clone()
                .any(|other| is_in(other) && shares(state, other))
        })
        .collect()
}

/// The most jumps of a walk of time and jump steps within the fringe; none if
/// there is no walk.
fn most_jumps(states: &States, fringe: &BTreeSet<usize>) -> Option<u32> {
    let mut most = None;
    // All walks of a number of steps, each by its end and its jumps.
    let mut walks: BTreeSet<(usize, u32)> = fringe.iter().map(|&state| (state, 0)).collect();
    let mut steps = 0;
    while let Some(jumps) = walks.iter().map(|&(_, jumps)| jumps).max() {
        assert!(steps < states.list.len(), "a walk comes back");
        most = most.max(Some(jumps));
        walks = longer(states, fringe, &walks);
        steps += 1;
    }
    most
}

fn longer(
    states: &States,
    fringe: &BTreeSet<usize>,
    walks: &BTreeSet<(usize, u32)>,
) -> BTreeSet<(usize, u32)> {
    let mut longer = BTreeSet::new();
    for &(end, jumps) in walks {
        for label in states.steps[end].iter().filter(|label| label.kind < 2) {
            if fringe.contains(&label.to) {
                longer.insert((label.to, jumps + label.kind));
            }
        }
    }
    longer
}
