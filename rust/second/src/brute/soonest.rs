//! The soonest runs, on times counted in D-ths of a unit, as document 01 lays out
//! a run: a wait of any number of D-ths, then a jump, and so on. Clock values are
//! numbers of D-ths. An entry that is found anew, or sooner, is taken up again.

use super::read::{Plan, PlanEdge};
use std::collections::BTreeMap;

/// A location just entered, with the values of its clocks.
type Entry = (usize, Vec<u32>);

impl Plan {
    /// For each location the least time, in D-ths, of a run that gets there.
    pub fn least_times(&self, d: u32) -> Vec<Option<u32>> {
        let start = (self.start, vec![0; self.clocks]);
        let mut soonest = BTreeMap::from([(start.clone(), 0)]);
        let mut to_take_up = vec![start];
        while !to_take_up.is_empty() {
            let mut found = Vec::new();
            for entry in to_take_up.drain(..) {
                let time = soonest[&entry];
                for (wait, next) in self.next_entries(&entry, d) {
                    let known = soonest.get(&next);
                    if known.is_none_or(|&known| time + wait < known) {
                        soonest.insert(next.clone(), time + wait);
                        found.push(next);
                    }
                }
            }
            to_take_up = found;
        }
        let mut least = vec![None; self.forbidden.len()];
        for ((location, _), time) in soonest {
            least[location] = Some(least[location].map_or(time, |least: u32| least.min(time)));
        }
        least
    }

    /// What a wait and a jump lead to, with the wait.
    fn next_entries(&self, (location, values): &Entry, d: u32) -> Vec<(u32, Entry)> {
        let mut next = Vec::new();
        for wait in 0..=self.ceiling * d {
            let waited: Vec<u32> = values.iter().map(|value| value + wait).collect();
            if !self.may_stay(*location, &waited, d) {
                continue;
            }
            for edge in self.edges.iter().filter(|edge| edge.from == *location) {
                let entered = edge.reset(&waited);
                if edge.is_open(&waited, d) && self.may_stay(edge.to, &entered, d) {
                    next.push((wait, (edge.to, entered)));
                }
            }
        }
        next
    }

    /// Whether the stay limits hold.
    fn may_stay(&self, location: usize, values: &[u32], d: u32) -> bool {
        let limits = &self.limits[location];
        values
            .iter()
            .zip(limits)
            .all(|(value, limit)| *value <= limit * d)
    }
}

impl PlanEdge {
    fn is_open(&self, values: &[u32], d: u32) -> bool {
        let bounds = values.iter().zip(&self.guard);
        bounds
            .into_iter()
            .all(|(value, (low, high))| low * d <= *value && *value <= high * d)
    }

    fn reset(&self, values: &[u32]) -> Vec<u32> {
        let resets = values.iter().zip(&self.resets);
        let value = |(value, reset): (&u32, &bool)| if *reset { 0 } else { *value };
        resets.map(value).collect()
    }
}

#[cfg(test)]
mod tests {
    use crate::brute::read::read;

    /// One clock, ceiling 1: an edge at 1, and one that is always open to a
    /// location with a limit of 0.
    #[test]
    fn in_units_and_halves() {
        for (mask, last) in [(0, None), (1, Some(1))] {
            let locations = [1, 1, 1, 3, 2, 0, 0, 0, 0, 0, 0, 1];
            let edges = [0, 1, 0, 1, 1, 1, 2, mask, 0, 1];
            let plan = read(&[&locations[..], &edges].concat()).expect("an accepted model");
            for d in [1, 2] {
                let times = [Some(0), Some(1), last].map(|time| Some(time? * d));
                assert_eq!(plan.least_times(d), times);
            }
        }
    }
}
