//! The least time that a number of jumps takes, by the low limits of a plan.
//!
//! A low limit on a clock holds back a jump until that long after the clock's
//! last reset. High and stay limits only take runs away, so the earliest times
//! by low limits alone are never too late. Drift takes at most its own size off
//! each limit; the caller sees to that.

use plan::{Edge, Plan};
use std::collections::HashMap;

/// A run of many jumps is cut into runs of this length.
const BLOCK: usize = 256;

/// Units that every run of so many jumps takes at least; none if that is no
/// time at all.
pub fn least_units(plan: &Plan, jumps: u128) -> Option<u128> {
    let least = Pace::new(plan).least(BLOCK);
    let blocks = jumps / BLOCK as u128;
    let rest = (jumps % BLOCK as u128) as usize;
    let units = least[BLOCK]?.checked_mul(blocks)? + least[rest]?;
    (units > 0).then_some(units)
}

/// A location with the least value of each clock, the ceiling standing for
/// whatever is above it.
type Moment = (usize, Vec<u8>);

struct Pace<'a> {
    plan: &'a Plan,
    /// All moments that jumps lead to from the start, and their numbers.
    moments: Vec<Moment>,
    numbers: HashMap<Moment, usize>,
    /// For each the jumps from it: the units to wait and the moment entered.
    jumps: Vec<Vec<(u128, usize)>>,
}

impl<'a> Pace<'a> {
    fn new(plan: &'a Plan) -> Pace<'a> {
        let start = (plan.start, vec![0; plan.clocks.len()]);
        let mut pace = Pace {
            plan,
            moments: Vec::new(),
            numbers: HashMap::new(),
            jumps: Vec::new(),
        };
        pace.number(start);
        while pace.jumps.len() < pace.moments.len() {
            let from = pace.moments[pace.jumps.len()].clone();
            let jumps = pace.jumps_from(&from);
            pace.jumps.push(jumps);
        }
        pace
    }

    /// A run ends where it enters a forbidden location.
    fn jumps_from(&mut self, from: &Moment) -> Vec<(u128, usize)> {
        let plan = self.plan;
        if plan.locations[from.0].forbidden {
            return Vec::new();
        }
        let edges = plan.edges.iter().filter(|edge| edge.from == from.0);
        edges.map(|edge| self.jump(edge, &from.1)).collect()
    }

    fn jump(&mut self, edge: &Edge, clocks: &[u8]) -> (u128, usize) {
        let waits = edge.guard.iter().zip(clocks);
        let wait = waits.map(|((low, _), clock)| low.saturating_sub(*clock));
        let wait = wait.max().unwrap_or(0);
        let after = clocks.iter().enumerate().map(|(at, clock)| {
            let is_reset = edge.resets >> at & 1 == 1;
            if is_reset {
                0
            } else {
                (clock + wait).min(self.plan.ceiling)
            }
        });
        let moment = (edge.to, after.collect());
        (wait.into(), self.number(moment))
    }

    fn number(&mut self, moment: Moment) -> usize {
        let next = self.moments.len();
        let number = *self.numbers.entry(moment.clone()).or_insert(next);
        if number == next {
            self.moments.push(moment);
        }
        number
    }

    /// For each number of jumps up to a block the least units that they take
    /// from any moment; none where no run has so many.
    fn least(&self, block: usize) -> Vec<Option<u128>> {
        let mut from: Vec<Option<u128>> = vec![Some(0); self.moments.len()];
        let mut least = vec![Some(0)];
        for _ in 0..block {
            let next = |jumps: &Vec<(u128, usize)>| {
                let times = jumps
                    .iter()
                    .filter_map(|&(wait, to)| Some(from[to]? + wait));
                times.min()
            };
            from = self.jumps.iter().map(next).collect();
            least.push(from.iter().flatten().min().copied());
        }
        least
    }
}
