//! Widened runs jump by jump: which clock values they have, and when they make
//! given jumps.

use super::zone::Zone;
use super::Widening;
use crate::model::{Edge, Model};

/// The runs of a model at a widening of e/D, in units of 1/D.
pub struct Runs<'a> {
    pub(super) model: &'a Model,
    widening: Widening,
}

impl<'a> Runs<'a> {
    pub fn new(model: &'a Model, e: i64, d: i64) -> Runs<'a> {
        let widening = Widening { e, d };
        Runs { model, widening }
    }

    /// Whether a run makes jumps along these edges, which follow each other.
    pub fn has_run(&self, mut edges: impl Iterator<Item = usize>) -> bool {
        let start = Zone::zero(self.model.clocks);
        let end = edges.try_fold(start, |zone, edge| self.jump(zone, &self.model.edges[edge]));
        end.is_some()
    }

    /// When a run makes jumps along these edges, the last as soon as can be.
    pub fn moments(&self, edges: &[usize]) -> Option<Vec<i64>> {
        // One more clock, which nothing limits or resets, is the time.
        let time = self.model.clocks;
        let mut zones = vec![Zone::zero(time + 1)];
        for &edge in edges {
            zones.push(self.jump(zones[zones.len() - 1], &self.model.edges[edge])?);
        }
        let mut after = zones[edges.len()].least();
        let mut moments = vec![0; edges.len()];
        for (at, &edge) in edges.iter().enumerate().rev() {
            let edge = &self.model.edges[edge];
            let kept = (0..=time).filter(|clock| edge.resets >> clock & 1 == 0);
            let kept = kept.map(|clock| (clock, after[clock]));
            let before = self.opened(zones[at], edge)?.fixed(kept)?.least();
            moments[at] = before[time];
            after = zones[at].before_wait(&before);
        }
        Some(moments)
    }

    /// A wait, then the jump along an edge: the values on entry.
    pub(super) fn jump(&self, zone: Zone, edge: &Edge) -> Option<Zone> {
        let mut zone = self.opened(zone, edge)?.reset(edge.resets);
        for clock in 0..self.model.clocks {
            zone.cut_above(clock, self.limit(edge.to, clock));
        }
        zone.tightened()
    }

    /// A wait, until the edge is open.
    fn opened(&self, mut zone: Zone, edge: &Edge) -> Option<Zone> {
        zone.wait();
        for clock in 0..self.model.clocks {
            zone.cut_above(clock, self.limit(edge.from, clock));
            zone.cut_above(clock, self.widening.at_most(edge.high[clock]));
            zone.cut_below(clock, self.widening.at_least(edge.low[clock]));
        }
        zone.tightened()
    }

    /// The widened invariant.
    fn limit(&self, location: usize, clock: usize) -> i64 {
        let limit = self.model.locations[location].limit[clock];
        self.widening.at_most(limit)
    }
}
