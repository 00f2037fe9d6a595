//! Plans with a joint reset, request (g) of document 02: all closed walks of edges
//! are listed, and marks, verdict and evidence come from the steps that are no touch.

use super::read::{Plan, PlanEdge};
use super::trails::{least_touchless_trail, spell};
use super::{spelled_out, Brute};

/// What the calls of the request answer.
pub struct Joint {
    pub is_unsafe: bool,
    /// The smallest set with the start that is closed under time, jump and face.
    pub marked: Vec<bool>,
    /// Marked states if safe, steps of the trail if unsafe.
    pub count: usize,
    pub evidence: Vec<u8>,
}

impl Plan {
    /// The closed walks of edges that let a point pass, each from each of its
    /// locations. One that passes a location twice is left out: it has a shorter one
    /// among its edges.
    pub fn closed_walks(&self) -> Vec<Vec<&PlanEdge>> {
        let all = self.edges.iter();
        let edges: Vec<&PlanEdge> = all.filter(|edge| self.lets_a_point_pass(edge)).collect();
        let mut walks: Vec<Vec<&PlanEdge>> = edges.iter().map(|&edge| vec![edge]).collect();
        let mut closed = Vec::new();
        while let Some(walk) = walks.pop() {
            let here = walk[walk.len() - 1].to;
            if here == walk[0].from {
                closed.push(walk);
            } else if walk.iter().all(|edge| edge.from != here) {
                let on = edges.iter().filter(|edge| edge.from == here);
                walks.extend(on.map(|&edge| [&walk[..], &[edge]].concat()));
            }
        }
        closed
    }

    /// Whether each of them has an edge that resets every clock.
    pub fn has_joint_resets(&self) -> bool {
        let is_joint = |edge: &&PlanEdge| edge.resets.iter().all(|&reset| reset);
        let mut walks = self.closed_walks().into_iter();
        walks.all(|walk| walk.iter().any(is_joint))
    }
}

impl Brute {
    /// The answers, or 17.
    pub fn joint(&self) -> Result<Joint, u8> {
        if !self.plan.has_joint_resets() {
            return Err(17);
        }
        let marked = self.states.closed_under(0..3);
        let is_unsafe = self.has_forbidden(&marked);
        let (count, numbers) = if is_unsafe {
            let trail = least_touchless_trail(&self.states);
            let no_touch = |_| panic!("a trail without a touch has no walk");
            (trail.len(), spell(&self.states, &trail, no_touch))
        } else {
            let count = marked.iter().filter(|&&mark| mark).count();
            (count, self.sheet_of(&marked))
        };
        Ok(Joint {
            is_unsafe,
            marked,
            count,
            evidence: spelled_out(numbers),
        })
    }
}
