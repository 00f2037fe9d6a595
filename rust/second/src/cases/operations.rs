//! The operations on plans of every size, with lengths that are enough or not.

use super::Text;
use crate::program::bytes_of_text;

/// A line for each plan, its name and its bytes; and comments.
const PLANS: &str = "\
# What the search meets: no step; time and a jump; in our trail a touch and a face.
no step: 1,1,1,2,0,0,0,1,1,0
time and a jump: 1,1,1,2,1,0,0,0,1,1,0,1,1,1,1
touch and face: 1,2,2,2,2,0,0,0,0,1,0,0,0,1,3,1,2,0,2,1,0,2,0,2,0,2
# The small loop without its way back: nothing is touched.
small loop, open: 1,2,1,3,2,1,0,0,0,0,0,0,1,0,0,1,0,2,0,1,1,1,1,2,0,0,0,1,1
# The margin: stay limits are fewer than entries by edges; an entry by the start alone.
margin by stay limits: 1,1,1,2,2,0,0,0,0,1,0,1,0,0,1,0,1,0,0,1
margin by the start: 1,1,4,2,0,1,0,0,0,0
# The plans that are drawn under plans/.
poll: 1,2,3,4,4,0,0,2,0,0,0,4,0,4,0,1,0,0,0,1,1,1,1,0,3,1,2,2,0,3,0,3,2,1,1,3,3,0,3,2,3,0,3,3,0,0
poll, mended: 1,2,3,4,4,0,0,2,0,0,0,3,0,4,0,1,0,0,0,1,3,1,1,0,3,1,2,2,0,3,0,3,2,1,3,3,3,0,3,2,3,0,3,3,0,0
hasty: 1,3,2,4,5,0,0,3,0,0,0,0,2,0,0,0,0,2,1,0,0,0,0,1,7,2,2,0,2,0,2,1,2,4,0,2,0,2,0,2,2,0,0,0,2,0,2,0,2,1,3,0,2,2,0,2,0,2,2,3,0,2,2,0,2,0,2
two repeaters: 1,3,3,4,5,0,0,4,0,0,0,0,2,0,0,0,0,2,1,0,0,0,0,1,7,3,3,0,3,0,3,1,2,4,0,3,0,3,0,3,2,0,0,0,3,0,3,0,3,1,3,0,3,3,0,3,0,3,2,3,0,3,3,0,3,0,3
";

/// The largest plan of the specification's limits.
const LARGEST: &str = include_str!("../../../../plans/largest.plan");

pub fn operations(text: &mut Text) {
    text.all(PLANS, Text::judged_with_drift);
    for clocks in 1..=3 {
        for ceiling in 1..=4 {
            alone(text, clocks, ceiling);
            ring(text, clocks, ceiling);
        }
    }
    text.judged_with_drift("largest", &largest());
}

pub fn largest() -> Vec<u8> {
    bytes_of_text(LARGEST).expect("a plan as a list")
}

/// One location without edges: S is the count of regions, and our sheet has
/// as a height how often time can pass.
fn alone(text: &mut Text, clocks: u8, ceiling: u8) {
    let mut plan = vec![1, clocks, ceiling, 1, 0, 0];
    plan.extend(vec![0; 1 + usize::from(clocks)]);
    text.judged_with_drift(&format!("clocks {clocks}, ceiling {ceiling}"), &plan);
}

/// A location for each clock, left when the clock is at the ceiling, which
/// resets it: perfect clocks stay together, and touches take them apart.
fn ring(text: &mut Text, clocks: u8, ceiling: u8) {
    let mut plan = vec![1, clocks, ceiling, clocks, clocks, 0];
    plan.extend(vec![0; usize::from(clocks * (1 + clocks))]);
    for location in 0..clocks {
        plan.extend([location, (location + 1) % clocks, 1 << location]);
        for clock in 0..clocks {
            plan.extend([if clock == location { ceiling } else { 0 }, ceiling]);
        }
    }
    text.judged_with_drift(&format!("clocks {clocks}, ceiling {ceiling}, ring"), &plan);
}
