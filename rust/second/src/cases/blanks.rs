//! Blank stay fields: each plan with mark 2 and with mark 1.

use super::evidence::{padded, LOOP};
use super::plans::redrawn;
use super::Text;
use crate::blanks::with_mark;
use crate::calls::evidence_of;
use crate::graph::Graph;
use crate::model::{read_model, read_plan};
use crate::shortest_plan::shortest_plan;

/// A line for each plan, its name and its bytes; and comments.
const PLANS: &str = "\
# The default where one edge leaves: it closes at 1, at 0, at the ceiling.
closes at 1: 2,1,2,2,1,0,0,0,0,0,0,1,1,0,1
closes at 0: 2,1,2,2,1,0,0,0,0,0,0,1,1,0,0
closes at the ceiling, stay M+1: 2,1,2,1,1,0,0,3,0,0,1,1,2
# The greatest of the highs, whichever edge has it: the last, the first, a loop.
highs 0 and 1: 2,1,2,2,2,0,0,0,0,0,0,1,1,0,0,0,1,1,1,1
highs 1 and 0: 2,1,2,2,2,0,0,0,0,0,0,1,1,1,1,0,1,1,0,0
high 0 and a loop with 1: 2,1,2,2,2,0,0,0,0,0,0,1,1,0,0,0,0,1,1,1
loop alone: 2,1,2,1,1,0,0,0,0,0,1,0,1
# Edges that enter do not count; those that never open do.
left at 1, entered at 0: 2,1,2,2,2,0,0,0,0,0,0,1,1,0,1,1,0,1,0,0
edge to a location that shuts it out: 2,1,2,2,2,0,0,0,0,1,0,1,1,0,0,0,1,0,1,1
edge from a location that none enters: 2,1,2,2,1,0,0,0,0,0,1,0,1,1,1
guard that no run meets: 2,2,1,1,1,0,0,0,0,0,0,3,0,0,1,1
# Clock by clock.
clocks of two edges: 2,2,2,1,2,0,0,0,0,0,0,3,0,0,0,1,0,0,3,0,1,0,0
one clock up to the ceiling, spelt out: 2,2,2,1,1,0,0,3,2,0,0,3,0,2,0,1
three clocks, one of them M+1: 2,3,1,1,1,0,0,0,0,2,0,0,7,0,0,0,1,0,0
# Stay fields 0, the default spelt out, M+1, below the default: where edges leave, and where none does.
stays where edges close at 1: 2,1,2,4,4,0,0,0,0,2,0,3,0,1,0,1,1,0,1,1,2,1,0,1,2,3,1,0,1,3,0,1,0,1
stays where no edge leaves: 2,1,2,4,0,0,0,0,0,2,0,3,0,1
# A forbidden location that is entered at 1: it is shut if the default is 0.
left at 0: 2,1,1,2,2,0,0,0,1,0,0,1,0,1,1,1,0,1,0,0
loop at 0: 2,1,1,2,2,0,0,0,1,0,0,1,0,1,1,1,1,1,0,0
left at 0, stay M+1: 2,1,1,2,2,0,0,0,1,2,0,1,0,1,1,1,0,1,0,0
left at 0, reset on the way in: 2,1,1,2,2,0,0,0,1,0,0,1,1,1,1,1,0,1,0,0
left at 1: 2,1,2,2,2,0,0,0,1,0,0,1,0,1,1,1,0,1,0,1
left at 0, with a later way in: 2,1,2,2,3,0,0,0,1,0,0,1,0,1,2,0,1,1,2,2,1,0,1,0,0
# The start is allowed at a default of 0; drift alone comes to a location that is shut.
forbidden start with a loop at 0: 2,1,1,1,1,0,1,0,0,0,1,0,0
small loop, left at 0: 2,2,1,3,4,1,0,0,0,0,0,0,1,0,0,0,1,1,0,1,0,1,1,0,2,0,1,1,1,1,2,0,0,0,1,1,2,1,3,0,1,0,0
# Other plans of docs/DECISIONS.md.
edge that never opens: 2,1,3,2,1,0,0,0,0,1,0,1,0,1,1
a clock to each of two edges: 2,2,3,2,2,0,0,0,0,0,0,0,0,1,0,0,1,0,3,0,1,0,0,3,0,1
entered at the ceiling, left at 1: 2,1,2,2,2,0,0,0,1,0,0,1,0,2,2,1,0,1,0,1
default and ceiling spelt out: 2,1,3,2,1,0,0,2,0,4,0,1,0,0,1
ceiling spelt out: 2,1,3,2,1,0,0,4,0,4,0,1,0,0,1
";

/// With mark 1 these are among the plans that are read or refused.
const REFUSED: &str = "\
# Refusals of mark 2 are those of mark 1.
mark 2, stay M+2: 2,1,1,1,0,0,0,3
mark 2, high missing: 2,1,1,1,1,0,0,0,0,0,1,1
mark 2, low above high: 2,1,1,1,1,0,0,0,0,0,1,1,0
mark 2, a byte remains: 2,1,1,1,0,0,0,0,0
mark 2, loop of one edge without reset: 2,1,1,1,1,0,0,0,0,0,0,0,1
mark 2, more states than scratch: 2,3,4,3,0,0,0,0,0,0,0,0,0,0,0,0,0,0
";

/// Longer evidence is left to our own operation.
pub const SHORT: usize = 40;

pub fn blanks(text: &mut Text) {
    text.all(PLANS, in_both_marks);
    text.note("01's loop plan; a plan with each number padded.");
    in_both_marks(text, "loop", &LOOP);
    let spelt_out = [2, 1, 2, 2, 1, 0, 0, 2, 0, 3, 0, 1, 1, 0, 1];
    redrawn(text, "closes at 1, padded", &padded(&spelt_out));
    text.all(REFUSED, refused);
}

/// Every operation, and our evidence with either mark where it is short: what
/// passes with one may not pass with the other.
fn in_both_marks(text: &mut Text, name: &str, plan: &[u8]) {
    let plans = [2, 1].map(|mark| with_mark(plan, mark).expect("a plan spells numbers"));
    let mut ours = plans.clone().map(|plan| ours_for(&plan)).to_vec();
    ours.dedup();
    ours.retain(|evidence| evidence.len() <= SHORT);
    for plan in &plans {
        every_operation(text, &format!("{name}, mark {}", plan[0]), plan);
        ours.iter().for_each(|evidence| text.bytes(evidence));
    }
}

pub fn ours_for(plan: &[u8]) -> Vec<u8> {
    let model = read_model(plan).expect("an accepted plan");
    evidence_of(&Graph::new(model)).1
}

/// Those of document 01, those of drift, and the shortest form with a byte to
/// spare.
pub fn every_operation(text: &mut Text, name: &str, plan: &[u8]) {
    text.judged_with_drift(name, plan);
    let needed = shortest_plan(&read_plan(plan).expect("an accepted plan")).len();
    text.line(&format!("plan {}", needed + 1));
}

/// A refusal, with no more operations than show it.
pub fn refused(text: &mut Text, name: &str, plan: &[u8]) {
    text.named(name, plan);
    text.line("judge");
    text.line("plan 40");
}
