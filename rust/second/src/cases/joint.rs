//! Plans with a joint reset (request (g) of document 02): which plans the calls of
//! the request take, mostly beside one that differs in a number, and what they write.

use super::blanks::{ours_for, SHORT};
use super::evidence::{changed, padded, refused, LOOP};
use super::operations::largest;
use super::reading::{most_edges, LIMITS};
use super::{enough, Put, Text};
use crate::blanks::with_mark;
use crate::calls::{joint_evidence_of, states_of};
use crate::graph::Graph;
use crate::model::{read_model, Model};

/// A line for each plan, its name and its bytes; and comments.
const PLANS: &str = "\
# There and back, two clocks: one edge must reset both. Between them it is not enough.
joint reset there: 1,2,1,2,2,0,0,0,0,0,0,0,0,1,3,0,1,0,1,1,0,0,0,1,0,1
joint reset back: 1,2,1,2,2,0,0,0,0,0,0,0,0,1,0,0,1,0,1,1,0,3,0,1,0,1
shared the other way: 1,2,1,2,2,0,0,0,0,0,0,0,0,1,2,0,1,0,1,1,0,1,0,1,0,1
reset left: 1,2,1,2,2,0,0,0,0,0,0,0,0,1,1,0,1,0,1,1,0,1,0,1,0,1
# Three clocks: two and one, two and two, one each.
three of three: 1,3,1,2,2,0,0,0,0,0,0,0,0,0,0,1,7,0,1,0,1,0,1,1,0,4,0,1,0,1,0,1
two of three: 1,3,1,2,2,0,0,0,0,0,0,0,0,0,0,1,3,0,1,0,1,0,1,1,0,4,0,1,0,1,0,1
two of three twice: 1,3,1,2,2,0,0,0,0,0,0,0,0,0,0,1,6,0,1,0,1,0,1,1,0,5,0,1,0,1,0,1
three for three: 1,3,1,3,3,0,0,0,0,0,0,0,0,0,0,0,0,0,0,1,1,0,1,0,1,0,1,1,2,2,0,1,0,1,0,1,2,0,4,0,1,0,1,0,1
three for three, one joint: 1,3,1,3,3,0,0,0,0,0,0,0,0,0,0,0,0,0,0,1,1,0,1,0,1,0,1,1,2,7,0,1,0,1,0,1,2,0,4,0,1,0,1,0,1
# One clock: what is reset is reset by an edge.
one clock: 1,1,1,2,2,0,0,0,1,0,0,1,0,1,1,1,0,1,0,1
one clock, reset left: 1,1,1,2,2,0,0,0,1,0,0,1,0,1,1,1,0,0,0,1
# The mask tells: the kept clock is held at 0; no time passes before it is reset too.
kept clock held at 0: 1,2,1,2,2,0,0,0,0,0,0,0,0,1,1,0,1,0,0,1,0,2,0,1,0,1
held at 0 and reset: 1,2,1,2,2,0,0,0,0,0,0,0,0,1,3,0,1,0,0,1,0,2,0,1,0,1
no time between: 1,2,1,2,2,0,0,0,0,0,1,0,0,1,1,0,1,0,1,1,0,2,0,1,0,1
# No walk closes; none counts: dead by where it leaves, by where it leads; reset in time.
no walk: 1,2,1,2,1,0,0,0,0,1,0,0,0,1,0,1,1,1,1
shared over a dead link: 1,2,1,2,2,0,0,1,0,0,0,0,0,1,1,1,1,0,1,1,0,2,0,1,0,1
shared over a live link: 1,2,1,2,2,0,0,1,0,0,0,0,0,1,1,0,1,0,1,1,0,2,0,1,0,1
shared, dead on entry: 1,2,1,2,2,0,0,0,0,0,0,1,0,1,1,0,1,1,1,1,0,2,0,1,0,1
shared, at the limit on entry: 1,2,1,2,2,0,0,0,0,0,0,1,0,1,1,0,1,0,1,1,0,2,0,1,0,1
shared, reset on entry: 1,2,1,2,2,0,0,0,0,0,0,1,0,1,2,0,1,1,1,1,0,1,0,1,0,1
shared, dead on the way back: 1,2,1,2,2,0,0,0,0,0,1,0,0,1,1,0,1,0,1,1,0,2,1,1,0,1
# Two links there: the walk along the other one needs a joint reset too, unless it is dead.
joint beside a single: 1,2,1,2,3,0,0,0,0,0,0,0,0,1,3,0,1,0,1,0,1,1,0,1,0,1,1,0,2,0,1,0,1
joint beside a joint: 1,2,1,2,3,0,0,0,0,0,0,0,0,1,3,0,1,0,1,0,1,3,0,1,0,1,1,0,2,0,1,0,1
single beside a joint: 1,2,1,2,3,0,0,0,0,0,0,0,0,1,1,0,1,0,1,0,1,3,0,1,0,1,1,0,2,0,1,0,1
joint beside a dead single: 1,2,1,2,3,0,0,1,0,0,0,0,0,1,3,0,1,0,1,0,1,1,1,1,0,1,1,0,2,0,1,0,1
dead joint beside a single: 1,2,1,2,3,0,0,1,0,0,0,0,0,1,3,1,1,0,1,0,1,1,0,1,0,1,1,0,2,0,1,0,1
dead joint alone: 1,2,1,2,2,0,0,1,0,0,0,0,0,1,3,1,1,0,1,1,0,0,0,1,0,1
# Two rings through one location; a joint edge in both.
two rings, one joint: 1,2,1,3,4,0,0,0,0,0,0,0,0,0,0,0,1,3,0,1,0,1,1,0,0,0,1,0,1,0,2,1,0,1,0,1,2,0,2,0,1,0,1
two rings, both joint: 1,2,1,3,4,0,0,0,0,0,0,0,0,0,0,0,1,3,0,1,0,1,1,0,0,0,1,0,1,0,2,3,0,1,0,1,2,0,2,0,1,0,1
two rings, joint in common: 1,2,1,3,4,0,0,0,0,0,0,0,1,0,0,0,1,3,0,1,0,1,1,0,0,0,1,0,1,1,2,0,1,1,1,1,2,0,0,0,1,0,1
# No more is asked: no run gets there, or goes round; kinds play no part.
ring where nothing leads: 1,2,1,3,2,0,0,0,0,0,0,0,0,0,0,1,2,1,0,1,0,1,2,1,2,0,1,0,1
joint ring where nothing leads: 1,2,1,3,2,0,0,0,0,0,0,0,0,0,0,1,2,1,0,1,0,1,2,1,3,0,1,0,1
ring that no run goes round: 1,2,1,2,2,0,0,0,0,0,0,0,0,1,1,1,1,0,0,1,0,2,0,1,0,1
shared reset, forbidden: 1,2,1,2,2,0,0,0,0,1,0,0,0,1,1,0,1,0,1,1,0,2,0,1,0,1
joint reset, forbidden: 1,2,1,2,2,0,0,0,0,1,0,0,0,1,3,0,1,0,1,1,0,2,0,1,0,1
# Refusals of the plan come first.
shared ring and a reset left: 1,2,1,2,3,0,0,0,0,0,0,0,0,1,1,0,1,0,1,1,0,2,0,1,0,1,1,1,1,0,1,0,1
shared reset, a byte remains: 1,2,1,2,2,0,0,0,0,0,0,0,0,1,1,0,1,0,1,1,0,2,0,1,0,1,0
shared reset, high missing: 1,2,1,2,2,0,0,0,0,0,0,0,0,1,1,0,1,0,1,1,0,2,0,1,0
# 01's bench: three states in a row.
tiny: 1,1,1,1,0,0,0,0
tiny, forbidden: 1,1,1,1,0,0,1,0
";

/// Plans to which the full calls are put too, alike.
const BESIDE: &str = "\
# The sheet is the full one. The start is forbidden.
joint reset and a single: 1,2,1,2,2,0,0,0,0,0,0,0,0,1,3,0,1,0,1,1,0,2,0,1,0,1
start forbidden: 1,2,1,1,1,0,1,0,0,0,0,3,0,1,0,1
# A touch saves a step of waiting, or steps; from 1 on it saves none.
wait for 1: 1,1,2,2,2,0,0,0,1,0,0,0,1,0,2,0,1,0,1,1
wait for 2, two clocks: 1,2,2,2,2,0,0,0,0,1,0,0,0,0,3,0,2,0,2,0,1,0,0,2,2,2
wait for 4: 1,1,4,2,2,0,0,0,1,0,0,0,1,0,4,0,1,0,4,4
wait for 4, loop at 2: 1,1,4,2,2,0,0,0,1,0,0,0,1,0,2,0,1,0,4,4
wait for 4, without the loop: 1,1,4,2,1,0,0,0,1,0,0,1,0,4,4
three clocks: 1,3,1,3,3,0,0,0,0,0,1,0,0,0,0,0,0,0,0,1,0,0,0,0,1,1,1,0,2,7,0,1,0,1,1,1,2,0,1,0,1,0,1,0,1
two rounds saved: 1,1,4,3,3,0,0,0,0,0,1,0,0,1,1,2,2,1,0,1,0,4,1,2,0,4,4
# A face leads through lesser states: in both trails, in this one alone; the locations in another order.
face in both trails: 1,2,2,3,2,2,0,0,0,1,0,0,0,0,0,0,1,0,1,1,0,0,2,0,2,0,1,0,1
no face in either: 1,2,2,3,2,0,0,0,0,1,0,0,0,0,0,2,1,0,1,1,0,0,0,2,2,0,1,0,1
face in both, three clocks: 1,3,1,3,2,1,0,0,0,0,0,0,0,0,1,0,0,0,0,2,0,1,1,0,0,0,0,1,0,6,0,1,0,1,0,1
face here alone: 1,2,1,3,3,0,0,0,0,0,0,0,1,0,0,0,2,0,1,1,0,0,1,0,2,0,1,0,1,0,1,3,0,1,0,0
# The least edge, but a lesser state before it. A dead link keeps its number.
exit twice: 1,1,2,2,3,0,0,0,1,0,0,1,0,2,2,0,0,1,0,2,0,1,0,2,2
exit twice, the last with a reset: 1,1,2,2,3,0,0,0,1,0,0,1,0,2,2,0,0,1,0,2,0,1,1,2,2
wait for 2, dead link first: 1,1,2,2,3,0,0,0,1,1,0,1,0,1,1,0,0,1,0,2,0,1,1,2,2
# Drawn at random, with closed walks that have no joint reset but for dead links.
drawn 1: 1,1,3,4,9,2,0,4,0,0,0,4,1,2,2,1,1,0,3,0,3,0,3,3,1,0,1,2,3,3,0,0,1,2,1,3,1,2,3,0,2,1,1,3,1,3,1,3,3,3,2,0,0,3,0,2,0,0,3
drawn 2: 1,2,2,3,6,2,0,0,2,1,3,0,0,0,3,2,0,3,2,2,0,2,2,1,3,2,2,0,0,2,0,0,0,2,2,2,1,2,1,0,2,0,2,0,2,2,0,2,0,2,0,1,2,0,2,0,2
drawn 3: 1,2,1,3,4,0,0,0,0,1,1,0,0,0,0,0,2,3,0,1,1,1,1,2,2,1,1,0,1,2,0,1,0,1,0,1,0,1,2,0,0,1,1
";

/// The plans that are drawn under plans/, and some like them.
const POLLS: &str = "\
# Polls: shared; joint; joint at the first one alone; a hasty panel; one that lets a clock be set later; two repeaters.
poll: 1,2,3,4,4,0,0,2,0,0,0,4,0,4,0,1,0,0,0,1,1,1,1,0,3,1,2,2,0,3,0,3,2,1,1,3,3,0,3,2,3,0,3,3,0,0
poll, mended: 1,2,3,4,4,0,0,2,0,0,0,3,0,4,0,1,0,0,0,1,3,1,1,0,3,1,2,2,0,3,0,3,2,1,3,3,3,0,3,2,3,0,3,3,0,0
poll, mended but for the poll: 1,2,3,4,4,0,0,2,0,0,0,3,0,4,0,1,0,0,0,1,3,1,1,0,3,1,2,2,0,3,0,3,2,1,1,3,3,0,3,2,3,0,3,3,0,0
hasty: 1,3,2,4,5,0,0,3,0,0,0,0,2,0,0,0,0,2,1,0,0,0,0,1,7,2,2,0,2,0,2,1,2,4,0,2,0,2,0,2,2,0,0,0,2,0,2,0,2,1,3,0,2,2,0,2,0,2,2,3,0,2,2,0,2,0,2
hasty, west clock set later: 1,3,2,4,5,0,0,3,0,0,0,0,2,0,0,0,0,2,1,0,0,0,0,1,3,2,2,0,2,0,2,1,2,4,0,2,0,2,0,2,2,0,0,0,2,0,2,0,2,1,3,0,2,2,0,2,0,2,2,3,0,2,2,0,2,0,2
two repeaters: 1,3,3,4,5,0,0,4,0,0,0,0,2,0,0,0,0,2,1,0,0,0,0,1,7,3,3,0,3,0,3,1,2,4,0,3,0,3,0,3,2,0,0,0,3,0,3,0,3,1,3,0,3,3,0,3,0,3,2,3,0,3,3,0,3,0,3
# A test link that nobody can walk, one that can be walked and shares its resets, one without.
test link: 1,2,3,3,4,0,0,3,0,0,0,2,1,0,0,0,1,3,2,2,0,3,1,0,0,0,3,0,3,1,2,0,2,2,0,3,0,1,0,3,3,0,3
test link at 2, back with a reset: 1,2,3,3,4,0,0,3,0,0,0,2,1,0,0,0,1,3,2,2,0,3,1,0,2,0,3,0,3,1,2,0,2,2,0,3,0,1,1,2,3,0,3
test link at 2: 1,2,3,3,4,0,0,3,0,0,0,2,1,0,0,0,1,3,2,2,0,3,1,0,0,0,3,0,3,1,2,0,2,2,0,3,0,1,0,2,3,0,3
";

/// Plans of mark 2, alike, which are put with mark 1 too.
const BLANKS: &str = "\
# Mark 2: a blank stay field shuts a link of the ring, or leaves it open; shuts a link beside it. A poll without stay limits.
shared past the default: 2,2,2,2,2,0,0,0,0,0,0,0,0,1,1,0,2,2,2,1,0,2,0,2,0,1
shared at the default: 2,2,2,2,2,0,0,0,0,0,0,0,0,1,1,0,2,1,2,1,0,2,0,2,0,1
reset left past the default: 2,2,1,2,3,0,0,0,0,0,0,0,0,1,1,0,1,0,1,1,0,2,0,1,0,0,0,1,0,0,1,1,1
joint, reset left past the default: 2,2,1,2,3,0,0,0,0,0,0,0,0,1,1,0,1,0,1,1,0,3,0,1,0,0,0,1,0,0,1,1,1
poll, mended and blank: 2,2,3,4,4,0,0,0,0,0,0,0,0,0,0,1,0,0,0,1,3,1,1,0,3,1,2,2,0,3,0,2,2,1,3,3,3,0,3,2,3,0,3,3,0,0
";

/// Plans of mark 2 to which the full calls are put too, alike; and with mark 1.
const BESIDE_BLANKS: &str = "\
# A touch saves a round; it leads to a lesser state, and there are as many steps without it.
a round saved: 2,2,1,3,3,1,1,0,0,0,0,0,0,0,0,1,0,0,0,0,1,1,2,1,1,0,1,0,1,1,2,3,0,1,1,1
touch to a lesser state: 2,1,2,3,4,1,0,0,0,0,1,0,1,2,0,2,2,0,2,1,2,2,1,0,0,0,0,2,0,0,0,2
touch to a lesser state, two clocks: 2,2,2,2,2,0,0,0,0,1,0,0,1,0,1,0,1,0,1,0,1,3,0,1,1,1
touch to a lesser state, three clocks: 2,3,1,2,2,1,1,0,0,0,0,0,0,0,1,0,7,1,1,0,1,0,1,0,1,2,0,1,0,1,0,1
# Drawn at random, as above.
drawn 4: 2,1,4,4,6,1,0,0,0,5,1,5,0,0,1,0,0,3,3,0,2,0,3,3,1,2,1,4,4,2,3,0,3,3,3,0,0,2,2,1,1,1,3,3
drawn 5: 2,3,1,3,5,1,1,0,0,2,0,0,2,0,0,0,0,0,1,0,7,0,1,0,0,1,1,0,2,1,0,1,0,0,1,1,2,1,3,0,1,0,1,0,1,1,2,7,0,1,0,1,1,1,2,0,4,0,1,1,1,1,1
";

/// More states than these are too many to show.
const MANY: usize = 2_000;

/// Two clocks, ceiling 1: there and back, an edge for each clock. 22 states.
const SHARED: [u8; 26] = [
    1, 2, 1, 2, 2, 0, 0, 0, 0, 0, 0, 0, //
    0, 1, 1, 0, 1, 0, 1, //
    1, 0, 2, 0, 1, 0, 1,
];

/// One clock, ceiling 2: a loop, and a forbidden location that one waits for until 2.
/// 10 states; our trail has 8 bytes, the full one 15.
const WAIT: [u8; 20] = [
    1, 1, 2, 2, 2, 0, 0, 0, 1, 0, //
    0, 0, 1, 0, 2, //
    0, 1, 0, 2, 2,
];

/// What is lent to it: too little in each slice, just enough, more; output or none.
const SHARED_LENT: [&str; 19] = [
    "judge_joint 22,22,22,22",
    "judge_joint 21,22,22,22",
    "judge_joint 22,21,22,22",
    "judge_joint 22,22,21,22",
    "judge_joint 22,22,22,21",
    "judge_joint 25,24,23,22",
    "judge_joint 0,0,0,0",
    "marks_joint 0,22,22,22,22",
    "marks_joint 21",
    "marks_joint 22,22,22,22,22",
    "marks_joint 23,22,22,22,0",
    "write_joint 21,22,22,22,22",
    "write_joint 40",
    "write_joint 40,22,22,21,22",
    "judge",
    "marks 22",
    "rounds",
    "soonest 1",
    "plan 26",
];

/// Likewise; output that lacks a byte, suffices, has bytes to spare.
const WAIT_LENT: [&str; 20] = [
    "judge_joint 10,10,10,10",
    "judge_joint 9,10,10,10",
    "judge_joint 10,9,10,10",
    "judge_joint 10,10,9,10",
    "judge_joint 10,10,10,9",
    "judge_joint 13,12,11,10",
    "marks_joint 10,10,10,10,10",
    "marks_joint 9,10,10,10,10",
    "marks_joint 0",
    "marks_joint 0,9,10,10,10",
    "marks_joint 12,10,11,12,13",
    "marks_joint 10,10,10,10,9",
    "write_joint 8,10,10,10,10",
    "write_joint 7,10,10,10,10",
    "write_joint 0",
    "write_joint 0,10,10,9,10",
    "write_joint 15,10,11,12,13",
    "write_joint 8,10,9,10,10",
    "write 8",
    "write 14",
];

pub fn joint(text: &mut Text) {
    text.all(PLANS, put);
    lengths(text);
    text.all(BESIDE, with_full);
    text.all(POLLS, put);
    text.all(BLANKS, |text, name, plan| {
        in_both_marks(text, name, plan, put)
    });
    text.all(BESIDE_BLANKS, |text, name, plan| {
        in_both_marks(text, name, plan, with_full);
    });
    text.all(LIMITS, put);
    most_edges(text, put);
    text.note(
        "The longest walk, its resets joint or shared; the most edges, the last one joint or not.",
    );
    put(text, "ring of eight, joint", &ring(3));
    put(text, "ring of eight, shared", &ring(1));
    put(text, "24 edges, all joint", &links(3));
    put(text, "24 edges, the last single", &links(1));
    loop_plans(text);
    large(text);
    text.note("Refusals of the plan, and 8, come before 17 and 9.");
    for (name, plan) in refused() {
        text.named(&format!("{name}, joint"), &plan);
        not_taken(text);
    }
}

fn put(text: &mut Text, name: &str, plan: &[u8]) {
    text.named(&format!("{name}, joint"), plan);
    match read_model(plan) {
        Ok(model) if !model.lacks_a_joint_reset() => taken(text, model),
        _ => not_taken(text),
    }
}

/// The operations, with a byte more than they need, and our trail as evidence if it
/// is short. Of many states no more is told than the verdict.
fn taken(text: &mut Text, model: Model) {
    let states = states_of(&model);
    text.line("judge_joint");
    if states > MANY {
        return;
    }
    let (judgement, evidence) = joint_evidence_of(&Graph::new(model));
    text.line(&format!("marks_joint {}", states + 1));
    text.line(&format!("write_joint {}", evidence.len() + 1));
    if judgement.is_unsafe && evidence.len() <= SHORT {
        text.bytes(&evidence);
    }
}

/// The operations of a refused plan, with output that would be enough for none.
fn not_taken(text: &mut Text) {
    for operation in ["judge_joint", "marks_joint 2", "write_joint 0"] {
        text.line(operation);
    }
}

/// The full judge and its evidence too, which passes as well.
fn with_full(text: &mut Text, name: &str, plan: &[u8]) {
    put(text, name, plan);
    text.line("judge");
    if read_model(plan).is_err() {
        return;
    }
    let ours = ours_for(plan);
    text.line(&format!("write {}", ours.len()));
    if ours.len() <= SHORT {
        text.bytes(&ours);
    }
}

fn in_both_marks(text: &mut Text, name: &str, plan: &[u8], put: Put) {
    for mark in [2, 1] {
        let plan = with_mark(plan, mark).expect("a plan spells numbers");
        put(text, &format!("{name}, mark {mark}"), &plan);
    }
}

fn lengths(text: &mut Text) {
    text.note("Shared: 8, then 17, then 9. Other calls take the plan.");
    put(text, "shared reset", &SHARED);
    SHARED_LENT
        .iter()
        .for_each(|operation| text.line(operation));
    text.bytes(&[9]);
    text.note("Padding changes nothing.");
    put(text, "shared reset, padded", &padded(&SHARED));
    put(text, "wait for 2, padded", &padded(&WAIT));
    text.note("Joint: a trail of 8 bytes, while the full one has 15.");
    with_full(text, "wait for 2", &WAIT);
    WAIT_LENT.iter().for_each(|operation| text.line(operation));
}

/// Eight locations in a ring: the last edge has this mask, the one before the rest.
fn ring(mask: u8) -> Vec<u8> {
    let mut plan = vec![1, 2, 1, 8, 8, 0];
    plan.extend([0; 24]);
    for edge in 0..8 {
        let mask = [0, 3 - mask, mask][usize::from(edge.max(5) - 5)];
        plan.extend([edge, (edge + 1) % 8, mask, 0, 1, 0, 1]);
    }
    plan
}

/// Twelve links there, the last of which has this mask, and twelve back.
fn links(mask: u8) -> Vec<u8> {
    let there = [0, 1, 3, 0, 1, 0, 1].repeat(11);
    let back = [1, 0, 2, 0, 1, 0, 1].repeat(12);
    let header = [1, 2, 1, 2, 24, 0, 0, 0, 0, 0, 0, 0];
    [&header, &back[..], &there, &[0, 1, mask, 0, 1, 0, 1]].concat()
}

/// Three locations of three clocks at ceiling 4, with edges there and back between
/// two; the largest plan. The usual scratch is enough for none.
fn large(text: &mut Text) {
    const LENT: &str = "5931,5931,5931,5931";
    text.note("More states than the usual scratch: 7, then 8, then 17, then 9.");
    for (name, there, back) in [("shared", 3, 4), ("joint", 7, 4), ("left", 3, 3)] {
        let mut plan = vec![1, 3, 4, 3, 2, 0];
        plan.extend([0, 1, 1, 1].repeat(3));
        plan.extend([0, 1, there, 0, 4, 0, 4, 0, 4]);
        plan.extend([1, 0, back, 0, 4, 0, 4, 0, 4]);
        text.named(&format!("more states than scratch, {name}"), &plan);
        text.line("judge_joint");
        text.line(&format!("judge_joint {LENT}"));
        text.line("judge_joint 5931,5931,5930,5931");
        text.line(&format!("marks_joint 9,{LENT}"));
        text.line(&format!("write_joint 9,{LENT}"));
    }
    text.named("largest, joint", &largest());
    text.line("judge_joint");
    text.line_with_scratch("judge_joint", &enough(super::MOST));
}

/// 01's loop plan, which shares its resets, and two others.
fn loop_plans(text: &mut Text) {
    text.note("01's loop plan, with each mask of the first edge in its loop but 0.");
    for mask in [1, 2, 3] {
        let plan = changed(LOOP, 27, mask);
        put(text, &format!("loop, mask {mask}"), &plan);
    }
}
