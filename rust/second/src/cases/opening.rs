//! Edges that never open (request (f) of document 02): closed walks through them,
//! which do not count, and walks on which another reading would answer otherwise.

use super::blanks::{every_operation, ours_for, refused, SHORT};
use super::evidence::{changed, padded, LOOP, LOOP_TRAIL};
use super::reading::eight;
use super::soonest::each_location;
use super::Text;
use crate::blanks::with_mark;
use crate::model::read_model;

/// A line for each plan, its name and its bytes; and comments.
const PLANS: &str = "\
# A loop: its low is above the limit, at it; a limit of 0; the ceiling; highs play no part.
loop above the limit: 1,1,2,1,1,0,0,2,0,0,0,2,2
loop at the limit: 1,1,2,1,1,0,0,2,0,0,0,1,2
loop above limit 0: 1,1,1,1,1,0,0,1,0,0,0,1,1
loop at limit 0: 1,1,1,1,1,0,0,1,0,0,0,0,1
loop above limit 3: 1,1,4,1,1,0,0,4,0,0,0,4,4
loop at the ceiling: 1,1,4,1,1,0,0,5,0,0,0,4,4
loop at the limit, high far above: 1,1,4,1,1,0,0,2,0,0,0,1,4
# There and back: one dead link is enough, by the location that it leaves or by the one that it enters.
left below the low: 1,1,2,2,2,0,0,2,1,0,0,1,0,2,2,1,0,0,0,2
left at the low: 1,1,2,2,2,0,0,2,1,0,0,1,0,1,2,1,0,0,0,2
entered below the low: 1,1,2,2,2,0,0,0,1,2,0,1,0,2,2,1,0,0,0,2
entered at the low: 1,1,2,2,2,0,0,0,1,2,0,1,0,1,2,1,0,0,0,2
dead link back: 1,1,2,2,2,0,0,0,1,2,0,1,0,1,1,1,0,0,2,2
dead link back, drawn first: 1,1,2,2,2,0,0,0,1,2,1,0,0,2,2,0,1,0,1,1
live link back: 1,1,2,2,2,0,0,0,1,2,0,1,0,1,1,1,0,0,1,2
walk of three, dead in the middle: 1,1,1,3,3,0,0,0,0,1,0,0,0,1,0,0,1,1,2,0,1,1,2,0,0,0,1
# Two clocks: entered below the low of the first, which is kept or reset; then the limit left is below it.
first clock kept: 1,2,2,2,2,0,0,0,0,0,2,0,0,1,0,2,2,0,2,1,0,0,0,2,0,2
first clock reset: 1,2,2,2,2,0,0,0,0,0,2,0,0,1,1,2,2,0,2,1,0,1,0,2,0,2
first clock kept, second reset: 1,2,2,2,2,0,0,0,0,0,2,0,0,1,2,2,2,0,2,1,0,2,0,2,0,2
first clock reset, second on the way back: 1,2,2,2,2,0,0,0,0,0,2,0,0,1,1,2,2,0,2,1,0,2,0,2,0,2
reset too late: 1,2,2,1,1,0,0,2,0,0,0,1,2,2,0,2
reset at the limit: 1,2,2,1,1,0,0,2,0,0,0,1,1,2,0,2
# An edge counts or not as a whole: it is dead by the second clock, and the walk leaves the first.
dead by the clock that it resets: 1,2,2,1,1,0,0,0,2,0,0,2,0,2,2,2
dead by the clock that the way back resets: 1,2,2,2,2,0,0,0,0,0,0,2,0,1,0,0,2,2,2,1,0,2,0,2,0,2
live, the way back resets one clock: 1,2,2,2,2,0,0,0,0,0,0,2,0,1,0,0,2,1,2,1,0,2,0,2,0,2
# Three clocks, of which one is enough.
dead by the first of three: 1,3,1,1,1,0,0,1,0,0,0,0,0,1,1,0,1,0,1
dead by the second of three: 1,3,1,1,1,0,0,0,1,0,0,0,0,0,1,1,1,0,1
dead by the third of three: 1,3,1,1,1,0,0,0,0,1,0,0,0,0,1,0,1,1,1
three clocks at their limits: 1,3,1,1,1,0,0,0,1,0,0,0,0,1,1,0,1,1,1
third of three kept: 1,3,1,2,2,0,0,0,0,0,0,0,0,1,0,1,3,0,1,0,1,1,1,1,0,3,0,1,0,1,0,1
third of three reset: 1,3,1,2,2,0,0,0,0,0,0,0,0,1,0,1,4,0,1,0,1,1,1,1,0,4,0,1,0,1,0,1
# Two walks: it takes one that counts, wherever its edges stand.
dead loop and live loop: 1,1,2,1,2,0,0,2,0,0,0,2,2,0,0,0,0,2
live loop and dead loop: 1,1,2,1,2,0,0,2,0,0,0,0,2,0,0,0,2,2
dead loop and loop with a reset: 1,1,2,1,2,0,0,2,0,0,0,2,2,0,0,1,0,2
dead link beside a live one: 1,1,2,2,3,0,0,2,0,0,0,1,0,2,2,0,1,0,1,2,1,0,0,0,2
dead link beside one with a reset: 1,1,2,2,3,0,0,2,0,0,0,1,0,2,2,0,1,1,1,2,1,0,0,0,2
# No more is asked: no run gets there, or goes round, or past a dead link.
loop where nothing leads: 1,1,1,2,1,0,0,0,0,0,1,1,0,0,1
dead loop where nothing leads: 1,1,1,2,1,0,0,0,0,1,1,1,0,1,1
loop behind a dead link: 1,1,2,2,2,0,0,2,0,0,0,1,0,2,2,1,1,0,0,2
clocks that never part: 1,2,1,1,1,0,0,0,0,0,0,0,1,1,0,0
# 6 comes before 7, for a walk that counts or not; so does 1.
loop at the limit, a byte remains: 1,1,2,1,1,0,0,2,0,0,0,1,2,0
loop above the limit, a byte remains: 1,1,2,1,1,0,0,2,0,0,0,2,2,0
loop at the limit, high missing: 1,1,2,1,1,0,0,2,0,0,0,1
";

/// Three locations at the largest ceiling: more states than scratch.
const LARGE: &str = "\
# 7 comes before 8.
more states than scratch, live loop: 1,3,4,3,1,0,0,1,0,0,0,0,0,0,0,0,0,0,0,0,0,0,4,0,4,0,4
more states than scratch, dead loop: 1,3,4,3,1,0,0,1,0,0,0,0,0,0,0,0,0,0,0,0,0,1,4,0,4,0,4
";

/// Plans of mark 2, alike, which are put with mark 1 too.
const BLANKS: &str = "\
# Mark 2: entered past what a blank stay field means, at it; all edges that leave count for it, dead ones too.
past the default: 2,1,2,2,2,0,0,0,0,0,0,1,0,2,2,1,0,0,0,1
past the default of the second clock: 2,2,2,2,2,0,0,0,0,1,0,0,0,1,0,0,2,2,2,1,0,0,0,2,0,1
at the default: 2,1,2,2,2,0,0,0,0,0,0,1,0,1,2,1,0,0,0,1
past the default, stay M+1: 2,1,2,2,2,0,0,0,0,3,0,1,0,2,2,1,0,0,0,1
default of a dead link: 2,1,2,3,3,0,0,0,0,0,0,1,0,1,0,2,2,1,0,0,0,1,1,2,0,2,2
default of the loop itself: 2,1,2,1,1,0,0,0,0,0,0,2,2
limit spelt out: 2,1,2,1,1,0,0,2,0,0,0,2,2
";

pub fn opening(text: &mut Text) {
    text.all(PLANS, judged_or_refused);
    text.all(BLANKS, in_both_marks);
    text.all(LARGE, refused);
    lengths(text);
    text.note("The longest walk; the most edges, of which the last is live.");
    judged_or_refused(text, "ring of eight, one link dead", &ring(1));
    judged_or_refused(text, "ring of eight, that link live", &ring(0));
    judged_or_refused(text, "24 dead loops", &loops(1));
    judged_or_refused(text, "23 dead loops and a live one", &loops(0));
    loop_plans(text);
}

/// An accepted plan with every operation and our evidence where it is short.
fn judged_or_refused(text: &mut Text, name: &str, plan: &[u8]) {
    if read_model(plan).is_err() {
        return refused(text, name, plan);
    }
    every_operation(text, name, plan);
    each_location(text, plan);
    let ours = ours_for(plan);
    if ours.len() <= SHORT {
        text.bytes(&ours);
    }
}

fn in_both_marks(text: &mut Text, name: &str, plan: &[u8]) {
    for mark in [2, 1] {
        let plan = with_mark(plan, mark).expect("a plan spells numbers");
        judged_or_refused(text, &format!("{name}, mark {mark}"), &plan);
    }
}

/// Five states: what is lent is looked at after 7, evidence too. Padding changes
/// nothing.
fn lengths(text: &mut Text) {
    const LENT: [&str; 6] = [
        "judge 4,4,4,4",
        "judge 5,5,4,5",
        "judge 5,5,5,5",
        "marks 4,5,5,5,5",
        "write 0",
        "plan 0",
    ];
    for (name, low) in [("at", 1), ("above", 2)] {
        let plan = [1, 1, 2, 1, 1, 0, 0, 2, 0, 0, 0, low, 2];
        text.named(&format!("loop {name} the limit, lengths"), &plan);
        LENT.iter().for_each(|operation| text.line(operation));
        text.group(
            "first number 9; a trail over the loop",
            &[&[9], &[2, 3, 0, 0, 1, 0]],
        );
        judged_or_refused(
            text,
            &format!("loop {name} the limit, padded"),
            &padded(&plan),
        );
    }
}

/// Eight locations, no reset; the fifth link opens at 1 and leaves a location
/// with this stay field.
fn ring(stay: u8) -> Vec<u8> {
    let mut plan = eight(0);
    plan[6 + 2 * 4 + 1] = stay;
    plan[22 + 5 * 4 + 3..][..2].fill(1);
    plan
}

/// 24 edges from a location with limit 0 to itself; the last has this low.
fn loops(low: u8) -> Vec<u8> {
    let dead = [0, 0, 0, 1, 1].repeat(23);
    [&[1, 1, 1, 1, 24, 0, 0, 1], &dead[..], &[0, 0, 0, low, 1]].concat()
}

/// 01's loop plan, a stay field in it being 2, with one more edge.
fn loop_with(stay: usize, edge: usize, link: [u8; 7]) -> Vec<u8> {
    let mut plan = changed(changed(LOOP, 4, 5), stay, 2).to_vec();
    let at = 18 + 7 * edge;
    plan.splice(at..at, link);
    plan
}

/// Its locations 0 and 3 with a limit of 1 for the first clock, where a link that
/// keeps the clocks leads from 0 to itself, or from 3 back into the loop. What
/// passes for a plan may not pass where other edges have its numbers.
fn loop_plans(text: &mut Text) {
    let (start, goal) = (7, 16);
    let link = |from, to, low| [from, to, 0, low, 2, 0, 2];
    let without = changed(LOOP, start, 2).to_vec();
    let last = loop_with(start, 4, link(0, 0, 2));
    let first = loop_with(start, 0, link(0, 0, 2));
    let shifted = ours_for(&first);
    text.note("01's loop plan with a limit: as without the dead link, with edge numbers as drawn.");
    for (name, plan) in [
        ("loop, no link", &without),
        ("loop, dead link drawn last", &last),
        ("loop, dead link drawn first", &first),
        ("loop, dead link back", &loop_with(goal, 4, link(3, 1, 2))),
    ] {
        every_operation(text, name, plan);
        each_location(text, plan);
        text.group(
            "01's trail; ours with the link first; over the link",
            &[
                &LOOP_TRAIL,
                &shifted,
                &[2, 3, 0, 0, 1, 0],
                &[2, 3, 0, 0, 1, 4],
            ],
        );
    }
    refused(text, "loop, live link", &loop_with(start, 4, link(0, 0, 1)));
    refused(
        text,
        "loop, live link back",
        &loop_with(goal, 4, link(3, 1, 1)),
    );
}
