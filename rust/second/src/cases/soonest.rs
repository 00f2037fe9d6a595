//! The least time from the start to each location of a plan, and to numbers that
//! no location has: plans for each question about request (e) of document 02, and
//! the plans of the other cases.

use super::evidence::{padded, refused};
use super::{enough, Text};
use crate::blanks::with_mark;
use crate::calls::states_of;
use crate::model::{read_model, Model};
use crate::program::bytes_of_text;

/// One clock, ceiling 1, two locations with an edge at 1: six states.
const PAIR: [u8; 15] = [1, 1, 1, 2, 1, 0, 0, 0, 0, 0, 0, 1, 0, 1, 1];

/// Numbers that no location of the pair has. Cut to 8, 16, 32 or 63 bits some
/// would be 0 or 1, and so would one times the three regions, cut to 64 bits.
const BEYOND: [u64; 18] = [
    2,
    3,
    7,
    8,
    255,
    256,
    257,
    65_535,
    65_536,
    65_537,
    (1 << 32) - 1,
    1 << 32,
    (1 << 32) + 1,
    6_148_914_691_236_517_206,
    (1 << 63) - 1,
    1 << 63,
    (1 << 63) + 1,
    u64::MAX,
];

/// Scratch of the pair: just enough, and more in one slice or all; too short in
/// each slice.
const SCRATCH: [&str; 8] = [
    "6,6,6,6",
    "6,7,6,6",
    "9,8,7,6",
    "15816,15816,15816,15816",
    "5,6,6,6",
    "6,5,6,6",
    "6,6,5,6",
    "6,6,6,5",
];

/// A line for each plan, its name and its bytes; and comments.
const PLANS: &str = "\
# The start gives 0: it is left and entered again, forbidden, shut but for the start.
start entered again: 1,1,2,2,2,1,0,0,0,0,1,0,1,1,1,0,1,1,1,2
start forbidden: 1,1,2,2,2,1,0,0,1,0,1,0,1,1,1,0,1,1,1,2
start with limit 0: 1,1,2,3,3,0,0,1,0,0,0,0,0,1,0,0,0,0,2,0,1,1,1,0,1,2,2
start that is not the first: 1,2,1,3,2,2,0,0,0,0,0,0,1,1,1,2,1,1,0,0,0,0,1,0,3,1,1,0,1
# The least time, not the fewest jumps: the sooner way has two jumps, or three; it is drawn last, or first.
sooner by two jumps: 1,1,3,3,3,0,0,0,0,0,0,0,0,2,0,3,3,0,1,0,1,3,1,2,0,2,3
sooner by two jumps, drawn first: 1,1,3,3,3,0,0,0,0,0,0,0,1,2,0,2,3,0,1,0,1,3,0,2,0,3,3
sooner by three jumps: 1,1,4,4,4,0,0,0,0,0,0,0,0,0,0,3,1,4,4,0,1,1,1,1,1,2,1,0,4,2,3,0,2,4
sooner with the clock kept: 1,1,4,3,3,0,0,0,0,0,0,0,0,1,0,2,2,0,1,1,1,1,1,2,0,4,4
# One may enter later than one can, to be in time for the next edge.
entered later on purpose: 1,2,3,3,2,0,0,0,0,0,1,0,0,0,0,0,1,1,0,3,0,3,1,2,0,0,0,3,3
sooner entry that leads nowhere: 1,1,4,4,4,0,0,0,0,0,0,0,0,0,0,1,0,1,1,0,2,1,2,2,2,1,0,0,4,1,3,0,0,0
# Through forbidden locations, and to them.
through a forbidden location: 1,1,2,3,2,0,0,0,1,0,0,0,0,1,0,1,1,1,2,0,2,2
all forbidden: 1,1,2,3,2,0,1,0,1,0,1,0,0,1,0,1,1,1,2,0,2,2
# An entry that a stay limit refuses; the same edge with a reset, of that clock or of the other; a sooner entry.
entry refused: 1,1,2,2,1,0,0,0,0,2,0,1,0,2,2
entry with a reset: 1,1,2,2,1,0,0,0,0,2,0,1,1,2,2
entry with time left: 1,1,2,2,1,0,0,0,0,2,0,1,0,1,2
entry refused by the second clock: 1,2,2,2,1,0,0,0,0,0,0,2,0,1,1,2,2,0,2
entry with a reset of the second clock: 1,2,2,2,1,0,0,0,0,0,0,2,0,1,2,2,2,0,2
entry at limit 0: 1,1,2,3,2,0,0,0,0,1,0,1,0,1,1,2,2,0,2,0,1,2
# A wait that a stay limit cuts short, that of another clock, the ceiling; a jump that lets one wait on.
wait cut short: 1,1,2,2,1,0,0,2,0,0,0,1,0,2,2
wait just long enough: 1,1,2,2,1,0,0,3,0,0,0,1,0,2,2
wait cut short by the second clock: 1,2,2,2,1,0,0,0,2,0,0,0,0,1,0,2,2,0,2
wait cut short by the ceiling: 1,2,2,4,3,0,0,0,0,0,0,0,0,0,0,0,0,0,0,1,1,2,2,0,2,1,2,0,1,2,0,2,1,3,0,0,0,2,2
wait past a limit after a jump: 1,2,4,3,4,0,0,2,0,0,0,0,0,0,0,0,1,1,1,1,0,4,1,0,3,0,4,4,4,1,2,1,0,4,3,3,0,2,0,1,1,3,3
# Guards of 0: no time passes, any number of jumps; too late for one; a loop without end.
jumps at 0: 1,1,1,4,3,0,0,0,0,0,0,0,0,0,0,1,0,0,0,1,2,0,0,0,2,3,1,0,1
too late for high 0: 1,1,1,3,2,0,0,0,0,0,0,0,0,1,0,1,1,1,2,0,0,0
in time for high 0 by a reset: 1,1,1,3,2,0,0,0,0,0,0,0,0,1,1,1,1,1,2,0,0,0
loop at 0 for ever: 1,1,1,3,3,0,0,1,0,1,0,0,0,1,1,0,0,1,0,1,0,0,1,2,0,1,1
edge twice, the later one sooner: 1,1,4,2,2,0,0,0,0,0,0,1,0,3,4,0,1,0,1,4
# No run gets there: no edge, an edge from nowhere, clocks that never part, a way in that no run keeps.
no edge: 1,1,1,3,1,0,0,0,0,0,0,0,1,2,0,0,1
edge backward alone: 1,1,1,2,1,0,0,0,0,0,1,0,0,0,1
clocks that never part: 1,2,1,2,1,0,0,0,0,0,0,0,0,1,0,0,0,1,1
clocks that part: 1,2,2,3,2,0,0,0,0,0,0,0,0,0,0,0,1,1,1,1,0,2,1,2,0,0,0,1,1
# Loops walked to let one clock run ahead of another: a unit with each turn; as trial found them.
ahead by 1: 1,2,2,4,4,0,0,0,0,0,0,0,0,0,0,0,0,0,0,1,1,1,1,0,2,1,2,2,0,2,2,2,2,0,1,2,2,0,2,0,3,0,0,0,1,1
ahead by 4: 1,2,4,4,4,0,0,0,0,0,0,0,0,0,0,0,0,0,0,1,1,1,1,0,4,1,2,2,0,4,4,4,2,0,1,4,4,0,4,0,3,0,0,0,4,4
ahead by 2 or 3, whichever is sooner: 1,2,4,5,6,0,0,0,0,0,0,0,0,0,0,0,0,0,0,0,0,0,1,1,1,1,0,4,1,2,2,0,4,4,4,2,0,1,4,4,0,4,0,3,0,0,0,3,3,0,4,3,0,0,2,2,4,3,3,4,4,0,4
three clocks: 1,3,2,4,6,0,0,0,0,0,0,0,0,0,0,0,0,2,0,0,0,0,0,2,5,0,2,0,2,2,2,2,1,5,0,2,0,1,1,1,2,1,3,0,2,2,2,0,2,1,0,2,0,2,2,2,1,2,1,0,6,1,1,0,2,2,2,0,3,0,2,2,1,1,1,1
three clocks, five locations: 1,3,2,5,8,0,0,0,0,0,0,0,0,0,0,0,0,0,0,0,0,0,0,0,0,0,1,2,1,2,2,1,2,0,2,2,0,3,1,1,0,2,0,2,0,1,4,0,2,0,2,2,2,1,2,7,0,2,1,2,2,2,3,0,2,0,2,0,1,0,2,1,3,3,0,2,2,2,0,2,0,1,5,0,0,2,2,0,0,2,4,0,2,2,2,2,2,2
two clocks: 1,2,3,4,8,0,0,0,0,0,0,0,0,0,0,0,0,0,1,2,2,0,3,0,3,0,1,2,0,3,3,3,0,2,2,2,2,0,3,1,2,1,3,3,1,3,2,2,3,0,3,3,3,2,0,1,3,3,0,3,0,0,3,0,2,1,3,2,3,0,1,1,3,3
";

/// Plans of mark 2, alike, which are put with mark 1 too.
const BLANKS: &str = "\
# Mark 2: a blank stay field refuses the sooner entry, refuses the only one, refuses none.
later by a blank limit: 2,1,3,3,3,0,0,0,0,0,0,0,0,1,0,2,2,0,1,1,3,3,1,2,0,0,1
shut by a blank limit: 2,1,2,3,2,0,0,0,0,0,0,0,0,1,0,2,2,1,2,0,0,1
open where no edge leaves: 2,1,2,2,1,0,0,0,0,0,0,1,0,2,2
later by a blank limit of the second clock: 2,2,3,3,3,0,0,0,0,0,0,0,0,0,0,0,1,1,1,3,0,3,0,1,2,3,3,0,3,1,2,0,0,3,0,0
";

/// The longest way round known: eight locations, three clocks, ceiling 4.
const LONGEST: &str = "1,3,4,8,23,0,0,4,0,0,0,4,0,0,0,0,0,0,0,0,0,0,0,0,0,0,0,4,0,0,0,0,0,0,0,0,0,0,1,2,1,3,3,0,4,0,4,6,0,1,1,1,0,1,0,4,1,5,2,0,4,4,4,0,4,6,1,1,4,4,0,4,0,4,2,4,2,1,3,4,4,0,4,6,2,2,0,3,4,4,0,4,5,4,1,3,4,0,4,0,4,2,4,6,0,4,2,2,2,2,2,0,5,4,4,1,4,3,4,4,3,1,4,4,0,4,0,4,4,1,4,0,4,0,4,4,4,2,6,7,4,4,0,4,3,3,6,0,1,2,2,0,4,0,1,3,2,4,0,3,0,3,3,4,3,6,4,0,4,0,4,4,4,0,3,2,0,4,3,3,0,4,1,0,1,0,0,2,4,2,3,3,6,6,0,3,4,4,0,3,5,3,5,2,3,0,4,4,4,5,4,5,1,1,1,1,3,3,4,0,3,2,3,4,4,3,3,3,6,6,4,4,0,1,0,0,0,7,0,1,1,1,1,4,4";

pub fn soonest(text: &mut Text) {
    let others = plans_so_far(text);
    numbers(text);
    text.all(PLANS, everywhere);
    text.note("Padding changes nothing.");
    everywhere(text, "pair, padded", &padded(&PAIR));
    text.all(BLANKS, in_both_marks);
    longest(text);
    text.note("Refusals of the plan, and 8, come before 16.");
    for (name, plan) in refused() {
        text.named(&format!("{name}, soonest"), &plan);
        asked(text, [0, 9], "");
    }
    text.note("The plans above.");
    for (name, plan) in others {
        everywhere(text, &name, &plan);
    }
}

/// Numbers of any size, and scratch.
fn numbers(text: &mut Text) {
    text.named("pair, soonest", &PAIR);
    text.note("Each location, and numbers that none has.");
    asked(text, [0, 1], "");
    asked(text, BEYOND, "");
    text.note("Scratch: 8 comes before 16, and before the start's 0.");
    for scratch in SCRATCH {
        asked(text, [1, 2, u64::MAX], scratch);
    }
    asked(text, [0], "5,5,5,5");
    asked(text, [0, 1, 2], "0,0,0,0");
}

/// All arrays full but that of edges: the scratch that the program lends at
/// first is too short.
fn longest(text: &mut Text) {
    text.note("The longest way round that was found by trial, at the limits of 01.");
    let plan = bytes_of_text(LONGEST).expect("a plan as a list");
    everywhere(text, "longest", &plan);
    asked(text, [7, 8], "");
    asked(text, [8, 263], "15816,15816,15816,15816");
    asked(text, [7], "15816,15816,15815,15816");
}

fn asked<const N: usize>(text: &mut Text, locations: [u64; N], scratch: &str) {
    for location in locations {
        text.line_with_scratch(&format!("soonest {location}"), scratch);
    }
}

/// An accepted plan with each of its locations.
fn everywhere(text: &mut Text, name: &str, plan: &[u8]) {
    text.named(&format!("{name}, soonest"), plan);
    each_location(text, plan);
}

pub fn each_location(text: &mut Text, plan: &[u8]) {
    let model = read_model(plan).expect("an accepted plan");
    for location in 0..model.locations.len() as u64 {
        asked(text, [location], &enough(states_of(&model)));
    }
}

fn in_both_marks(text: &mut Text, name: &str, plan: &[u8]) {
    for mark in [2, 1] {
        let plan = with_mark(plan, mark).expect("a plan spells numbers");
        everywhere(text, &format!("{name}, mark {mark}"), &plan);
    }
}

/// The accepted plans of the text with more than one location and some edge, the
/// first of those that read alike.
fn plans_so_far(text: &Text) -> Vec<(String, Vec<u8>)> {
    let mut models: Vec<Model> = Vec::new();
    let mut plans = text.plans();
    let has_ways = |model: &Model| model.locations.len() > 1 && !model.edges.is_empty();
    plans.retain(|(_, plan)| match read_model(plan) {
        Ok(model) if has_ways(&model) && !models.contains(&model) => {
            models.push(model);
            true
        }
        _ => false,
    });
    plans
}
