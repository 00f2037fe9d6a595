//! How many rounds the marking takes, and how many states it marks: plans of
//! 01's bench, and plans that show which round marks what. Those of `operations`
//! have such a line as well.

use super::evidence::{padded, refused, LOOP};
use super::reading::{most_edges, LIMITS};
use super::Text;
use crate::blanks::with_mark;

/// A line for each plan, its name and its bytes; and comments.
const BENCH: &str = "\
# 01's bench: three states in a row, whatever their kind.
tiny: 1,1,1,1,0,0,0,0
tiny, forbidden: 1,1,1,1,0,0,1,0
# 5 locations, spelt with three bytes; a number of four.
number 133 128 0: 1,1,1,133,128,0,0,0,0,0,0,0,0,0,0,0,0,0
number 133 128 128: 1,1,1,133,128,128,0,0,0,0,0,0,0,0,0,0,0,0
";

/// Which round marks what, alike.
const STEPS: &str = "\
# The start alone is marked: the first round is the last.
point: 1,1,1,1,0,0,0,1
# Time alone, up to a stay limit: as many rounds as marked states.
chain: 1,2,3,1,0,0,0,3,0
# In the last round but one a touch alone marks a state.
touched last, one clock: 1,1,1,2,2,1,0,0,0,0,1,0,0,1,1,0,0,1,1,1
touched last, three clocks: 1,3,1,2,2,0,0,0,0,0,0,0,0,0,0,1,0,1,1,0,1,0,1,1,1,7,1,1,0,1,0,1
# The same; without touches fewer states would be marked.
touched last, two clocks: 1,2,1,3,4,0,0,0,0,0,0,0,0,0,0,0,1,1,1,1,0,1,1,2,0,1,1,0,1,2,2,3,0,1,1,1,1,0,2,0,1,0,1
# Without faces it would take a round more.
face, two clocks: 1,2,2,3,3,1,0,0,0,0,0,0,0,0,0,1,2,2,0,2,1,2,1,0,3,0,2,2,2,2,1,1,0,1,0,2
face, three clocks: 1,3,1,3,3,0,0,0,0,0,0,0,0,0,0,0,0,0,2,1,1,0,1,0,1,0,1,0,2,5,1,1,0,1,0,1,1,0,6,0,1,0,1,0,1
";

/// One clock, ceiling 2, one location with an edge that resets the clock.
const ONE_LOOP: [u8; 13] = [1, 1, 2, 1, 1, 0, 0, 0, 0, 0, 1, 0, 2];

/// Plans of mark 2, alike, which are put with mark 1 too.
const BLANKS: &str = "\
# Mark 2: a blank stay field ends time early, shuts a location, means what poll spells out.
loop that closes at 1: 2,1,4,1,1,0,0,0,0,0,1,0,1
loop that closes at 0: 2,1,1,1,1,0,0,0,0,0,1,0,0
left at 0: 2,1,1,2,2,0,0,0,1,0,0,1,0,1,1,1,0,1,0,0
poll, blank: 2,2,3,4,4,0,0,0,0,0,0,0,0,0,0,1,0,0,0,1,1,1,1,0,3,1,2,2,0,3,0,3,2,1,1,3,3,0,3,2,3,0,3,3,0,0
";

pub fn rounds(text: &mut Text) {
    text.all(BENCH, counted);
    counted(text, "loop", &LOOP);
    text.all(LIMITS, counted);
    most_edges(text, counted);
    text.all(STEPS, counted);
    text.note("One round goes to 1 by time and past it by a touch; padding changes nothing.");
    counted(text, "one loop", &ONE_LOOP);
    counted(text, "one loop, padded", &padded(&ONE_LOOP));
    text.all(BLANKS, in_both_marks);
    text.note("Refusals of the plan; more states than scratch is none.");
    for (name, plan) in refused() {
        counted(text, name, &plan);
    }
}

fn counted(text: &mut Text, name: &str, plan: &[u8]) {
    text.named(&format!("{name}, rounds"), plan);
    text.line("rounds");
}

fn in_both_marks(text: &mut Text, name: &str, plan: &[u8]) {
    for mark in [2, 1] {
        let plan = with_mark(plan, mark).expect("a plan spells numbers");
        counted(text, &format!("{name}, mark {mark}"), &plan);
    }
}
