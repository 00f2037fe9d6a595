//! Plans that are put in their shortest form, and plans that are refused.

use super::evidence::{padded, refused, LOOP, SMALL_LOOP};
use super::operations::largest;
use super::Text;
use crate::model::read_plan;
use crate::shortest_plan::shortest_plan;

/// A line for each plan, its name and its bytes; and comments.
const PLANS: &str = "\
# Padding, and a stay field of M+1: all spell one plan, but for the kind of the last.
tiny: 1,1,1,1,0,0,0,0
tiny, stay M+1: 1,1,1,1,0,0,0,2
tiny, two bytes each: 129,0,129,0,129,0,129,0,128,0,128,0,128,0,130,0
tiny, three bytes each: 129,128,0,129,128,0,129,128,0,129,128,0,128,128,0,128,128,0,128,128,0,128,128,0
tiny, forbidden: 1,1,1,1,0,0,129,0,130,128,0
# Every stay field at every ceiling: only 0 and M+1 become 0.
stays at ceiling 1: 1,1,1,3,0,2,1,0,1,1,1,2
stays at ceiling 2: 1,1,2,4,0,1,0,0,0,1,0,2,0,3
stays at ceiling 3: 1,1,3,5,0,0,0,4,0,3,0,2,0,1,0,0
stays at ceiling 4: 1,1,4,6,0,5,0,0,0,1,0,2,0,3,0,4,0,5
stays of two clocks: 1,2,2,3,0,1,0,3,0,0,1,3,1,2,128,0
stays of three clocks: 1,3,2,3,0,2,0,3,0,1,1,0,3,2,0,2,1,131,0
# Headers.
mark padded: 129,128,0,1,1,1,0,0,0,0
locations 133 0: 1,1,1,133,0,0,0,0,0,0,0,0,0,0,0,0,0
locations 133 128 0: 1,1,1,133,128,0,0,0,0,0,0,0,0,0,0,0,0,0
clocks and ceiling padded: 1,131,0,129,0,1,0,0,0,0,1,2
start padded: 1,1,1,8,0,135,0,0,0,0,0,0,0,0,0,0,0,0,0,0,0,0,0
# Edges stay as they are drawn: in their order, twice, shut.
edge padded: 1,1,1,1,129,0,0,0,0,128,0,128,128,0,129,0,128,0,129,128,0
edges in an order: 1,1,1,2,2,0,0,0,1,0,0,1,0,0,1,0,1,1,1,1
edges in the other order: 1,1,1,2,2,0,0,0,1,0,0,1,1,1,1,0,1,0,0,1
edge twice: 1,1,1,2,2,0,0,0,1,2,0,1,1,0,1,0,1,1,0,1
edge shut: 1,1,2,2,1,0,0,1,0,3,0,1,0,2,2
# Stay fields of M+1 in place of each 0; limits below the ceiling.
loop, stay M+1: 1,2,2,4,4,0,0,3,3,0,3,3,0,3,3,1,3,3,0,1,2,1,1,1,1,1,2,1,0,2,0,2,2,1,2,0,2,2,2,2,3,0,0,0,2,2
poll: 1,2,3,4,4,0,0,2,0,0,0,4,0,4,0,1,0,0,0,1,1,1,1,0,3,1,2,2,0,3,0,3,2,1,1,3,3,0,3,2,3,0,3,3,0,0
hasty: 1,3,2,4,5,0,0,3,3,3,0,3,2,3,0,3,3,2,1,3,3,3,0,1,7,2,2,0,2,0,2,1,2,4,0,2,0,2,0,2,2,0,0,0,2,0,2,0,2,1,3,0,2,2,0,2,0,2,2,3,0,2,2,0,2,0,2
";

/// Output that is long enough for the refused plans, were they accepted.
const LONG: usize = 40;

pub fn plans(text: &mut Text) {
    text.all(PLANS, redrawn);
    text.note("Loops that only drift can leave.");
    redrawn(text, "loop", &LOOP);
    redrawn(text, "loop, padded", &padded(&LOOP));
    redrawn(text, "small loop, padded", &padded(&SMALL_LOOP));
    text.note("Every array full, with limits at the ceiling and below it.");
    redrawn(text, "largest", &largest());
    redrawn(text, "largest, padded", &padded(&largest()));
    text.note("A refusal of the plan comes before 9; more states than scratch is none.");
    for (name, model) in refused() {
        redrawn(text, name, &model);
    }
}

/// A plan with output that lacks a byte, suffices, and has bytes to spare; a
/// refused one with none and with long output.
pub fn redrawn(text: &mut Text, name: &str, model: &[u8]) {
    text.named(&format!("{name}, redrawn"), model);
    let lengths = match read_plan(model) {
        Ok(reading) => {
            let needed = shortest_plan(&reading).len();
            vec![needed - 1, needed, needed + 5]
        }
        Err(_) => vec![0, LONG],
    };
    for length in lengths {
        text.line(&format!("plan {length}"));
    }
}
