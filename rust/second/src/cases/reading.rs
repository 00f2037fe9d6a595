//! Plans that are read, and plans that are refused by 1 to 7.

use super::{Put, Text};

/// A line for each plan, its name and its bytes; and comments.
const NUMBERS: &str = "\
# Numbers, here of locations: 5 in one to three bytes, and 2,097,151.
number 5: 1,1,1,5,0,0,0,0,0,0,0,0,0,0,0,0
number 133 0: 1,1,1,133,0,0,0,0,0,0,0,0,0,0,0,0,0
number 133 128 0: 1,1,1,133,128,0,0,0,0,0,0,0,0,0,0,0,0,0
number 255 255 127: 1,1,1,255,255,127,0,0,0,0,0,0,0,0,0,0,0,0
# Numbers that are refused: of four bytes, broken off, missing.
number 133 128 128: 1,1,1,133,128,128,0,0,0,0,0,0,0,0,0,0,0,0
number 128 128: 1,1,1,128,128
number of no bytes: 1,1,1
";

/// Limits of document 01's bench, alike.
pub const LIMITS: &str = "\
# A limit, and the next number beyond it.
ceiling 4: 1,1,4,1,0,0,0,0
ceiling 5: 1,1,5,1,0,0,0,0
stay M+1: 1,1,1,1,0,0,0,2
stay M+2: 1,1,1,1,0,0,0,3
";

/// All other plans, alike.
const PLANS: &str = "\
# Models that are read.
tiny model: 1,1,1,1,0,0,0,0
loop plan: 1,2,2,4,4,0,0,0,0,0,0,0,0,0,0,1,0,0,0,1,2,1,1,1,1,1,2,1,0,2,0,2,2,1,2,0,2,2,2,2,3,0,0,0,2,2
mark padded: 129,128,0,1,1,1,0,0,0,0
# The most clocks and locations.
stay 1 means limit 0: 1,1,4,1,0,0,0,1
clocks 3: 1,3,1,1,0,0,0,0,1,2
locations 8: 1,1,1,8,0,7,0,0,0,0,0,0,0,0,0,0,0,0,0,0,0,0
start 1 of two: 1,1,1,2,0,1,0,0,1,1
# The mark: 1 and 2, and no other.
no bytes:
mark 0: 0,1,1,1,0,0,0,0
mark 2: 2,1,1,1,0,0,0,0
mark 3: 3,1,1,1,0,0,0,0
mark 130 0: 130,0,1,1,1,0,0,0,0
mark 130 128 0: 130,128,0,1,1,1,0,0,0,0
mark 131 0: 131,0,1,1,1,0,0,0,0
mark 130: 130,1,1,1,1,0,0,0,0
mark 2 alone: 2
mark broken off: 130,128
mark 129 128 128: 129,128,128,1,1,1,0,0,0,0
mark 130 128 128: 130,128,128,1,1,1,0,0,0,0
mark 16385: 129,128,1,1,1,1,0,0,0,0
mark 16386: 130,128,1,1,1,1,0,0,0,0
# Clocks and ceiling.
clocks missing: 1
clocks 0: 1,0,1,1,0,0,0,0
clocks 4: 1,4,1,1,0,0,0,0,0,0,0
clocks 257: 1,129,2,1,1,0,0,0,0
ceiling missing: 1,1
ceiling 0: 1,1,0,1,0,0,0,0
# Locations, edges and the start.
locations 0: 1,1,1,0,0,0
locations 9: 1,1,1,9,0,0,0,0,0,0,0,0,0,0,0,0,0,0,0,0,0,0,0,0
edges missing: 1,1,1,1
start missing: 1,1,1,1,0
start L: 1,1,1,1,0,1,0,0
# Kinds.
kind missing: 1,1,1,1,0,0
kind 1: 1,1,1,1,0,0,1,0
kind 2: 1,1,1,1,0,0,2,0
second location, kind 2: 1,1,1,2,0,0,0,0,2,0
# Stay fields.
stay missing: 1,1,1,1,0,0,0
stay 128 128: 1,1,1,1,0,0,0,128,128
stay 128 128 128: 1,1,1,1,0,0,0,128,128,128
second clock, stay M+2: 1,2,1,1,0,0,0,0,3
# From and to.
edge: 1,1,1,1,1,0,0,0,0,0,1,0,1
from missing: 1,1,1,1,1,0,0,0
from L: 1,1,1,1,1,0,0,0,1,0,1,0,1
to missing: 1,1,1,1,1,0,0,0,0
to L: 1,1,1,1,1,0,0,0,0,1,1,0,1
# Masks.
mask missing: 1,1,1,1,1,0,0,0,0,0
mask 2 of one clock: 1,1,1,1,1,0,0,0,0,0,2,0,1
mask 4 of two clocks: 1,2,1,1,1,0,0,0,0,0,0,4,0,1,0,1
# Low.
low missing: 1,1,1,1,1,0,0,0,0,0,1
low M+1: 1,1,1,1,1,0,0,0,0,0,1,2,2
low above high: 1,1,1,1,1,0,0,0,0,0,1,1,0
second clock, low above high: 1,2,2,1,1,0,0,0,0,0,0,3,0,1,2,1
# High.
high missing: 1,1,1,1,1,0,0,0,0,0,1,1
high M+1: 1,1,1,1,1,0,0,0,0,0,1,0,2
high 128 128 128: 1,1,1,1,1,0,0,0,0,0,1,0,128,128,128
# What follows the last number.
a byte remains: 1,1,1,1,0,0,0,0,0
a byte remains that spells no number: 1,1,1,1,0,0,0,0,128
three bytes remain that spell no number: 1,1,1,1,0,0,0,0,128,128,128
# Closed walks of one edge.
loop of one edge without reset: 1,1,1,1,1,0,0,0,0,0,0,0,1
loop that leaves clock 2: 1,2,1,1,1,0,0,0,0,0,0,1,0,1,0,1
loop that leaves clock 1: 1,2,1,1,1,0,0,0,0,0,0,2,0,1,0,1
loop that resets both: 1,2,1,1,1,0,0,0,0,0,0,3,0,1,0,1
loop that no edge leads to: 1,1,1,2,1,0,0,0,0,0,1,1,0,0,1
# Closed walks of two edges.
loop of two edges without reset: 1,1,1,2,2,0,0,0,0,0,0,1,0,0,1,1,0,0,0,1
loop of two edges with one reset: 1,1,1,2,2,0,0,0,0,0,0,1,0,0,1,1,0,1,0,1
loop of two edges that share the resets: 1,2,1,2,2,0,0,0,0,0,0,0,0,1,1,0,1,0,1,1,0,2,0,1,0,1
edge without reset in no loop: 1,1,1,2,1,0,0,0,0,0,0,1,0,0,1
# Which refusal of a number comes first.
1 before the range: 1,132
2 before the range: 1,132,128,128
3 before a later 1: 1,4
low's range before a missing high: 1,1,1,1,1,0,0,0,0,0,1,2
# Which refusal of a model comes first.
3 before 4: 1,1,1,1,0,1,2,0
4 before 5: 1,1,1,1,1,0,0,3,1,0,1,0,1
5 before 6: 1,1,1,1,1,0,0,0,0,0,1,1,0,0
6 before 7: 1,1,1,1,1,0,0,0,0,0,0,0,1,0
1 before 7: 1,1,1,1,1,0,0,0,0,0,0,0
";

pub fn reading(text: &mut Text) {
    text.all(NUMBERS, Text::judged);
    text.all(LIMITS, Text::judged);
    text.all(PLANS, Text::judged);
    most_edges(text, Text::judged);
    text.note("The longest closed walk.");
    text.judged("ring of eight without reset", &eight(0));
    text.judged("ring of eight with one reset", &eight(1));
}

pub fn most_edges(text: &mut Text, put: Put) {
    text.note("The most edges, and one more.");
    put(text, "24 edges", &loops(24));
    put(text, "25 edges", &loops(25));
}

/// One location and as many edges from it to itself, each of which resets the
/// clock.
fn loops(edges: u8) -> Vec<u8> {
    let mut plan = vec![1, 1, 1, 1, edges, 0, 0, 0];
    for _ in 0..edges {
        plan.extend([0, 0, 1, 0, 0]);
    }
    plan
}

/// Eight locations in a ring of eight edges, of which only the last has this
/// mask.
pub fn eight(mask: u8) -> Vec<u8> {
    let mut plan = vec![1, 1, 1, 8, 8, 0];
    plan.extend([0; 16]);
    for edge in 0..8 {
        plan.extend([edge, (edge + 1) % 8, if edge == 7 { mask } else { 0 }, 0, 0]);
    }
    plan
}
