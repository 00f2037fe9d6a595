//! Plans with pieces of evidence for them.

use super::rules::{breaking, closed_under, with_in, RULES};
use super::Text;
use crate::calls::evidence_of;
use crate::components::Components;
use crate::graph::{Graph, FACE, JUMP, TIME};
use crate::limits::NUMBER_BYTES;
use crate::model::read_model;
use crate::numbers::{numbers_of, push_padded};

/// One clock, ceiling 1, one location: three states in a row.
pub const LINE: [u8; 8] = [1, 1, 1, 1, 0, 0, 0, 0];

/// One clock, ceiling 1, two locations with an edge at 1 that keeps the clock.
const TWO: [u8; 15] = [1, 1, 1, 2, 1, 0, 0, 0, 0, 0, 0, 1, 0, 1, 1];

/// The loop plan of document 01.
pub const LOOP: [u8; 46] = [
    1, 2, 2, 4, 4, 0, //
    0, 0, 0, 0, 0, 0, 0, 0, 0, 1, 0, 0, //
    0, 1, 2, 1, 1, 1, 1, //
    1, 2, 1, 0, 2, 0, 2, //
    2, 1, 2, 0, 2, 2, 2, //
    2, 3, 0, 0, 0, 2, 2,
];

/// Its passing trail there.
pub const LOOP_TRAIL: [u8; 34] = [
    2, 8, 0, 0, 1, 0, 0, 1, 1, 3, 0, 1, 0, 1, 10, 0, 0, 1, 2, 0, 0, 0, 0, 0, 0, 1, 1, 2, 0, 2, 0,
    0, 1, 3,
];

/// A smaller loop that only drift can leave: two clocks, ceiling 1.
pub const SMALL_LOOP: [u8; 36] = [
    1, 2, 1, 3, 3, 1, //
    0, 0, 0, 0, 0, 0, 1, 0, 0, //
    0, 1, 1, 0, 1, 0, 1, //
    1, 0, 2, 0, 1, 1, 1, //
    1, 2, 0, 0, 0, 1, 1,
];

/// Three clocks, ceiling 1: an edge that resets all of them, and one to a
/// forbidden location with a stay limit of 0 for the third clock.
pub const CUBE: [u8; 32] = [
    1, 3, 1, 2, 2, 0, //
    0, 0, 0, 0, 1, 0, 0, 1, //
    0, 0, 7, 1, 1, 0, 1, 1, 1, //
    0, 1, 6, 1, 1, 0, 1, 0, 1,
];

/// One clock, ceiling 2: one forbidden location with stay limit 1, and an edge
/// that resets the clock.
pub const RING: [u8; 13] = [1, 1, 2, 1, 1, 0, 1, 2, 0, 0, 1, 0, 2];

pub fn evidence(text: &mut Text) {
    line(text);
    small_plans(text);
    two(text);
    loop_trails(text);
    loop_steps(text);
    loop_touches(text);
    loop_sheets(text);
    small_loop(text);
    square_and_block(text);
    cube(text);
    refused_plans(text);
}

/// A plan with one number changed.
pub fn changed<const N: usize>(model: [u8; N], at: usize, number: u8) -> [u8; N] {
    let mut model = model;
    model[at] = number;
    model
}

fn graph_of(model: &[u8]) -> Graph {
    Graph::new(read_model(model).expect("the plans here are accepted"))
}

/// Each number with as many bytes as it can have.
pub fn padded(bytes: &[u8]) -> Vec<u8> {
    let mut longest = Vec::new();
    for number in numbers_of(bytes).expect("plans and evidence spell numbers") {
        push_padded(&mut longest, number, NUMBER_BYTES);
    }
    longest
}

/// The tiny model of document 01.
fn line(text: &mut Text) {
    text.plan(
        "line",
        &LINE,
        "One clock, ceiling 1, one ordinary location, no edge.",
    );
    text.operations(
        "more than enough; just enough; too short",
        &[
            "judge", "marks 5", "marks 3", "marks 2", "write 6", "write 4", "write 3", "margin",
        ],
    );
    text.operations(
        "our sheet has no fringe; no harm",
        &[
            "sheet_margin",
            "harm",
            "sheet_margin 3,3,3,3",
            "harm 3,3,3,2",
        ],
    );
    text.group(
        "01's sheet; refused with padded numbers",
        &[&[1, 5, 3, 1], &[129, 128, 0, 133, 0, 3, 129, 0]],
    );
    text.group(
        "no first number, one that breaks off or has four bytes",
        &[&[], &[129], &[129, 128], &[129, 128, 128, 0]],
    );
    text.group(
        "neither 1 nor 2, whatever follows: 0, 3, 129, 257",
        &[&[0], &[3, 128, 128, 128], &[129, 1, 5, 3, 1], &[129, 2]],
    );
    text.group(
        "numbers that are missing, break off or have four bytes",
        &[
            &[1],
            &[1, 5],
            &[1, 5, 3],
            &[1, 5, 3, 129],
            &[1, 5, 3, 129, 128, 128],
            &[1, 128, 128, 128, 9],
        ],
    );
    text.group(
        "above 2S-1: 6, 133, 65541, 2097151; before what follows is read",
        &[
            &[1, 6, 3, 1],
            &[1, 5, 133, 1],
            &[1, 133, 128, 4, 3, 1],
            &[1, 5, 3, 255, 255, 127],
            &[1, 6, 128, 128, 128],
            &[1, 5, 6],
        ],
    );
    text.group(
        "bytes that remain, before the rules are looked at",
        &[
            &[1, 5, 3, 1, 0],
            &[1, 5, 3, 1, 128],
            &[1, 0, 0, 0, 128, 128, 128],
        ],
    );
    text.group(
        "level heights, the greatest ones",
        &[&[1, 1, 1, 1], &[1, 5, 5, 5]],
    );
    text.group(
        "start out, not closed under time (once at a face too), a height raised",
        &[&[1, 4, 2, 0], &[1, 5, 2, 0], &[1, 5, 3, 0], &[1, 3, 5, 1]],
    );
    text.group(
        "trails",
        &[
            &[2, 0],
            &[2, 2, 0, 0],
            &[2, 3, 0, 0, 0],
            &[2, 1, 1, 0],
            &[2, 1],
            &[2, 255, 255, 127],
            &[2, 0, 0],
        ],
    );
}

/// Single facts of kinds and stay limits.
fn small_plans(text: &mut Text) {
    text.plan(
        "forbidden line",
        &changed(LINE, 6, 1),
        "The same with its location forbidden.",
    );
    text.operations(
        "our trail has no steps",
        &[
            "judge", "marks 4", "write 2", "write 1", "write 0", "margin",
        ],
    );
    text.operations("no margin; harm at once", &["sheet_margin", "harm"]);
    text.group(
        "01's trail; refused with padded numbers; longer",
        &[&[2, 0], &[130, 0, 128, 128, 0], &[2, 2, 0, 0]],
    );
    text.group(
        "the start in, though it is forbidden; nothing in",
        &[&[1, 5, 3, 1], &[1, 4, 2, 0]],
    );
    text.plan(
        "point",
        &changed(LINE, 7, 1),
        "The first with a stay limit of 0.",
    );
    text.group(
        "0 where a state is not allowed; refused if padded",
        &[&[1, 1, 0, 0], &[1, 5, 0, 128, 128, 0]],
    );
    text.group(
        "in or with a height where it is not allowed",
        &[&[1, 1, 1, 0], &[1, 1, 0, 2], &[1, 1, 0, 1]],
    );
    text.group("time beyond the stay limit", &[&[2, 1, 0]]);
    let apart = [1, 1, 1, 2, 0, 0, 0, 0, 1, 0];
    text.plan(
        "apart",
        &apart,
        "Two locations without an edge, the second one forbidden.",
    );
    text.group("out, in", &[&[1, 5, 3, 1, 4, 2, 0], &[1, 5, 3, 1, 5, 3, 1]]);
    text.plan(
        "ring",
        &RING,
        "One forbidden location with stay limit 1 at ceiling 2, and an edge that resets the clock.",
    );
    text.group(
        "a touch of the interval below; of the one above, which is not allowed",
        &[
            &[2, 3, 0, 0, 3, 0, 1, 3, 0, 1, 0, 0],
            &[2, 3, 0, 0, 3, 1, 1],
        ],
    );
    text.group(
        "a touch of the state itself; a walk that does not close, or passes the stay limit",
        &[
            &[2, 1, 3, 0, 0, 1, 1, 0],
            &[2, 1, 3, 0, 0, 1, 0],
            &[2, 1, 3, 0, 0, 4, 0, 0, 0, 1, 0],
        ],
    );
}

/// Each rule by itself, with one clock.
fn two(text: &mut Text) {
    text.plan(
        "two",
        &TWO,
        "One clock, two ordinary locations, an edge at 1 that keeps the clock.",
    );
    text.group(
        "ours; with more in; level where no in-state is touched",
        &[
            &[1, 7, 5, 3, 4, 2, 1],
            &[1, 7, 5, 3, 5, 3, 1],
            &[1, 7, 5, 3, 2, 2, 1],
        ],
    );
    text.group(
        "start out; not closed under jump; not closed under face",
        &[
            &[1, 6, 4, 2, 4, 2, 0],
            &[1, 7, 5, 3, 4, 2, 0],
            &[1, 7, 5, 3, 4, 3, 1],
        ],
    );
    text.group(
        "a jump that raises the height; an out-state that touches and keeps it",
        &[&[1, 7, 5, 1, 6, 4, 3], &[1, 7, 5, 3, 4, 0, 1]],
    );
    text.plan(
        "two, forbidden",
        &changed(TWO, 8, 1),
        "The same with its second location forbidden.",
    );
    text.group(
        "in, though it is forbidden; our trail, one step fewer",
        &[&[1, 7, 5, 3, 4, 2, 1], &[2, 3, 0, 0, 1, 0], &[2, 2, 0, 0]],
    );
    text.plan(
        "two, through",
        &changed(TWO, 6, 1),
        "With the first one forbidden: a trail may end there, or pass through.",
    );
    text.group(
        "ends there, passes through",
        &[&[2, 2, 0, 0], &[2, 3, 0, 0, 1, 0]],
    );
    text.plan(
        "two, shut",
        &changed(TWO, 9, 1),
        "With a stay limit of 0 in the second one.",
    );
    text.group(
        "a jump to a state that is not allowed",
        &[&[2, 3, 0, 0, 1, 0]],
    );
    text.group(
        "ours; a height where it is not allowed",
        &[&[1, 5, 3, 1, 0, 0, 0], &[1, 5, 3, 1, 0, 0, 2]],
    );
}

/// The loop plan: its trail and what is near it.
fn loop_trails(text: &mut Text) {
    let trail = LOOP_TRAIL;
    text.plan("loop", &LOOP, "01's loop plan.");
    loop_lengths(text);
    text.group(
        "01's trail, its first 33 bytes, its last number 2",
        &[&trail, &trail[..33], &changed(trail, 33, 2)],
    );
    text.group(
        "each number padded; with a byte more",
        &[&padded(&trail), &[&trail[..], &[0]].concat()],
    );
    text.group(
        "one step fewer, its bytes left or gone; one step more",
        &[
            &changed(trail, 1, 7),
            &changed(trail, 1, 7)[..32],
            &changed(trail, 1, 9),
        ],
    );
    text.group("ours", &[&evidence_of(&graph_of(&LOOP)).1]);
}

/// The loop plan: scratch of S numbers is enough, and each slice counts;
/// output of S marks, or of our trail's 42 bytes.
fn loop_lengths(text: &mut Text) {
    text.operations(
        "the verdict, the marks, our trail",
        &["judge", "marks 140", "write 50", "margin"],
    );
    text.operations(
        "scratch: just enough; each slice one too short; none",
        &[
            "judge 132,132,132,132",
            "judge 131,132,132,132",
            "judge 132,131,132,132",
            "judge 132,132,131,132",
            "judge 132,132,132,131",
            "judge 0,0,0,0",
        ],
    );
    text.operations(
        "output: just enough; too short; too short with scratch that is too",
        &[
            "marks 132,132,132,132,132",
            "marks 131",
            "marks 131,132,132,132,131",
            "write 42,132,132,132,132",
            "write 41",
            "write 41,131,132,132,132",
        ],
    );
    text.operations(
        "no margin; how soon our trail does harm; each slice one too short",
        &[
            "sheet_margin",
            "harm",
            "sheet_margin 131,132,132,132",
            "sheet_margin 132,132,131,132",
            "harm 132,131,132,132",
            "harm 132,132,132,131",
        ],
    );
}

/// The loop plan: kinds, edges, faces.
fn loop_steps(text: &mut Text) {
    text.group(
        "kinds 4 and 128, a kind with four bytes",
        &[&[2, 1, 4], &[2, 1, 128, 1], &[2, 1, 128, 128, 128]],
    );
    text.group(
        "edges: missing, 4, 256, shut, from elsewhere",
        &[
            &[2, 1, 1],
            &[2, 3, 0, 0, 1, 4],
            &[2, 3, 0, 0, 1, 128, 2],
            &[2, 1, 1, 0],
            &[2, 3, 0, 0, 1, 3],
        ],
    );
    text.group("time past the ceiling", &[&[2, 5, 0, 0, 0, 0, 0]]);
    text.group(
        "faces: one, no face, the region itself, no region, cut before its last number",
        &[
            &[2, 2, 0, 2, 1, 1, 0, 0],
            &[2, 2, 0, 2, 1, 0, 0, 0],
            &[2, 2, 0, 2, 0, 0, 1, 1],
            &[2, 2, 0, 2, 0, 0, 2, 0],
            &[2, 2, 0, 2, 9, 9, 9],
        ],
    );
}

/// The loop plan: touches and their walks.
fn loop_touches(text: &mut Text) {
    let at_touch = |rest: &[u8]| [&LOOP_TRAIL[..9], rest].concat();
    text.group(
        "touches: no shared corner, no region, cut before the last number",
        &[
            &at_touch(&[3, 1, 2, 1, 0]),
            &at_touch(&[3, 0, 1, 0, 2]),
            &at_touch(&[3, 0, 1, 0]),
        ],
    );
    text.group(
        "walks: no count, count 0, cut, with four bytes",
        &[
            &at_touch(&[3, 0, 1, 0, 1]),
            &at_touch(&[3, 0, 1, 0, 1, 0]),
            &at_touch(&[3, 0, 1, 0, 1, 2, 0]),
            &at_touch(&[3, 0, 1, 0, 1, 2, 128, 128, 128]),
        ],
    );
    text.group(
        "with a face, a touch, edge 9, a shut edge",
        &[
            &at_touch(&[3, 0, 1, 0, 1, 9, 2]),
            &at_touch(&[3, 0, 1, 0, 1, 9, 3]),
            &at_touch(&[3, 0, 1, 0, 1, 9, 1, 9]),
            &at_touch(&[3, 0, 1, 0, 1, 9, 1, 0]),
        ],
    );
    text.group(
        "not closed",
        &[
            &at_touch(&[3, 0, 1, 0, 1, 1, 0]),
            &changed(LOOP_TRAIL, 14, 9),
        ],
    );
    let walk = &LOOP_TRAIL[15..27];
    text.group(
        "gone twice",
        &[&[&changed(LOOP_TRAIL, 14, 20)[..27], walk, &LOOP_TRAIL[27..]].concat()],
    );
}

/// The set that perfect clocks reach, with heights that are level on loops:
/// only the rule for out-states that touch is broken.
fn without_touch(graph: &Graph) -> Vec<u32> {
    let reached = closed_under(graph, &[graph.start], &[TIME, JUMP, FACE]);
    with_in(&Components::new(graph), &reached)
}

fn loop_sheets(text: &mut Text) {
    text.sheet(
        "what perfect clocks reach, level on the loop that they touch",
        &without_touch(&graph_of(&LOOP)),
    );
    let ordinary = changed(LOOP, 15, 0);
    text.plan(
        "loop, ordinary",
        &ordinary,
        "The same without a forbidden location.",
    );
    text.group(
        "01's trail; our sheet",
        &[&LOOP_TRAIL, &evidence_of(&graph_of(&ordinary)).1],
    );
}

/// Our evidence for a plan, and near it.
fn ours(text: &mut Text, graph: &Graph) {
    let ours = evidence_of(graph).1;
    let cut = &ours[..ours.len() - 1];
    text.group(
        "ours; cut by a byte; with a byte more",
        &[&ours, cut, &[&ours[..], &[0]].concat()],
    );
    // Short evidence only, so that a reader needs no more than 256 bytes.
    if ours.len() <= 64 {
        text.group("ours, each number padded", &[&padded(&ours)]);
    }
}

/// A sheet for each rule that breaks this one alone, where we find one.
fn single_rules(text: &mut Text, graph: &Graph) {
    for rule in RULES {
        if let Some(numbers) = breaking(graph, rule) {
            text.sheet(&format!("only this: {}", rule.words()), &numbers);
        }
    }
}

fn small_loop(text: &mut Text) {
    let what = "Two clocks, ceiling 1: a loop that only drift can leave.";
    text.plan("small loop", &SMALL_LOOP, what);
    text.every_operation(graph_of(&SMALL_LOOP).model);
    let graph = graph_of(&SMALL_LOOP);
    ours(text, &graph);
    single_rules(text, &graph);
    let ordinary = changed(SMALL_LOOP, 12, 0);
    let what = "The same without a forbidden location.";
    text.plan("small loop, ordinary", &ordinary, what);
    let graph = graph_of(&ordinary);
    ours(text, &graph);
    single_rules(text, &graph);
}

/// Without a loop, time alone can be broken too.
fn square_and_block(text: &mut Text) {
    let square = [1, 2, 1, 2, 1, 0, 0, 0, 0, 0, 0, 0, 0, 1, 1, 1, 1, 0, 1];
    let what =
        "Two clocks, ceiling 1, two ordinary locations, an edge at 1 that resets the first clock.";
    text.plan("square", &square, what);
    let graph = graph_of(&square);
    ours(text, &graph);
    single_rules(text, &graph);
    let block = [1, 3, 1, 1, 0, 0, 0, 0, 0, 0];
    let what = "Three clocks, ceiling 1, one ordinary location, no edge.";
    text.plan("block", &block, what);
    let graph = graph_of(&block);
    ours(text, &graph);
    single_rules(text, &graph);
}

fn cube(text: &mut Text) {
    let what = "Three clocks, ceiling 1; the second location is forbidden, with a stay limit of 0.";
    text.plan("cube", &CUBE, what);
    text.every_operation(graph_of(&CUBE).model);
    let graph = graph_of(&CUBE);
    ours(text, &graph);
    text.group(
        "a face; a number of it missing; no face",
        &[
            &[2, 2, 0, 2, 0, 0, 0, 0, 0, 0],
            &[2, 2, 0, 2, 0, 0, 0, 0, 0],
            &[2, 2, 0, 2, 0, 0, 0, 1, 2, 3],
        ],
    );
    text.group(
        "touches: with a walk, with one that does not close, beyond the stay limit",
        &[
            &[2, 4, 0, 3, 0, 0, 0, 1, 1, 1, 3, 0, 1, 0, 0, 0, 1, 1],
            &[2, 2, 0, 3, 0, 0, 0, 1, 1, 1, 1, 0],
            &[2, 4, 0, 0, 1, 1, 3, 1, 0, 0, 0, 0, 1],
        ],
    );
    let ordinary = changed(CUBE, 10, 0);
    let calm = graph_of(&ordinary);
    text.group(
        "an in-state forbidden: the sheet that passes for the next plan",
        &[&evidence_of(&calm).1],
    );
    let what = "The same without a forbidden location.";
    text.plan("cube, ordinary", &ordinary, what);
    ours(text, &calm);
    single_rules(text, &calm);
}

const OPERATIONS: [&str; 6] = [
    "judge",
    "marks 5",
    "write 5",
    "margin",
    "sheet_margin",
    "harm",
];

/// A plan for each refusal of plans, with its words.
pub fn refused() -> [(&'static str, Vec<u8>); 8] {
    [
        ("1: bytes end too soon", LINE[..7].to_vec()),
        (
            "2: a number with four bytes",
            vec![1, 1, 1, 1, 0, 0, 0, 128, 128, 128],
        ),
        ("3: five as the ceiling", changed(LINE, 2, 5).to_vec()),
        ("4: a kind of 2", changed(LINE, 6, 2).to_vec()),
        ("5: an edge to nowhere", changed(TWO, 11, 2).to_vec()),
        ("6: a byte remains", vec![1, 1, 1, 1, 0, 0, 0, 0, 0]),
        (
            "7: a clock unreset",
            vec![1, 1, 1, 1, 1, 0, 0, 0, 0, 0, 0, 0, 1],
        ),
        (
            "8: more states than scratch",
            vec![1, 3, 4, 3, 0, 0, 0, 0, 0, 0, 0, 0, 0, 0, 0, 0, 0, 0],
        ),
    ]
}

/// The plan is judged first, whatever the evidence is.
fn refused_plans(text: &mut Text) {
    for (name, model) in refused() {
        text.plan(
            &format!("refused {name}"),
            &model,
            "No operation goes further.",
        );
        for operation in OPERATIONS {
            text.line(operation);
        }
        text.bytes(&[9]);
        text.bytes(&[137, 0]);
    }
}
