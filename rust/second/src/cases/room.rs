//! Room known beforehand (request (h) of document 02): plans that are lent just what is
//! told and one less of it, sheets that are as long as can be, long trails, and a plan of
//! each size that has none above. Every other plan has its line as well.

use super::blanks::ours_for;
use super::evidence::{changed, LINE};
use super::{Text, MOST};
use crate::calls::{joint_evidence_of, room as room_of};
use crate::draft::{all_shapes, Shape};
use crate::graph::Graph;
use crate::model::read_model;
use crate::program::SCRATCH;
use crate::sheet::greatest_number;

/// One clock, ceiling 4, seven locations, the last one forbidden: 63 states, the most
/// whose sheets have a byte for each number.
const SEVEN: [u8; 20] = [1, 1, 4, 7, 0, 0, 0, 0, 0, 0, 0, 0, 0, 0, 0, 0, 0, 0, 1, 0];

/// Two clocks, ceiling 1, six locations, likewise: 66 states, the fewest with two bytes.
const SIX: [u8; 24] = [
    1, 2, 1, 6, 0, 0, 0, 0, 0, 0, 0, 0, 0, 0, 0, 0, 0, 0, 0, 0, 0, 1, 0, 0,
];

/// Three clocks, ceiling 1, there and back: 102 states.
const THREE: [u8; 32] = [
    1, 3, 1, 2, 2, 0, 0, 0, 0, 0, 0, 0, 0, 0, //
    0, 1, 7, 0, 1, 0, 1, 0, 1, //
    1, 0, 0, 0, 1, 0, 1, 0, 1,
];

/// Two clocks, ceiling 2, two locations with limits of 0: of 66 states two are allowed.
const SHUT: [u8; 12] = [1, 2, 2, 2, 0, 0, 0, 1, 1, 0, 1, 1];

/// One clock, ceiling 2: what is touched lies on a walk of seven steps through the
/// forbidden location. Ten states.
const WALK: [u8; 25] = [
    1, 1, 2, 2, 3, 0, 0, 0, 1, 0, //
    0, 1, 0, 2, 2, //
    1, 1, 1, 2, 2, //
    1, 0, 1, 0, 1,
];

pub fn room(text: &mut Text) {
    rows(text);
    trails(text);
    large(text);
    sizes(text);
}

/// The lengths of four slices, a comma before each; one of them may be a number short.
fn slices(length: usize, short: Option<usize>) -> String {
    let slice = |at| length - usize::from(short == Some(at));
    [0, 1, 2, 3].map(|at| format!(",{}", slice(at))).concat()
}

/// Each operation that is lent something, with what is told and with one less of the
/// output or of a slice.
fn lent(text: &mut Text, plan: &[u8]) {
    let told = room_of(plan).expect("an accepted plan");
    let locations = read_model(plan).map_or(0, |model| model.locations.len());
    let soonest = format!("soonest {}", locations - 1);
    let alone = ["judge", "sheet_margin", "harm", &soonest, "judge_joint"];
    for (at, operation) in alone.into_iter().enumerate() {
        for short in [None, Some(at % 4)] {
            text.line_with_scratch(operation, &slices(told.scratch, short));
        }
    }
    let writing = [
        ("marks", told.states),
        ("write", told.sheet),
        ("marks_joint", told.states),
        ("write_joint", told.sheet),
    ];
    for (at, (operation, output)) in writing.into_iter().enumerate() {
        for (output, short) in [(output, None), (output - 1, None), (output, Some(at))] {
            let scratch = slices(told.scratch, short);
            text.line(&format!("{operation} {output}{scratch}"));
        }
    }
}

/// A sheet of the greatest numbers that there are: 2S-1 for a state that is in, 2S-2 where
/// it is forbidden. It passes where no state is barred and no edge leads to those.
fn greatest_sheet(text: &mut Text, plan: &[u8]) {
    let graph = Graph::new(read_model(plan).expect("an accepted plan"));
    let most = greatest_number(graph.states());
    let number = |state| most - u32::from(graph.is_forbidden(state));
    let numbers: Vec<u32> = (0..graph.states()).map(number).collect();
    text.sheet("none is longer", &numbers);
}

/// Sheets, where a spelling gets longer.
fn rows(text: &mut Text) {
    text.note("A sheet of 63 states has a byte for each number, of 66 two.");
    text.named("row of seven", &SEVEN);
    lent(text, &SEVEN);
    greatest_sheet(text, &SEVEN);
    text.named("row of six", &SIX);
    for output in [133, 132, 67, 66] {
        text.line(&format!("write {output}{}", slices(66, None)));
    }
    greatest_sheet(text, &SIX);
    text.named("three clocks, 102 states", &THREE);
    greatest_sheet(text, &THREE);
    text.named("all shut", &SHUT);
    text.line(&format!("write 133{}", slices(66, None)));
}

/// Eight locations in a row, each left at 1 and the last one forbidden: our trail is in
/// every state of the others. 24 states.
fn chain() -> Vec<u8> {
    let mut plan = vec![1, 1, 1, 8, 7, 0];
    plan.extend([0, 0].repeat(7));
    plan.extend([1, 0]);
    for from in 0..7 {
        plan.extend([from, from + 1, 1, 1, 1]);
    }
    plan
}

/// Trails that have more bytes than a sheet may have.
fn trails(text: &mut Text) {
    text.note("21 steps, the most of 24 states, in 30 bytes.");
    text.named("chain of eight", &chain());
    lent(text, &chain());
    text.line("write 29");
    text.line("write_joint 30");
    text.bytes(&ours_for(&chain()));
    text.note("4 steps, and 7 of its walk, in 20 bytes; 5 without a touch.");
    text.named("more steps with its walk", &WALK);
    let graph = Graph::new(read_model(&WALK).expect("an accepted plan"));
    for operation in ["write 11", "write 20", "write_joint 11"] {
        text.line(operation);
    }
    text.bytes(&ours_for(&WALK));
    text.bytes(&joint_evidence_of(&graph).1);
    text.named("tiny, forbidden, going round", &changed(LINE, 6, 1));
    text.group(
        "3 steps, though ours has 2 at most",
        &[&[2, 3, 0, 2, 0, 0, 0]],
    );
}

/// The most that the program lends is enough for a sheet of 7,064 states as told, and a
/// byte too short for one of 7,908.
fn large(text: &mut Text) {
    text.note("Output as told for many states. Refusals of the largest.");
    text.named("1977 states", &blank(3, 4, 1));
    text.line(&format!("write 3955{}", slices(1_977, None)));
    text.named("7064 states", &blank(3, 3, 8));
    text.line(&format!("write 14129{}", slices(7_064, None)));
    let most = blank(3, 4, 8);
    text.named("most states", &most);
    text.line_with_scratch("judge", &slices(MOST, Some(1)));
    text.named("most states, a byte missing", &most[..most.len() - 1]);
    text.named("most states, a byte remains", &[&most[..], &[0]].concat());
    let mut unreset = most;
    unreset[4] = 1;
    unreset.extend([0, 0, 0, 0, 4, 0, 4, 0, 4]);
    text.named("most states, a clock unreset", &unreset);
}

/// Ordinary locations without edges, whose stay fields are blank.
fn blank(clocks: u8, ceiling: u8, locations: u8) -> Vec<u8> {
    let header = [1, clocks, ceiling, locations, 0, 0];
    [&header[..], &[0].repeat((locations * (1 + clocks)).into())].concat()
}

/// The sizes that no accepted plan has so far. Scratch is as told, or a number short in
/// one slice; both where it is more than the usual.
fn sizes(text: &mut Text) {
    text.note(
        "Clocks, ceilings and locations that no plan above has together. Kinds and limits vary.",
    );
    let above = text.plans().into_iter();
    let above: Vec<Shape> = above.filter_map(|(_, plan)| size_of(&plan)).collect();
    let sizes = all_shapes().into_iter();
    let sizes = sizes.filter(|size| !above.contains(size));
    for (at, size) in sizes.enumerate() {
        let (clocks, ceiling, locations) = (size.clocks, size.ceiling, size.locations);
        text.named(
            &format!("size {clocks} {ceiling} {locations}"),
            &varied(&size),
        );
        let lent = [None, Some(at / 2 % 4)];
        let lent = match size.states() {
            ..=SCRATCH => &lent[at % 2..][..1],
            _ => &lent,
        };
        for &short in lent {
            text.line_with_scratch("judge", &slices(size.states(), short));
        }
    }
}

/// The size of an accepted plan.
fn size_of(plan: &[u8]) -> Option<Shape> {
    let model = read_model(plan).ok()?;
    Some(Shape {
        clocks: model.clocks,
        ceiling: model.ceiling.into(),
        locations: model.locations.len(),
    })
}

/// A plan without edges that starts in its last location; every other one is forbidden,
/// and stay fields take turns.
fn varied(size: &Shape) -> Vec<u8> {
    let (ceiling, last) = (size.ceiling as usize, size.locations - 1);
    let mut numbers = vec![1, size.clocks, ceiling, last + 1, 0, last];
    for location in 0..=last {
        numbers.push(location % 2);
        numbers.extend((0..size.clocks).map(|clock| (location + clock) % (ceiling + 2)));
    }
    numbers.into_iter().map(|number| number as u8).collect()
}
