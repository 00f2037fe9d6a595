//! What several test programs use.
#![allow(dead_code)]

use plan::Plan;
use second::limits::MAX_STATES;
use second::program::OUTPUT;

/// Scratch for every model.
pub const ENOUGH: [usize; 4] = [MAX_STATES; 4];

/// The example plans with a text of their own.
pub const EXAMPLES: [&str; 9] = [
    "loop",
    "tiny",
    "largest",
    "poll",
    "poll-mended",
    "poll-blank",
    "two-repeaters",
    "hasty",
    "test-link",
];

/// A file of the folder plans/.
pub fn path(name: &str) -> String {
    let folder = std::path::Path::new(env!("CARGO_MANIFEST_DIR")).join("../../plans");
    folder.join(name).to_str().unwrap().to_string()
}

pub fn text(name: &str) -> String {
    std::fs::read_to_string(path(&format!("{name}.txt"))).unwrap()
}

pub fn example(name: &str) -> Plan {
    plan::resolve::read_text(&text(name)).unwrap()
}

/// The evidence that the second checker writes.
pub fn evidence(model: &[u8]) -> Vec<u8> {
    let mut out = vec![0; OUTPUT];
    let (_, written) = second::write_evidence(model, ENOUGH, &mut out).expect("an accepted model");
    out.truncate(written);
    out
}

/// The marks of all states, by the second checker.
pub fn marks(model: &[u8]) -> Vec<u8> {
    let mut out = vec![0; MAX_STATES];
    let states = second::marks(model, ENOUGH, &mut out).expect("an accepted model");
    out.truncate(states);
    out
}

/// Every stay field of a plan, as location and clock.
pub fn stay_fields(plan: &Plan) -> impl Iterator<Item = (usize, usize)> + '_ {
    let locations = 0..plan.locations.len();
    locations.flat_map(|location| (0..plan.clocks.len()).map(move |clock| (location, clock)))
}

/// The trail of document 01 for the loop plan.
pub const LOOP_TRAIL: [u8; 34] = [
    2, 8, 0, 0, 1, 0, 0, 1, 1, 3, 0, 1, 0, 1, 10, 0, 0, 1, 2, 0, 0, 0, 0, 0, 0, 1, 1, 2, 0, 2, 0,
    0, 1, 3,
];
