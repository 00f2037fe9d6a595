//! The refusals of document 01, by the number that a call returns, and of
//! document 02: 15 of request (b), 16 of request (e) and 17 of request (g).

pub type Refusal = u8;

/// Bytes end too soon.
pub const ENDS_TOO_SOON: Refusal = 1;
/// The third byte of a number has its top bit set.
pub const NUMBER_TOO_LONG: Refusal = 2;
/// A header number is out of range.
pub const BAD_HEADER: Refusal = 3;
/// A number of a location is out of range.
pub const BAD_LOCATION: Refusal = 4;
/// A number of an edge is out of range, or a low is above its high.
pub const BAD_EDGE: Refusal = 5;
/// Bytes remain at the end.
pub const BYTES_REMAIN: Refusal = 6;
/// A closed walk of edges that can open leaves a clock unreset.
pub const CLOCK_UNRESET: Refusal = 7;
/// A scratch slice is shorter than the number of states.
pub const SCRATCH_TOO_SHORT: Refusal = 8;
/// The output is too short for the marks, the evidence or the plan.
pub const OUTPUT_TOO_SHORT: Refusal = 9;
/// The evidence is neither a sheet nor a trail.
pub const NO_EVIDENCE: Refusal = 10;
/// A sheet number is above 2S-1, or not 0 at a state that is not allowed.
pub const BAD_SHEET_NUMBER: Refusal = 11;
/// A rule of the sheet is broken.
pub const SHEET_RULE_BROKEN: Refusal = 12;
/// A step of the trail does not replay.
pub const BAD_STEP: Refusal = 13;
/// The trail ends in an ordinary location.
pub const ENDS_ORDINARY: Refusal = 14;
/// A number of the evidence is not in shortest form. Tested just after 2 for
/// that number; models may be padded.
pub const PADDED: Refusal = 15;
/// There is no such location, or no run gets there.
pub const NEVER_THERE: Refusal = 16;
/// A closed walk of edges that can open has none that resets every clock.
pub const NO_JOINT_RESET: Refusal = 17;

/// They are numbered from 1 to this.
pub const LAST: Refusal = NO_JOINT_RESET;
