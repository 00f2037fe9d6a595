//! The command `zervuldo`: plans judged, checked, drawn and explained.
//!
//! Verdicts, evidence and its check, margins, the jumps within which harm comes,
//! least times with perfect clocks, the room to lend and the shortest forms of
//! plans are answers of the proved library (crate `drift`). What is found by code
//! that is not proved is named so wherever it is told.

pub mod args;
pub mod arrivals;
pub mod command;
pub mod differences;
pub mod evidence;
pub mod example;
pub mod facts;
pub mod files;
pub mod json;
pub mod library;
pub mod outcome;
pub mod pace;
pub mod perfect;
pub mod report;
pub mod source;
pub mod spelling;
pub mod text;
pub mod told;
pub mod units;
pub mod warnings;
