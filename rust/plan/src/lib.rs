//! Plans that people read and write: a text form, turned into model bytes and
//! back, drawings of plans and trails, and refusals in words.
//!
//! Nothing here judges. Models, evidence and refusals are those of document
//! 01, with the limits and readers of the second checker; whether a plan is
//! safe is for the proved programs to say.

pub mod bytes;
pub mod curve;
pub mod draw;
pub mod explain;
pub mod flaw;
pub mod input;
pub mod layout;
pub mod lex;
pub mod loops;
pub mod marks;
pub mod mistake;
pub mod opening;
pub mod parse;
pub mod print;
pub mod resolve;
pub mod sheet;
pub mod svg;
pub mod tell;
pub mod trail;
pub mod units;

mod plan;

pub use flaw::Flaw;
pub use mistake::Mistake;
pub use plan::{Edge, Location, Plan, BY_LAST_EDGE, CEILING_MARK, EDGES_MARK};
pub use units::Units;
