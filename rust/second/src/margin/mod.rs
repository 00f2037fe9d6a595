//! The margin of a plan, beyond document 01: a number A such that every drift
//! e/D with A*e < D is harmless for ever, if the plan is safe. It can be had
//! from the drawing alone or, mostly smaller, from the sheet.

mod drawing;
mod sheet;

pub use drawing::by_drawing;
pub use sheet::by_sheet;
