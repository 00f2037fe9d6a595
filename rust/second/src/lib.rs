//! A second drift checker for timed automata, written from documents 01 and 02
//! alone.
//!
//! The modules follow the order of document 01: numbers, models, regions,
//! steps, the marked set, evidence, calls. `limits` has the limits of all of
//! them. `shortest_plan` is request (a) of document 02; request (b), that no
//! evidence is padded, is in `numbers` and `check`; request (c), what a blank
//! stay field means in mark 2, is in `model` and `shortest_plan`; request (d),
//! the rounds of the marking, is in `marking`; request (e), the least time to a
//! location, is `soonest`; request (f), that closed walks count only if their
//! edges can open, is in `model`; request (g), plans with a joint reset, is in
//! `model`, `marking`, `trail` and `calls`; request (h), the room that a plan
//! needs, is in `calls` and `sheet`. Beyond both documents, `margin` and
//! `harm` tell how slight a drift is harmless and how soon another does harm.
//! `brute` does everything again by naive definitions, `widened` searches runs
//! without regions; `generate`, `blanks`, `dead_links`, `joint_resets`, `mutate`,
//! `padding` and `other` make inputs for comparisons, `cases` those of a proved
//! program with their answers.

// Loops over clocks and states index several lists at once.
#![allow(clippy::needless_range_loop)]

pub mod bench;
pub mod blanks;
pub mod brute;
pub mod calls;
pub mod cases;
pub mod check;
pub mod components;
pub mod dead_links;
pub mod draft;
pub mod generate;
pub mod graph;
pub mod harm;
pub mod joint_resets;
pub mod limits;
pub mod margin;
pub mod marking;
pub mod model;
pub mod mutate;
pub mod numbers;
pub mod other;
pub mod padding;
pub mod program;
pub mod random;
pub mod refusal;
pub mod regions;
pub mod sheet;
pub mod shortest_plan;
pub mod slow;
pub mod soonest;
pub mod trail;
pub mod widened;

pub use calls::{check_evidence, judge, marks, write_evidence, write_plan, Judgement};
pub use calls::{harm, sheet_margin, Harm, SheetMargin};
pub use calls::{judge_joint, marks_joint, write_joint};
pub use calls::{room, rounds, soonest, Room, Rounds};
pub use model::{read_model, read_plan, Edge, Location, Model, Reading};
pub use numbers::{number_at, spelled_at, Spelled};
pub use refusal::Refusal;
