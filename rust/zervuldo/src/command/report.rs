//! `report`: a plan's verdict as a page to hand over.

use super::{source, Command, BIT_RATE, CRYSTAL, EVIDENCE, OUTPUT, UNIT};
use crate::args::{Arguments, Takes};
use crate::evidence::store;
use crate::library::Library;
use crate::outcome::{Failure, Outcome};
use crate::report::page;

pub const COMMAND: Command = Command {
    name: "report",
    summary: "a page for the browser and for paper: verdict, picture, story",
    details: "The page is one HTML file that needs nothing else. The status is 0 whatever \
              the verdict, since the page tells it.",
    takes: Takes {
        operands: "PLAN",
        count: 1..=1,
        options: &[&EVIDENCE, &UNIT, &CRYSTAL, &BIT_RATE, &OUTPUT],
    },
    run,
};

fn run(arguments: &Arguments) -> Result<Outcome, Failure> {
    let mut library = Library::default();
    let facts = source(arguments, &arguments.operands[0])?.facts(&mut library)?;
    if let Some(folder) = arguments.value(&EVIDENCE) {
        store(&mut library, &facts, folder)?;
    }
    Ok(Outcome::done(page(&facts)))
}
