//! `room`: what to lend for a plan, by the proved call for it.

use super::{source, Command, JSON, OUTPUT};
use crate::args::{Arguments, Takes};
use crate::json::Json;
use crate::outcome::{Failure, Outcome};
use crate::told::labelled;
use drift::{Room, Word};

pub const COMMAND: Command = Command {
    name: "room",
    summary: "the memory to lend for a plan, before it is judged",
    details: "For callers of the library, who lend it scratch and output. States and scratch are \
              exact: with so many numbers in each of the four slices no call is refused by 8, and \
              with fewer in one of them every call that takes scratch is. A sheet that passes has at most so many \
              bytes, so that with so much output evidence for a safe plan is never refused by 9. \
              Our trail has at most so many steps; of its bytes nothing is known beforehand. \
              Nothing is marked for it.",
    takes: Takes {
        operands: "PLAN",
        count: 1..=1,
        options: &[&JSON, &OUTPUT],
    },
    run,
};

fn run(arguments: &Arguments) -> Result<Outcome, Failure> {
    let source = source(arguments, &arguments.operands[0])?;
    let (accepted, _) = source.read()?;
    let room = source.proved(drift::room(&accepted.model))?;
    let output = match arguments.has(&JSON) {
        true => format!("{}\n", json(&source.title, &room)),
        false => told(&source.title, &room),
    };
    Ok(Outcome::done(output))
}

fn told(title: &str, room: &Room) -> String {
    let Room {
        states,
        scratch,
        sheet,
        steps,
    } = room;
    let (bits, bytes) = (Word::BITS, 4 * scratch * size_of::<Word>());
    let scratch =
        format!("{scratch} numbers of {bits} bits in each of four slices: {bytes} bytes in all");
    let lines = [
        ("states", states.to_string()),
        ("scratch", scratch),
        ("sheet", format!("at most {sheet} bytes")),
        (
            "trail",
            format!("at most {steps} steps; of its bytes nothing is known beforehand"),
        ),
        (
            "proved",
            "all of it: states and scratch exactly, the bytes of every sheet that passes, the \
             steps of our trail"
                .to_string(),
        ),
    ];
    labelled(&format!("{title}: room"), &lines)
}

fn json(title: &str, room: &Room) -> Json {
    Json::Object(vec![
        ("plan", Json::text(title)),
        ("states", Json::count(room.states)),
        ("scratch", Json::count(room.scratch)),
        ("sheet", Json::count(room.sheet)),
        ("steps", Json::count(room.steps)),
    ])
}
