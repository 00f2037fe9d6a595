//! The cases of the proved program `cases`: plans with operations and
//! evidence, in the lines that it reads, and the lines that it must print.

mod answers;
mod blanks;
mod evidence;
mod joint;
mod opening;
mod operations;
mod padding;
mod plans;
mod reading;
mod room;
mod rounds;
pub mod rules;
mod soonest;

pub use answers::answers;

use crate::calls::{evidence_of, states_of};
use crate::graph::Graph;
use crate::model::{read_model, Model};
use crate::numbers::shortest;
use crate::program::{bytes_of_text, SCRATCH};

/// The most that the program lends: numbers of a scratch slice, bytes of the
/// output.
const MOST: usize = 15_816;

/// Longer evidence is left to other tests.
const EVIDENCE: usize = 2_000;

/// The text of all cases.
pub fn cases() -> String {
    let mut text = Text::default();
    evidence::evidence(&mut text);
    padding::padding(&mut text);
    reading::reading(&mut text);
    operations::operations(&mut text);
    plans::plans(&mut text);
    blanks::blanks(&mut text);
    rounds::rounds(&mut text);
    soonest::soonest(&mut text);
    opening::opening(&mut text);
    joint::joint(&mut text);
    room::room(&mut text);
    text.lines
}

/// Puts a plan, by its name and its bytes, with some operations.
type Put = fn(&mut Text, &str, &[u8]);

/// The text of cases. Bytes stand in decimal, set apart by commas. A line
/// that begins with '-' announces a plan, whose bytes are the next line; the
/// lines after it are operations on it, pieces of evidence for it, an empty
/// line being evidence without bytes, or comments that begin with '#'.
#[derive(Default)]
struct Text {
    lines: String,
}

impl Text {
    fn line(&mut self, line: &str) {
        self.lines += line;
        self.lines.push('\n');
    }

    fn bytes(&mut self, bytes: &[u8]) {
        self.line(&listed(bytes));
    }

    fn plan(&mut self, name: &str, model: &[u8], what: &str) {
        self.named(name, model);
        self.note(what);
    }

    /// Every plan, refused or not, is asked for its room.
    fn named(&mut self, name: &str, model: &[u8]) {
        self.line(&format!("- {name}"));
        self.bytes(model);
        self.line("room");
    }

    /// The plans so far, each with its name.
    fn plans(&self) -> Vec<(String, Vec<u8>)> {
        let mut plans = Vec::new();
        let mut lines = self.lines.lines();
        while let Some(line) = lines.next() {
            if let Some(name) = line.strip_prefix("- ") {
                let plan = bytes_of_text(lines.next().unwrap_or("")).expect("a plan as a list");
                plans.push((name.to_string(), plan));
            }
        }
        plans
    }

    fn note(&mut self, what: &str) {
        self.line(&format!("# {what}"));
    }

    /// Some pieces of evidence with what they have in common.
    fn group(&mut self, what: &str, pieces: &[&[u8]]) {
        self.note(what);
        for piece in pieces {
            self.bytes(piece);
        }
    }

    /// Some operations with what they have in common.
    fn operations(&mut self, what: &str, operations: &[&str]) {
        self.note(what);
        for operation in operations {
            self.line(operation);
        }
    }

    /// A sheet of these numbers, after the number 1.
    fn sheet(&mut self, what: &str, numbers: &[u32]) {
        let bytes = [&[1], &shortest(numbers)[..]].concat();
        self.group(what, &[&bytes]);
    }

    /// A plan with each operation, if it is accepted, or else the refusal.
    fn judged(&mut self, name: &str, model: &[u8]) {
        self.named(name, model);
        match read_model(model) {
            Ok(model) => self.every_operation(model),
            Err(_) => self.line("judge"),
        }
    }

    /// An accepted plan with every operation, what there is to tell of drift,
    /// the margin of our sheet or the harm of our trail, and its rounds.
    fn judged_with_drift(&mut self, name: &str, model: &[u8]) {
        self.judged(name, model);
        let graph = Graph::new(read_model(model).expect("an accepted plan"));
        let operation = if evidence_of(&graph).0.is_unsafe {
            "harm"
        } else {
            "sheet_margin"
        };
        self.line_with_scratch(operation, &enough(graph.states()));
        self.line("rounds");
    }

    /// Each line of a list: a plan, as a name with bytes, or a comment.
    fn all(&mut self, plans: &str, put: Put) {
        for line in plans.lines() {
            match line.split_once(':') {
                Some((name, bytes)) if !line.starts_with('#') => {
                    put(self, name, &bytes_of_text(bytes).expect("bytes in decimal"));
                }
                _ => self.line(line),
            }
        }
    }

    /// An operation that is lent scratch alone.
    fn line_with_scratch(&mut self, operation: &str, scratch: &str) {
        let lengths = scratch.trim_start_matches(',');
        self.line(format!("{operation} {lengths}").trim_end());
    }

    /// Each operation of document 01, with a byte more than it needs, and the
    /// margin by the drawing.
    fn every_operation(&mut self, model: Model) {
        let states = states_of(&model);
        let scratch = enough(states);
        self.line_with_scratch("judge", &scratch);
        self.line(&format!("marks {}{scratch}", MOST.min(states + 1)));
        let bytes = evidence_of(&Graph::new(model)).1.len();
        if bytes <= EVIDENCE {
            self.line(&format!("write {}{scratch}", bytes + 1));
        }
        self.line("margin");
    }
}

/// The lengths of scratch for so many states, a comma before each; nothing
/// where the usual ones are enough.
fn enough(states: usize) -> String {
    if states <= SCRATCH {
        return String::new();
    }
    [states; 4].map(|length| format!(",{length}")).concat()
}

/// Bytes in decimal, set apart by commas.
fn listed(bytes: &[u8]) -> String {
    let words: Vec<String> = bytes.iter().map(u8::to_string).collect();
    words.join(",")
}
