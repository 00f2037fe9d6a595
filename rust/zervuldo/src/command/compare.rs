//! `compare`: whether two plans are the same, by their shortest forms, and where
//! they differ.

use super::{answer, source, Command, JSON, OUTPUT};
use crate::args::{Arguments, Takes};
use crate::differences::{Difference, Pair};
use crate::json::Json;
use crate::outcome::{Failure, Outcome, Status};
use crate::spelling::Spelling;
use crate::text::counted;
use second::limits::{MAX_CLOCKS, MAX_LOCATIONS};

pub const COMMAND: Command = Command {
    name: "compare",
    summary: "say whether two plans are the same, and where they differ",
    details: "They are the same if the proved writer gives one shortest form for both. Where \
              they differ is found by code that is not proved. Clocks, locations and edges \
              are compared in their order, and called by the names in PLAN; edges are \
              counted from 0. Stay limits are compared as they are read, blank ones by the \
              plan's mark; plans of two marks differ, even if in nothing else. Names and units \
              of text plans are no part of a plan, and are not compared.",
    takes: Takes {
        operands: "PLAN OTHER",
        count: 2..=2,
        options: &[&JSON, &OUTPUT],
    },
    run,
};

/// So many differences are told in words; more would be read by nobody. It is
/// enough for a plan and its copy with another mark: the mark, and each limit.
const MOST_SHOWN: usize = 1 + MAX_LOCATIONS * MAX_CLOCKS;

/// Two plans with what is known of them side by side.
struct Comparison<'a> {
    files: [&'a str; 2],
    spellings: &'a [Spelling; 2],
    pair: Pair<'a>,
    differences: Vec<Difference>,
}

fn run(arguments: &Arguments) -> Result<Outcome, Failure> {
    let [plan, other] = &arguments.operands[..] else {
        unreachable!("two operands are taken")
    };
    let first = source(arguments, plan)?;
    let spellings = [first.spelling()?, source(arguments, other)?.spelling()?];
    let comparison = Comparison::new([plan, other], &spellings);
    agreed(comparison.is_same(), &comparison.differences).map_err(|words| first.at_odds(words))?;
    let status = match comparison.is_same() {
        true => Status::Good,
        false => Status::Bad,
    };
    let output = match arguments.has(&JSON) {
        true => format!("{}\n", comparison.json()),
        false => comparison.words(),
    };
    Ok(answer(output, status))
}

/// The shortest forms decide; a comparison that does not find the same is wrong.
fn agreed(is_same: bool, differences: &[Difference]) -> Result<(), &'static str> {
    match (is_same, differences.is_empty()) {
        (true, false) => Err("its shortest form is the other's, but a difference is found"),
        (false, true) => Err("its shortest form is not the other's, but no difference is found"),
        _ => Ok(()),
    }
}

impl<'a> Comparison<'a> {
    fn new(files: [&'a str; 2], spellings: &'a [Spelling; 2]) -> Comparison<'a> {
        let [first, second] = spellings;
        let pair = Pair::new(&first.accepted.plan, &second.accepted.plan);
        Comparison {
            files,
            spellings,
            differences: pair.differences(),
            pair,
        }
    }

    fn is_same(&self) -> bool {
        let [first, second] = self.spellings;
        first.shortest == second.shortest
    }

    fn has_same_bytes(&self) -> bool {
        let [first, second] = self.spellings;
        first.accepted.model == second.accepted.model
    }

    fn words(&self) -> String {
        match (self.is_same(), self.has_same_bytes()) {
            (true, true) => "the same plan, and the same bytes\n".to_string(),
            (true, false) => self.spelling_words(),
            (false, _) => self.difference_words(),
        }
    }

    fn spelling_words(&self) -> String {
        let spellings = self.files.iter().zip(self.spellings);
        let lines: String = spellings
            .map(|(file, spelling)| format!("  {file}: {}\n", spelling.words()))
            .collect();
        format!("the same plan; they differ in spelling only\n{lines}")
    }

    fn difference_words(&self) -> String {
        let count = self.differences.len();
        let shown = self.differences.iter().take(MOST_SHOWN);
        let lines: String = shown
            .map(|difference| format!("  {}\n", self.pair.words(*difference)))
            .collect();
        let more = match count.checked_sub(MOST_SHOWN) {
            None | Some(0) => String::new(),
            Some(rest) => format!("  and {rest} more\n"),
        };
        let found = counted(count, "difference");
        format!("different plans\n{found}, found by code that is not proved:\n{lines}{more}")
    }

    fn json(&self) -> Json {
        let [plan, other] = self.files.map(Json::text);
        let differences = self.differences.iter();
        let differences = differences.map(|difference| self.pair.json(*difference));
        Json::Object(vec![
            ("plan", plan),
            ("other", other),
            ("same", Json::Bool(self.is_same())),
            ("same_bytes", Json::Bool(self.has_same_bytes())),
            ("differences", Json::List(differences.collect())),
        ])
    }
}

#[cfg(test)]
mod tests {
    use super::*;
    use second::model::Field;

    #[test]
    fn disagreement_is_noticed() {
        let found = [Difference::Number(Field::Ceiling)];
        assert!(agreed(true, &[]).is_ok() && agreed(false, &found).is_ok());
        assert!(agreed(true, &found).is_err() && agreed(false, &[]).is_err());
    }
}
