//! `judge`: the verdict on plans.

use super::{answer, source, Command, BIT_RATE, CRYSTAL, EVIDENCE, JSON, OUTPUT, UNIT};
use crate::args::{Arguments, Takes};
use crate::evidence::{store, Stored};
use crate::facts::Facts;
use crate::files;
use crate::json::{facts_json, failure_json, Json};
use crate::library::Library;
use crate::outcome::{Failure, Outcome, Status};
use crate::told::{row, table, told};

pub const COMMAND: Command = Command {
    name: "judge",
    summary: "say whether plans are safe, and how that is known",
    details: "One plan is told in full, several as a table with a sum. The proved judge \
              gives the verdict, and the proved check has passed our evidence before \
              anything is said. The status is that of the worst plan.",
    takes: Takes {
        operands: "PLAN...",
        count: 1..=usize::MAX,
        options: &[&EVIDENCE, &JSON, &UNIT, &CRYSTAL, &BIT_RATE, &OUTPUT],
    },
    run,
};

/// A plan's name with what became of it.
struct Case {
    title: String,
    found: Result<(Facts, Option<Stored>), Failure>,
}

impl Case {
    fn status(&self) -> Status {
        match &self.found {
            Ok((facts, _)) if facts.is_safe() => Status::Good,
            Ok(_) => Status::Bad,
            Err(failure) => failure.status,
        }
    }
}

fn run(arguments: &Arguments) -> Result<Outcome, Failure> {
    let files = &arguments.operands;
    if arguments.has(&EVIDENCE) {
        names_differ(files)?;
    }
    let mut library = Library::default();
    let cases: Vec<Case> = files
        .iter()
        .map(|file| Case {
            title: files::title(file),
            found: judged(arguments, &mut library, file),
        })
        .collect();
    let output = match (&cases[..], arguments.has(&JSON)) {
        ([case], true) => format!("{}\n", case_json(case)),
        (cases, true) => format!("{}\n", Json::List(cases.iter().map(case_json).collect())),
        ([case], false) => one(case),
        (cases, false) => several(cases),
    };
    let failures = cases.iter().filter_map(|case| case.found.as_ref().err());
    let messages = failures.map(|failure| failure.message.as_str()).collect();
    let worst = cases.iter().map(Case::status).max().unwrap_or(Status::Good);
    Ok(Outcome {
        messages,
        ..answer(output, worst)
    })
}

/// Evidence of two plans of one name would be written to one file.
fn names_differ(files: &[String]) -> Result<(), Failure> {
    let mut titles: Vec<String> = files.iter().map(|file| files::title(file)).collect();
    titles.sort();
    match titles.windows(2).find(|pair| pair[0] == pair[1]) {
        Some(pair) => {
            let words = format!("two plans are called '{}'", pair[0]);
            Err(Failure::failed(format!(
                "zervuldo judge: {words}, and their evidence would be one file\n"
            )))
        }
        None => Ok(()),
    }
}

fn judged(
    arguments: &Arguments,
    library: &mut Library,
    file: &str,
) -> Result<(Facts, Option<Stored>), Failure> {
    let facts = source(arguments, file)?.facts(library)?;
    let folder = arguments.value(&EVIDENCE);
    let stored = folder.map(|folder| store(library, &facts, folder));
    Ok((facts, stored.transpose()?))
}

fn one(case: &Case) -> String {
    match &case.found {
        Ok((facts, stored)) => told(facts, stored.as_ref().map(Stored::words)),
        Err(_) => String::new(),
    }
}

fn several(cases: &[Case]) -> String {
    let rows: Vec<[String; 4]> = cases
        .iter()
        .map(|case| match &case.found {
            Ok((facts, _)) => row(facts),
            Err(failure) => [&case.title, "none", "", first_line(failure)].map(str::to_string),
        })
        .collect();
    let found = || cases.iter().filter_map(|case| case.found.as_ref().ok());
    let warnings = found().flat_map(|(facts, _)| {
        let lines = facts.warnings.iter();
        lines.map(|warning| format!("{}: warning: {}\n", facts.title, warning.words(&facts.plan)))
    });
    let stored = found().filter_map(|(facts, stored)| {
        let words = stored.as_ref()?.words();
        Some(format!("{}: evidence: {words}\n", facts.title))
    });
    let details: String = warnings.chain(stored).collect();
    let gap = if details.is_empty() { "" } else { "\n" };
    format!("{}{gap}{details}\n{}\n", table(&rows), sum(cases))
}

/// What is said first of a plan without a verdict; all of it is a message.
fn first_line(failure: &Failure) -> &str {
    failure.message.lines().next().unwrap_or("")
}

fn sum(cases: &[Case]) -> String {
    let count = |status: Status| {
        let alike = cases.iter().filter(|case| case.status() == status);
        alike.count()
    };
    let none = count(Status::Refused) + count(Status::Failed);
    format!(
        "{} plans: {} safe, {} unsafe, {none} without a verdict",
        cases.len(),
        count(Status::Good),
        count(Status::Bad)
    )
}

fn case_json(case: &Case) -> Json {
    match &case.found {
        Ok((facts, stored)) => {
            let file = stored.as_ref().map(|stored| stored.file.as_str());
            facts_json(facts, file)
        }
        Err(failure) => failure_json(&case.title, &failure.message),
    }
}
