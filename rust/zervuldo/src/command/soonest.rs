//! `soonest`: the least time into a location with perfect clocks, by the proved
//! call.

use super::{source, Command, JSON, OUTPUT, UNIT};
use crate::args::{Arguments, Takes};
use crate::arrivals::Arrival;
use crate::json::Json;
use crate::outcome::{Failure, Outcome};
use crate::source::Accepted;
use crate::text::{indented, table, wrapped};
use crate::told::labelled;
use plan::mistake::guess;
use plan::Plan;

pub const COMMAND: Command = Command {
    name: "soonest",
    summary: "the least time into a location with perfect clocks",
    details: "LOCATION is a name of the plan, or where none is called so a number, from 0. \
              Without it all locations are listed. The time is proved, in units: some run takes \
              just so long, and none takes less. Where no run gets there, it is never, and the \
              proved marks say whether drift leads there. Runs pass through forbidden locations \
              as through others. A time or never is an answer, so the status is 0.",
    takes: Takes {
        operands: "PLAN [LOCATION]",
        count: 1..=2,
        options: &[&JSON, &UNIT, &OUTPUT],
    },
    run,
};

fn run(arguments: &Arguments) -> Result<Outcome, Failure> {
    let [file, words @ ..] = &arguments.operands[..] else {
        unreachable!("an operand is taken")
    };
    let source = source(arguments, file)?;
    let accepted @ Accepted { plan, .. } = &source.accepted()?;
    let wanted = words.first().map(|word| location_of(plan, file, word));
    let wanted = wanted.transpose()?;
    let arrivals = source.arrivals(accepted)?;
    let title = &source.title;
    let output = match (
        wanted.map(|location| arrivals[location]),
        arguments.has(&JSON),
    ) {
        (Some(arrival), true) => format!("{}\n", one_json(plan, title, &arrival)),
        (None, true) => format!("{}\n", all_json(plan, title, &arrivals)),
        (Some(arrival), false) => one(plan, title, &arrival),
        (None, false) => all(plan, title, &arrivals),
    };
    Ok(Outcome::done(output))
}

/// The location of that name, or where no name is so that of the number.
fn location_of(plan: &Plan, file: &str, word: &str) -> Result<usize, Failure> {
    let names = || plan.locations.iter().map(|location| location.name.as_str());
    let by_name = names().position(|name| name == word);
    let by_number = || (0..plan.locations.len()).find(|number| number.to_string() == word);
    by_name.or_else(by_number).ok_or_else(|| {
        let hint = guess(word, names());
        let known = names().collect::<Vec<&str>>().join(", ");
        Failure::failed(format!(
            "zervuldo soonest: there is no location '{word}' in {file}{hint}\n\
             its locations, from 0 on: {known}\n"
        ))
    })
}

fn one(plan: &Plan, title: &str, arrival: &Arrival) -> String {
    let place = plan.quoted(arrival.location);
    let kind = match plan.locations[arrival.location].forbidden {
        true => ", which is forbidden",
        false => "",
    };
    let heading = format!("{title}: soonest into {place}{kind}");
    labelled(&heading, &arrival.lines(plan))
}

/// All locations in a table.
fn all(plan: &Plan, title: &str, arrivals: &[Arrival]) -> String {
    let rows: Vec<[String; 3]> = arrivals.iter().map(|arrival| arrival.row(plan)).collect();
    let table = table(["location", "time", "remark"], None, &rows);
    let trust = "With perfect clocks some run takes just so long, and none takes less; \
                 never means that none gets there. All of it is proved, in units.";
    format!(
        "{title}: soonest into each location\n{}\n{}",
        indented(&table),
        wrapped("", 0, trust)
    )
}

fn one_json(plan: &Plan, title: &str, arrival: &Arrival) -> Json {
    let named = [("plan", Json::text(title))].into_iter();
    Json::Object(named.chain(arrival.fields(plan)).collect())
}

fn all_json(plan: &Plan, title: &str, arrivals: &[Arrival]) -> Json {
    let locations = arrivals.iter();
    let locations = locations.map(|arrival| Json::Object(arrival.fields(plan)));
    Json::Object(vec![
        ("plan", Json::text(title)),
        ("locations", Json::List(locations.collect())),
    ])
}
