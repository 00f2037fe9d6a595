//! Model bytes of a plan, and the plan of model bytes.

use crate::flaw::{Flaw, Numbers};
use crate::loops::{uncounted_words, unreset_loops};
use crate::mistake::range_words;
use crate::{Edge, Location, Plan, Units};
use second::draft::{Draft, DraftEdge};
use second::model::{Field, Reading};
use second::refusal::CLOCK_UNRESET;
use std::ops::RangeInclusive;

/// The model bytes of a plan, in shortest numbers.
pub fn encode(plan: &Plan) -> Vec<u8> {
    let locations = plan.locations.iter();
    Draft {
        mark: plan.mark.into(),
        clocks: plan.clocks.len(),
        ceiling: plan.ceiling.into(),
        start: plan.start,
        kinds: locations.clone().map(|at| at.forbidden.into()).collect(),
        stays: locations.map(stay_fields).collect(),
        edges: plan.edges.iter().map(drafted).collect(),
    }
    .bytes()
}

/// 0 stands for a blank limit, any other s for limit s-1.
fn stay_fields(location: &Location) -> Vec<u32> {
    let field = |limit: &Option<u8>| limit.map_or(0, |limit| u32::from(limit) + 1);
    location.stay.iter().map(field).collect()
}

fn drafted(edge: &Edge) -> DraftEdge {
    let bounds = |&(low, high): &(u8, u8)| (low.into(), high.into());
    DraftEdge {
        from: edge.from,
        to: edge.to,
        mask: edge.resets.into(),
        guard: edge.guard.iter().map(bounds).collect(),
    }
}

/// The plan of model bytes, with plain names; or the first flaw, by the
/// order of document 01 (refusals 1 to 7).
pub fn decode(bytes: &[u8]) -> Result<Plan, Flaw> {
    let mut numbers = Numbers::of_plan(bytes);
    let mut stays = Vec::new();
    let reading = Reading::from_fields(&mut |field, range| {
        let number = number_within(&mut numbers, field, range)?;
        // A model has the limit alone, a plan also whether it was written.
        if let Field::Stay { .. } = field {
            stays.push(number.checked_sub(1).map(|limit| limit as u8));
        }
        Ok(number)
    })?;
    numbers.end("the model")?;
    let plan = plan_of(&reading, &stays);
    for clock in 0..plan.clocks.len() {
        if let Some(found) = unreset_loops(&plan, clock).first() {
            return Err(unreset(&plan, clock, found));
        }
    }
    Ok(plan)
}

/// A model with plain names, with its mark, and with the stay limits as they
/// were written.
fn plan_of(reading: &Reading, stays: &[Option<u8>]) -> Plan {
    let Reading { mark, model } = reading;
    let locations = model.locations.iter().zip(stays.chunks(model.clocks));
    let edges = model.edges.iter();
    Plan {
        mark: *mark as u8,
        clocks: vec![String::new(); model.clocks],
        ceiling: model.ceiling,
        start: model.start,
        locations: locations
            .map(|(location, stay)| Location {
                name: String::new(),
                forbidden: location.forbidden,
                stay: stay.to_vec(),
            })
            .collect(),
        edges: edges
            .map(|edge| Edge {
                name: None,
                from: edge.from,
                to: edge.to,
                resets: edge.resets,
                guard: edge
                    .low
                    .into_iter()
                    .zip(edge.high)
                    .take(model.clocks)
                    .collect(),
            })
            .collect(),
        units: Units::default(),
    }
    .with_plain_names()
}

fn unreset(plan: &Plan, clock: usize, found: &[usize]) -> Flaw {
    let edges: Vec<String> = found.iter().map(|&at| plan.edge_title(at)).collect();
    let clock_name = &plan.clocks[clock];
    let each = match edges.len() {
        1 => "which",
        _ => "each of which",
    };
    let words = format!(
        "clock {clock} ({clock_name}) is never reset on the loop of {}, {each} can open{}",
        edges.join(", "),
        uncounted_words(plan)
    );
    Flaw {
        refusal: CLOCK_UNRESET,
        words,
    }
}

/// The next number of a model, or what is wrong with it.
fn number_within(
    numbers: &mut Numbers,
    field: Field,
    range: RangeInclusive<u32>,
) -> Result<u32, Flaw> {
    let (low, high) = range.into_inner();
    let what = field_words(field, low);
    let number = numbers.next(&what)?;
    if (low..=high).contains(&number) {
        return Ok(number);
    }
    let range = range_words(low, high);
    let words = format!("{what}: it is {number}, but must be {range}");
    Err(numbers.flaw(field.refusal(), &words))
}

/// What a number that is at least `low` stands for.
fn field_words(field: Field, low: u32) -> String {
    match field {
        Field::Mark => "the mark".to_string(),
        Field::Clocks => "the number of clocks".to_string(),
        Field::Ceiling => "the ceiling".to_string(),
        Field::Locations => "the number of locations".to_string(),
        Field::Edges => "the number of edges".to_string(),
        Field::Start => "the start location".to_string(),
        Field::Kind { location } => format!("the kind of location {location}"),
        Field::Stay { location, clock } => {
            format!("the stay field of clock {clock} in location {location}")
        }
        Field::From { edge } => format!("the location that edge {edge} leaves"),
        Field::To { edge } => format!("the location that edge {edge} enters"),
        Field::Resets { edge } => format!("the reset mask of edge {edge}"),
        Field::Low { edge, clock } => format!("the low of clock {clock} on edge {edge}"),
        Field::High { edge, clock } => {
            format!("the high of clock {clock} on edge {edge}, whose low is {low}")
        }
    }
}
