//! The proved library against the second checker, on generated models of all
//! kinds and on evidence of all kinds, with scratch and output of random
//! lengths and dirty contents. All memory is compared after each call, and
//! what the library writes must pass its own check.
//!
//! Usage: compare COUNT SEED [KIND]. The first difference is printed and saved.
//! With a kind all models are of it.

mod alike;
mod joint;
mod memory;
mod pieces;
mod plans;
mod remarked;
mod room;
mod rows;
mod soonest;
mod tally;

use alike::{check_alike, marks_alike, numbers_alike, write_alike};
use alike::{harm_alike, judge_alike, sheet_margin_alike, Judge};
use joint::joint_alike;
use memory::{length_near, rooms, Lent};
use pieces::{pieces, Others};
use plans::plans_alike;
use remarked::remarked_alike;
use room::{room_alike, within_limit};
use rows::long;
use second::generate::{generate, KINDS};
use second::random::Random;
use soonest::soonest_all_alike;
use std::process::ExitCode;
use tally::Tally;

/// Every so many cases one of the largest models is taken, since it costs the
/// most; one with long evidence takes its other turns.
const LARGEST_EVERY: u64 = 50;

/// Where a difference is saved: the model, and the evidence if it is about one.
const SAVED_MODEL: &str = "difference.model";
const SAVED_EVIDENCE: &str = "difference.evidence";

/// How the checkers differ, and on which evidence if it is about one.
struct Difference {
    what: String,
    evidence: Option<Vec<u8>>,
}

fn main() -> ExitCode {
    let words: Vec<String> = std::env::args().skip(1).collect();
    let Some((count, seed, kind)) = asked(&words) else {
        eprintln!("usage: compare COUNT SEED [KIND]");
        return ExitCode::from(2);
    };
    let mut tally = Tally::default();
    let mut others = Others::default();
    for case in 0..count {
        let (kind, model) = model_of(seed, case, kind);
        let mut random = Random::with_word(seed ^ case, "lengths");
        if let Err(difference) = agree(&model, &mut random, &mut others, &mut tally) {
            println!("case {case}, kind {kind}, seed {seed}: {}", difference.what);
            save(&model, difference.evidence.as_deref());
            return ExitCode::FAILURE;
        }
        if (case + 1) % 1000 == 0 {
            eprintln!("{} of {count}, {} pairs", case + 1, tally.pairs());
        }
    }
    println!(
        "{count} models and {} pairs agree, seed {seed}",
        tally.pairs()
    );
    print!("{tally}");
    ExitCode::SUCCESS
}

/// The number of models, the seed, and their one kind if it is named.
fn asked(words: &[String]) -> Option<(u64, u64, Option<&'static str>)> {
    let (numbers, named) = words.split_at_checked(2)?;
    let kind = match named {
        [] => None,
        [name] => Some(*KINDS.iter().find(|kind| *kind == name)?),
        _ => return None,
    };
    Some((numbers[0].parse().ok()?, numbers[1].parse().ok()?, kind))
}

/// A model of the kind, or of the kind whose turn it is.
fn model_of(seed: u64, case: u64, only: Option<&'static str>) -> (&'static str, Vec<u8>) {
    let at = case % KINDS.len() as u64;
    let kind = only.unwrap_or(KINDS[at as usize]);
    let seed = seed.wrapping_mul(1_000_003).wrapping_add(case);
    if kind == "largest" && case % LARGEST_EVERY != at {
        return ("long", long(&mut Random::with_word(seed, "long")));
    }
    (kind, generate(seed, kind).expect("a known kind"))
}

/// Prints the bytes of a difference and saves them.
fn save(model: &[u8], evidence: Option<&[u8]>) {
    let named = [
        ("model", SAVED_MODEL, Some(model)),
        ("evidence", SAVED_EVIDENCE, evidence),
    ];
    for (name, file, bytes) in named {
        let Some(bytes) = bytes else { continue };
        println!("{name} {bytes:?}");
        if let Err(error) = std::fs::write(file, bytes) {
            println!("{file} is not saved: {error}");
        }
    }
}

/// Both checkers answer alike, on the model and on all evidence made for it,
/// and leave all memory as document 01 says.
fn agree(
    model: &[u8],
    random: &mut Random,
    others: &mut Others,
    tally: &mut Tally,
) -> Result<(), Difference> {
    let read = second::model::read_model(model);
    if let Ok(model) = &read {
        tally.edges(model);
    }
    let states = read.map_or(20, |model| second::calls::states_of(&model));
    let told =
        room_alike(model, random, tally).map_err(|what| about_model(format!("room: {what}")))?;
    answered(model, random, states, tally).map_err(about_model)?;
    soonest_all_alike(model, random, states, tally).map_err(about_model)?;
    plans_alike(model, random, tally).map_err(|what| about_model(format!("plan: {what}")))?;
    remarked_alike(model, random, states, tally)
        .map_err(|what| about_model(format!("other mark: {what}")))?;
    let lent = Lent::near(random, states);
    let room = length_near(random, states);
    let marked = marks_alike(Judge::Full, model, &lent, room, random);
    marked.map_err(about_model)?.ok();
    joint_alike(model, random, states, tally)
        .map_err(|what| about_model(format!("joint: {what}")))?;
    let (asked, pieces) = pieces(model, random, others);
    for room in rooms(random, asked) {
        let lent = Lent::near(random, states);
        let written = write_alike(Judge::Full, model, &lent, room, random).map_err(about_model)?;
        tally.written(&written);
        if let Ok((is_unsafe, bytes)) = written {
            passes(model, &bytes, is_unsafe, &Lent::enough(random, states))?;
        }
    }
    for (label, evidence) in pieces {
        let lent = Lent::near(random, states);
        let checked = numbers_alike(&evidence)
            .and_then(|()| check_alike(model, &evidence, &lent))
            .and_then(|checked| within_limit(&told, &evidence, checked, tally));
        tally.checked(
            label,
            checked.map_err(|what| Difference {
                what: format!("{label}: {what}"),
                evidence: Some(evidence),
            })?,
        );
    }
    Ok(())
}

fn about_model(what: String) -> Difference {
    Difference {
        what,
        evidence: None,
    }
}

/// The calls that are lent scratch alone, each with its own.
fn answered(
    model: &[u8],
    random: &mut Random,
    states: usize,
    tally: &mut Tally,
) -> Result<(), String> {
    let named = |name: &'static str| move |what: String| format!("{name}: {what}");
    let judged =
        judge_alike(Judge::Full, model, &Lent::near(random, states)).map_err(named("judge"))?;
    tally.judged(&judged);
    let lent = Lent::near(random, states);
    tally.margin(&sheet_margin_alike(model, &lent).map_err(named("margin"))?);
    let lent = Lent::near(random, states);
    tally.harm(&harm_alike(model, &lent).map_err(named("harm"))?);
    Ok(())
}

/// What the library writes passes its check: a trail if unsafe, else a sheet.
fn passes(model: &[u8], evidence: &[u8], is_unsafe: bool, lent: &Lent) -> Result<(), Difference> {
    let wanted = if is_unsafe { 2 } else { 1 };
    let checked = check_alike(model, evidence, lent).and_then(|answer| match answer {
        Ok(kind) if kind == wanted => Ok(()),
        _ => Err(format!("wanted kind {wanted}, got {answer:?}")),
    });
    checked.map_err(|what| Difference {
        what: format!("written: {what}"),
        evidence: Some(evidence.to_vec()),
    })
}
