//! The check of evidence from anywhere: number by number, with the refusals
//! 1, 2, 6 and 10 to 14 in the order of document 01, and 15 of document 02 just
//! after 2.

use crate::graph::{jump_step, time_step, Graph, FACE, JUMP, TIME, TOUCH};
use crate::numbers::Reader;
use crate::refusal::*;
use crate::sheet::{greatest_number, keeps_rules, SHEET};
use crate::trail::TRAIL;

/// Checks evidence for the model of a graph; 1 for a passing sheet, 2 for a
/// passing trail.
pub fn check(graph: &Graph, evidence: &[u8]) -> Result<u32, Refusal> {
    let mut reader = Reader::new(evidence);
    let first = next_number(&mut reader)?;
    match first {
        SHEET => check_sheet(graph, &mut reader)?,
        TRAIL => check_trail(graph, &mut reader)?,
        _ => return Err(NO_EVIDENCE),
    }
    Ok(first)
}

/// The next number by 1, 2, 15. Every number of evidence is read here; what
/// remains after the last one is not read.
fn next_number(reader: &mut Reader) -> Result<u32, Refusal> {
    let number = reader.spelled()?;
    if number.padded {
        return Err(PADDED);
    }
    Ok(number.value)
}

fn check_sheet(graph: &Graph, reader: &mut Reader) -> Result<(), Refusal> {
    let most = greatest_number(graph.states());
    let mut numbers = Vec::with_capacity(graph.states());
    for state in 0..graph.states() {
        let number = next_number(reader)?;
        if number > most || (number != 0 && !graph.allowed[state]) {
            return Err(BAD_SHEET_NUMBER);
        }
        numbers.push(number);
    }
    if !reader.at_end() {
        return Err(BYTES_REMAIN);
    }
    if !keeps_rules(graph, &numbers) {
        return Err(SHEET_RULE_BROKEN);
    }
    Ok(())
}

fn check_trail(graph: &Graph, reader: &mut Reader) -> Result<(), Refusal> {
    let mut state = graph.start;
    for _ in 0..next_number(reader)? {
        let kind = next_number(reader)?;
        state = match u8::try_from(kind) {
            Ok(TIME | JUMP) => replay_walk_step(graph, reader, kind, state)?,
            Ok(FACE) => read_region(graph, reader, state, |regions, here, there| {
                regions.faces[here].contains(&there)
            })?,
            Ok(TOUCH) => {
                let touched = read_region(graph, reader, state, |regions, here, there| {
                    regions.share_a_corner(here, there)
                })?;
                replay_closed_walk(graph, reader, touched)?;
                touched
            }
            _ => return Err(BAD_STEP),
        };
    }
    if !reader.at_end() {
        return Err(BYTES_REMAIN);
    }
    if !graph.is_forbidden(state) {
        return Err(ENDS_ORDINARY);
    }
    Ok(())
}

/// Replays a step whose kind has been read and must be time or jump.
fn replay_walk_step(
    graph: &Graph,
    reader: &mut Reader,
    kind: u32,
    state: usize,
) -> Result<usize, Refusal> {
    let to = match u8::try_from(kind) {
        Ok(TIME) => time_step(graph.regions, &graph.allowed, state),
        Ok(JUMP) => {
            let edge = next_number(reader)? as usize;
            if edge >= graph.model.edges.len() {
                return Err(BAD_STEP);
            }
            jump_step(&graph.model, graph.regions, &graph.allowed, state, edge)
        }
        _ => None,
    };
    to.ok_or(BAD_STEP)
}

/// Reads all numbers of a region, then tests that they spell one, that it is
/// in the wanted relation to the present one, and that it is allowed here.
fn read_region(
    graph: &Graph,
    reader: &mut Reader,
    state: usize,
    related: impl Fn(&crate::regions::Regions, usize, usize) -> bool,
) -> Result<usize, Refusal> {
    let clocks = graph.regions.clocks;
    let mut numbers = Vec::with_capacity(2 * clocks);
    for _ in 0..2 * clocks {
        numbers.push(next_number(reader)?);
    }
    let (whole, rank) = numbers.split_at(clocks);
    let Some(region) = graph.regions.find(whole, rank) else {
        return Err(BAD_STEP);
    };
    let to = graph.base_of(state) + region;
    if !related(graph.regions, graph.region_of(state), region) || !graph.allowed[to] {
        return Err(BAD_STEP);
    }
    Ok(to)
}

/// Reads a count of at least 1 and that many time and jump steps, which must
/// lead from the touched state back to it.
fn replay_closed_walk(graph: &Graph, reader: &mut Reader, touched: usize) -> Result<(), Refusal> {
    let count = next_number(reader)?;
    if count == 0 {
        return Err(BAD_STEP);
    }
    let mut state = touched;
    for _ in 0..count {
        let kind = next_number(reader)?;
        state = replay_walk_step(graph, reader, kind, state)?;
    }
    if state != touched {
        return Err(BAD_STEP);
    }
    Ok(())
}
