//! The check of evidence, literally by the rules.

use super::read::{spelled, Spelled};
use super::spellings::is_shortest;
use super::states::States;
use super::Brute;

/// A place in spelled evidence.
struct Cursor<'a> {
    spelled: Spelled<'a>,
    at: usize,
}

impl Cursor<'_> {
    fn take(&mut self) -> Result<u32, u8> {
        let number = self.spelled.get(self.at)?;
        if !is_shortest(self.spelled.forms[self.at]) {
            return Err(15);
        }
        self.at += 1;
        Ok(number)
    }

    fn end(&self) -> Result<(), u8> {
        if self.spelled.ends_at(self.at) {
            Ok(())
        } else {
            Err(6)
        }
    }
}

impl Brute {
    pub fn check(&self, evidence: &[u8]) -> Result<u32, u8> {
        let mut cursor = Cursor {
            spelled: spelled(evidence),
            at: 0,
        };
        match cursor.take()? {
            1 => self.check_sheet(&mut cursor).map(|()| 1),
            2 => self.check_trail(&mut cursor).map(|()| 2),
            _ => Err(10),
        }
    }

    fn check_sheet(&self, cursor: &mut Cursor) -> Result<(), u8> {
        let states = &self.states;
        let count = states.list.len();
        let mut numbers = Vec::new();
        for state in 0..count {
            let number = cursor.take()?;
            if number as usize >= 2 * count || (!states.allowed[state] && number > 0) {
                return Err(11);
            }
            numbers.push(number);
        }
        cursor.end()?;
        if rules_kept(states, &numbers) {
            Ok(())
        } else {
            Err(12)
        }
    }

    fn check_trail(&self, cursor: &mut Cursor) -> Result<(), u8> {
        let states = &self.states;
        let mut state = states.start;
        let mut left = cursor.take()?;
        while left > 0 {
            left -= 1;
            state = match cursor.take()? {
                kind @ (0 | 1) => self.follow(cursor, kind, state)?,
                2 => {
                    let to = self.take_region(cursor, state)?;
                    let is_face = states.steps[state]
                        .iter()
                        .any(|label| label.kind == 2 && label.to == to);
                    if is_face {
                        to
                    } else {
                        return Err(13);
                    }
                }
                3 => {
                    let to = self.take_region(cursor, state)?;
                    let shares = states.regions.shares[states.list[state].1][states.list[to].1];
                    if !shares || !states.allowed[to] {
                        return Err(13);
                    }
                    self.follow_walk(cursor, to)?;
                    to
                }
                _ => return Err(13),
            };
        }
        cursor.end()?;
        if states.forbidden[state] {
            Ok(())
        } else {
            Err(14)
        }
    }

    /// Takes a time step or a jump, whose edge is still to be read.
    fn follow(&self, cursor: &mut Cursor, kind: u32, state: usize) -> Result<usize, u8> {
        let edge = if kind == 1 {
            cursor.take()? as usize
        } else {
            0
        };
        let step = self.states.steps[state]
            .iter()
            .find(|label| label.kind == kind && label.edge == edge);
        step.map(|label| label.to).ok_or(13)
    }

    fn follow_walk(&self, cursor: &mut Cursor, home: usize) -> Result<(), u8> {
        let mut left = cursor.take()?;
        if left == 0 {
            return Err(13);
        }
        let mut state = home;
        while left > 0 {
            left -= 1;
            let kind = cursor.take()?;
            if kind > 1 {
                return Err(13);
            }
            state = self.follow(cursor, kind, state)?;
        }
        if state == home {
            Ok(())
        } else {
            Err(13)
        }
    }

    /// The state of the present location with the region that comes next.
    fn take_region(&self, cursor: &mut Cursor, state: usize) -> Result<usize, u8> {
        let mut part =
            || -> Result<Vec<u32>, u8> { (0..self.plan.clocks).map(|_| cursor.take()).collect() };
        let whole = part()?;
        let rank = part()?;
        let region = self.states.regions.find(&whole, &rank).ok_or(13)?;
        Ok(self.states.number(self.states.list[state].0, region))
    }
}

/// The rules of a sheet, one after the other, over all pairs of states.
fn rules_kept(states: &States, numbers: &[u32]) -> bool {
    let all = 0..numbers.len();
    let is_in = |state: usize| numbers[state] % 2 == 1;
    let height = |state: usize| numbers[state] / 2;
    let labels = |state: usize, kinds: std::ops::Range<u32>| {
        states.steps[state]
            .iter()
            .filter(move |label| kinds.contains(&label.kind))
    };

    let start_in = is_in(states.start);
    let closed = all
        .clone()
        .filter(|&state| is_in(state))
        .all(|state| labels(state, 0..3).all(|label| is_in(label.to)));
    let never_raised = all
        .clone()
        .all(|state| labels(state, 0..2).all(|label| height(label.to) <= height(state)));
    let touches_in = |state: usize| {
        all.clone().any(|other| {
            let ((here, one), (there, two)) = (states.list[state], states.list[other]);
            is_in(other) && here == there && states.regions.shares[one][two]
        })
    };
    let out_lowers = all
        .clone()
        .filter(|&state| !is_in(state) && touches_in(state))
        .all(|state| labels(state, 0..2).all(|label| height(label.to) < height(state)));
    let none_forbidden = all
        .clone()
        .all(|state| !(is_in(state) && states.forbidden[state]));

    start_in && closed && never_raised && out_lowers && none_forbidden
}
