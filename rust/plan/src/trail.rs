//! A trail read from evidence bytes and followed step by step, so that it can
//! be told and drawn. Whether evidence passes is for the proved check to say.

use crate::flaw::{Flaw, Numbers};
use crate::tell::region_words;
use crate::Plan;
use second::graph::{FACE, JUMP, TIME, TOUCH};
use second::model::Model;
use second::refusal::{BAD_STEP, ENDS_ORDINARY, NO_EVIDENCE};
use second::regions::{Region, Regions};
use second::trail::TRAIL;

#[derive(Clone, Copy, Debug, PartialEq, Eq)]
pub struct State {
    pub location: usize,
    pub region: Region,
}

#[derive(Clone, Debug, PartialEq, Eq)]
pub enum Kind {
    Time,
    /// The edge number.
    Jump(usize),
    Face,
    /// The closed walk of time and jump steps from the touched state.
    Touch(Vec<Step>),
}

#[derive(Clone, Debug, PartialEq, Eq)]
pub struct Step {
    pub kind: Kind,
    pub from: State,
    pub to: State,
}

/// The steps that could be followed, and what stopped the reading, if anything.
#[derive(Clone, Debug)]
pub struct Reading {
    pub steps: Vec<Step>,
    pub flaw: Option<Flaw>,
}

pub fn start_of(plan: &Plan) -> State {
    State {
        location: plan.start,
        region: Region::ZERO,
    }
}

pub fn read_trail(plan: &Plan, evidence: &[u8]) -> Reading {
    let mut replay = Replay {
        plan,
        model: plan.model(),
        regions: Regions::of(plan.clocks.len(), plan.ceiling),
        numbers: Numbers::of_evidence(evidence),
    };
    let mut steps = Vec::new();
    let flaw = replay.trail(&mut steps).err();
    Reading { steps, flaw }
}

struct Replay<'a> {
    plan: &'a Plan,
    model: Model,
    regions: &'static Regions,
    numbers: Numbers<'a>,
}

impl Replay<'_> {
    fn trail(&mut self, steps: &mut Vec<Step>) -> Result<(), Flaw> {
        if self.numbers.next("the mark of the evidence")? != TRAIL {
            return Err(self.numbers.flaw(
                NO_EVIDENCE,
                &format!("the mark of the evidence: a trail begins with {TRAIL}"),
            ));
        }
        let mut state = start_of(self.plan);
        for number in 1..=self.numbers.next("the number of steps")? {
            let step = self.step(state, &format!("step {number}"), true)?;
            state = step.to;
            steps.push(step);
        }
        self.numbers.end("the trail")?;
        if self.plan.locations[state.location].forbidden {
            return Ok(());
        }
        let words = format!(
            "the trail ends in {}, which is not forbidden",
            self.plan.quoted(state.location)
        );
        Err(Flaw {
            refusal: ENDS_ORDINARY,
            words,
        })
    }

    /// The next step; a closed walk is made of time and jump steps alone.
    fn step(&mut self, from: State, name: &str, all_kinds: bool) -> Result<Step, Flaw> {
        let kind = self.numbers.next(&format!("the kind of {name}"))?;
        let (kind, to) = match u8::try_from(kind) {
            Ok(TIME) => (Kind::Time, self.time(from, name)?),
            Ok(JUMP) => {
                let (edge, to) = self.jump(from, name)?;
                (Kind::Jump(edge), to)
            }
            Ok(FACE) if all_kinds => (Kind::Face, self.face(from, name)?),
            Ok(TOUCH) if all_kinds => {
                let to = self.touched(from, name)?;
                (Kind::Touch(self.closed_walk(to, name)?), to)
            }
            _ => {
                let known = if all_kinds {
                    "0, 1, 2 or 3"
                } else {
                    "0 or 1 inside a loop"
                };
                return Err(self.bad(name, &format!("its kind is {kind}, but must be {known}")));
            }
        };
        Ok(Step { kind, from, to })
    }

    fn bad(&self, name: &str, why: &str) -> Flaw {
        self.numbers.flaw(BAD_STEP, &format!("{name}: {why}"))
    }

    fn time(&mut self, from: State, name: &str) -> Result<State, Flaw> {
        let clocks = self.plan.clocks.len();
        let Some(region) = from.region.time_successor(clocks, self.plan.ceiling) else {
            let why = format!(
                "no time can pass at {}: a clock is at the ceiling",
                region_words(self.plan, &from.region)
            );
            return Err(self.bad(name, &why));
        };
        self.allowed(State { region, ..from }, name)
    }

    fn jump(&mut self, from: State, name: &str) -> Result<(usize, State), Flaw> {
        let number = self.numbers.next(&format!("the edge of {name}"))? as usize;
        let Some(edge) = self.model.edges.get(number) else {
            let count = self.model.edges.len();
            return Err(self.bad(
                name,
                &format!("there is no edge {number}; the plan has {count}, counted from 0"),
            ));
        };
        let title = self.plan.edge_title(number);
        if edge.from != from.location {
            let here = self.plan.quoted(from.location);
            return Err(self.bad(
                name,
                &format!("{title} does not leave {here}, where the trail is"),
            ));
        }
        if !from.region.meets_guard(edge, self.model.clocks) {
            let guard = self.plan.guard_words(&self.plan.edges[number]).join(", ");
            let clocks = region_words(self.plan, &from.region);
            return Err(self.bad(
                name,
                &format!("{title} opens when {guard}, not at {clocks}"),
            ));
        }
        let to = State {
            location: edge.to,
            region: from.region.reset(edge.resets),
        };
        Ok((number, self.allowed(to, name)?))
    }

    fn face(&mut self, from: State, name: &str) -> Result<State, Flaw> {
        self.near(from, name, "is no face of", |regions, here, there| {
            regions.faces[here].contains(&there)
        })
    }

    fn touched(&mut self, from: State, name: &str) -> Result<State, Flaw> {
        self.near(from, name, "shares no corner with", Regions::share_a_corner)
    }

    /// Reads a region that must be in the wanted relation to the present one.
    fn near(
        &mut self,
        from: State,
        name: &str,
        unrelated: &str,
        related: impl Fn(&Regions, usize, usize) -> bool,
    ) -> Result<State, Flaw> {
        let clocks = self.plan.clocks.len();
        let mut numbers = Vec::new();
        for _ in 0..2 * clocks {
            numbers.push(self.numbers.next(&format!("the region of {name}"))?);
        }
        let (whole, rank) = numbers.split_at(clocks);
        let Some(found) = self.regions.find(whole, rank) else {
            return Err(self.bad(name, "its whole parts and ranks are those of no region"));
        };
        let region = self.regions.list[found];
        if !related(self.regions, self.regions.index(&from.region), found) {
            let (there, here) = (
                region_words(self.plan, &region),
                region_words(self.plan, &from.region),
            );
            return Err(self.bad(
                name,
                &format!("the region {there} {unrelated} the region {here}"),
            ));
        }
        self.allowed(State { region, ..from }, name)
    }

    fn closed_walk(&mut self, home: State, name: &str) -> Result<Vec<Step>, Flaw> {
        let count = self
            .numbers
            .next(&format!("the length of the loop of {name}"))?;
        if count == 0 {
            return Err(self.bad(name, "its loop has no step"));
        }
        let mut walk = Vec::new();
        let mut state = home;
        for number in 1..=count {
            let step = self.step(state, &format!("{name}.{number}"), false)?;
            state = step.to;
            walk.push(step);
        }
        if state != home {
            return Err(self.bad(name, "its loop does not lead back to where it began"));
        }
        Ok(walk)
    }

    /// A state within the stay limits of its location.
    fn allowed(&self, state: State, name: &str) -> Result<State, Flaw> {
        let location = &self.model.locations[state.location];
        if state.region.is_allowed_in(location, self.model.clocks) {
            return Ok(state);
        }
        let limits = self.plan.limit_words(state.location).join(", ");
        let (place, clocks) = (
            self.plan.quoted(state.location),
            region_words(self.plan, &state.region),
        );
        Err(self.bad(
            name,
            &format!("{place} may be stayed in while {limits}, not at {clocks}"),
        ))
    }
}
