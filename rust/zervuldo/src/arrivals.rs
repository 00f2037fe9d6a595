//! How soon perfect clocks enter each location, by the proved call, and whether
//! drift leads there, by the proved marks.

use crate::json::{time_fields, Json};
use crate::library::{entered, Library};
use crate::outcome::Failure;
use crate::source::{Accepted, Source};
use crate::told::Line;
use crate::units::{counted_units, real_words};
use plan::Plan;

#[derive(Clone, Copy, Debug, PartialEq, Eq)]
pub struct Arrival {
    pub location: usize,
    /// The least time with perfect clocks; none where no run gets there.
    pub units: Option<u64>,
    /// Whether drift leads there, however slight it is; so it does wherever
    /// perfect clocks get.
    pub by_drift: bool,
}

impl Source {
    /// Those of all locations, in the order of the plan.
    pub fn arrivals(&self, accepted: &Accepted) -> Result<Vec<Arrival>, Failure> {
        let Accepted { plan, model } = accepted;
        let mut library = Library::default();
        let marks = self.proved(library.marks(model))?;
        let entered = entered(&marks, plan.locations.len());
        let arrivals = (0..).zip(entered).map(|(location, by_drift)| {
            let arrival = Arrival {
                location,
                units: self.proved(library.soonest(model, location))?,
                by_drift,
            };
            arrival.agreed().map_err(|words| self.at_odds(words))
        });
        arrivals.collect()
    }
}

impl Arrival {
    fn agreed(self) -> Result<Arrival, &'static str> {
        match (self.units, self.by_drift) {
            (Some(_), false) => Err("a location has a least time, but no marked state"),
            _ => Ok(self),
        }
    }

    /// The time, in units and in real time.
    fn time(&self, plan: &Plan) -> String {
        match self.units {
            None => "never".to_string(),
            Some(0) => "0 units".to_string(),
            Some(units) => counted_units(units) + &real_words(plan, units.into()),
        }
    }

    /// What drift does where perfect clocks do not get, in a sentence and in
    /// short.
    fn drift_words(&self) -> [&'static str; 2] {
        match self.by_drift {
            true => [
                "only drift leads there, however slight it is",
                "by drift only",
            ],
            false => [
                "slight drift does not lead there either",
                "not by slight drift either",
            ],
        }
    }

    fn meaning(&self, plan: &Plan) -> String {
        let place = plan.quoted(self.location);
        match self.units {
            _ if self.location == plan.start => {
                format!("the ring starts in {place}: it is entered at once")
            }
            Some(0) => format!("with perfect clocks some run enters {place} at once"),
            Some(units) => format!(
                "with perfect clocks some run enters {place} after {}, and none enters it sooner",
                counted_units(units)
            ),
            None => {
                let [drift, _] = self.drift_words();
                format!("no run with perfect clocks enters {place}; {drift}")
            }
        }
    }

    /// What is told of one location.
    pub fn lines(&self, plan: &Plan) -> Vec<Line> {
        let proved = match self.units {
            Some(_) => "all of it, in units and for runs on whatever times",
            None => "all of it: perfect clocks by the call for the least time, drift by the marks",
        };
        vec![
            ("time", self.time(plan)),
            ("meaning", self.meaning(plan)),
            ("proved", proved.to_string()),
        ]
    }

    /// The row of a table of all.
    pub fn row(&self, plan: &Plan) -> [String; 3] {
        let location = &plan.locations[self.location];
        let remarks = [
            (self.location == plan.start).then_some("start"),
            location.forbidden.then_some("forbidden"),
            self.units.is_none().then(|| self.drift_words()[1]),
        ];
        let remarks: Vec<&str> = remarks.into_iter().flatten().collect();
        [location.name.clone(), self.time(plan), remarks.join("; ")]
    }

    pub fn fields(&self, plan: &Plan) -> Vec<(&'static str, Json)> {
        let location = &plan.locations[self.location];
        let [units, real] = time_fields(plan, self.units);
        vec![
            ("location", Json::text(&location.name)),
            ("number", Json::count(self.location)),
            ("start", Json::Bool(self.location == plan.start)),
            ("forbidden", Json::Bool(location.forbidden)),
            units,
            real,
            ("entered_by_drift", Json::Bool(self.by_drift)),
        ]
    }
}

#[cfg(test)]
mod tests {
    use super::*;

    #[test]
    fn disagreement_is_noticed() {
        let arrival = |units, by_drift| Arrival {
            location: 1,
            units,
            by_drift,
        };
        assert!(arrival(Some(2), false).agreed().is_err());
        for sound in [(Some(2), true), (None, true), (None, false)] {
            assert!(arrival(sound.0, sound.1).agreed().is_ok());
        }
    }
}
