//! The verdict in large words, and what it means for the ring.

use super::end;
use super::html::{element, paragraph, Html};
use crate::facts::{Facts, Finding, Perfect, Safe, Unsafe};
use crate::units::{time_words, Round};
use plan::Plan;

/// The verdict in one line, for the page and for the picture.
pub fn verdict_line(facts: &Facts) -> String {
    match &facts.finding {
        Finding::Safe(_) if forbidden(&facts.plan).is_empty() => {
            "SAFE, but nothing is forbidden".to_string()
        }
        Finding::Safe(safe) => format!("SAFE while drift is below 1/{} of a unit", safe.margin),
        Finding::Unsafe(danger) => {
            let how = match danger.perfect {
                Perfect::Clean => "by drift",
                Perfect::FailsToo { .. } => "even with perfect clocks",
            };
            format!(
                "UNSAFE {how}: {} can be entered",
                facts.plan.quoted(end(facts))
            )
        }
    }
}

/// What stands first on the page.
pub fn header(facts: &Facts) -> Html {
    let (class, meaning) = match &facts.finding {
        Finding::Safe(safe) => ("safe", safe_meaning(&facts.plan, safe)),
        Finding::Unsafe(danger) => ("unsafe", danger_meaning(facts, danger)),
    };
    let verdict = element(&format!("p class=\"verdict {class}\""), verdict_line(facts));
    let title = element("h1", format!("Drift report on the plan {}", facts.title));
    let heading = element("h2", "What this means for the ring");
    let meaning: Html = meaning.into_iter().map(paragraph).collect();
    element("header", [title, verdict, heading, meaning])
}

/// The names of the forbidden locations.
fn forbidden(plan: &Plan) -> Vec<String> {
    let locations = (0..plan.locations.len()).filter(|&at| plan.locations[at].forbidden);
    locations.map(|at| plan.quoted(at)).collect()
}

fn safe_meaning(plan: &Plan, safe: &Safe) -> Vec<String> {
    let names = forbidden(plan);
    if names.is_empty() {
        let words = "The plan forbids no location, so it is safe whatever the ring does: this \
                     verdict says nothing about the ring. Mark what must never happen as \
                     forbidden, and judge the plan again.";
        return vec![words.to_string()];
    }
    let margin = safe.margin;
    let real = plan.units.unit.map_or(String::new(), |unit| {
        let share = time_words(u128::from(unit) / u128::from(margin), Round::Down);
        format!(" ({share})")
    });
    vec![
        format!(
            "However long the ring runs, it never enters {}, as long as each limit of the plan \
             is missed by less than 1/{margin} of a unit{real}. Below that, what \
             drift does never adds up to harm.",
            names.join(" or ")
        ),
        DRIFT.to_string(),
    ]
}

const DRIFT: &str = "Drift means that no crystal keeps time exactly: a clock that should be read \
                     at 3 units is read a hair sooner or later, so every limit gives way by a \
                     hair.";

fn danger_meaning(facts: &Facts, danger: &Unsafe) -> Vec<String> {
    let place = facts.plan.quoted(end(facts));
    match danger.perfect {
        Perfect::FailsToo { .. } => vec![format!(
            "The ring can enter {place} with clocks that keep time exactly: no drift is needed. \
             Better crystals do not help; the plan itself must change."
        )],
        Perfect::Clean => vec![
            format!(
                "With perfect clocks the ring never enters {place}. With real ones it can, \
                 however good their crystals are: round a loop of the plan they slip a hair in \
                 each turn, and nothing takes the slip back. Better crystals only make it take \
                 longer; the plan itself must change."
            ),
            DRIFT.to_string(),
        ],
    }
}
