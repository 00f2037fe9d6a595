//! Facts told in words: one plan line by line, several as a table.

use crate::facts::{Example, Facts, Finding, Perfect, Safe, Soonest, Unsafe};
use crate::text::{self, counted, wrapped};
use crate::units::{counted_units, drift_words, grouped, margin_words, real_words, Drift, Window};
use plan::{Plan, EDGES_MARK};

/// Where the words behind a label begin.
const INDENT: usize = 18;

/// A label and what is said under it.
pub type Line = (&'static str, String);

impl Facts {
    pub fn is_safe(&self) -> bool {
        matches!(self.finding, Finding::Safe(_))
    }

    pub fn verdict(&self) -> &'static str {
        if self.is_safe() {
            "safe"
        } else {
            "unsafe"
        }
    }

    /// The name of our evidence.
    pub fn kind(&self) -> &'static str {
        if self.is_safe() {
            "sheet"
        } else {
            "trail"
        }
    }
}

/// All facts of one plan; what became of its evidence comes behind them.
pub fn told(facts: &Facts, evidence: Option<String>) -> String {
    let mut lines = match &facts.finding {
        Finding::Safe(safe) => safe_lines(facts, safe),
        Finding::Unsafe(danger) => danger_lines(facts, danger),
    };
    lines.extend(joint_words(facts).map(|words| ("judge", words.to_string())));
    let mark = mark_words(&facts.plan);
    lines.extend(mark.map(|words| ("mark", words.to_string())));
    lines.extend(evidence.map(|words| ("evidence", words)));
    let warnings = facts.warnings.iter();
    lines.extend(warnings.map(|warning| ("warning", warning.words(&facts.plan))));
    lines.extend(trust_lines(facts));
    labelled(&format!("{}: {}", facts.title, facts.verdict()), &lines)
}

/// Lines under a heading.
pub fn labelled(heading: &str, lines: &[Line]) -> String {
    let lines = lines.iter();
    let lines = lines.map(|(label, words)| wrapped(&format!("  {label}"), INDENT, words));
    format!("{heading}\n{}", lines.collect::<String>())
}

fn safe_lines(facts: &Facts, safe: &Safe) -> Vec<Line> {
    let plan = &facts.plan;
    let mut lines = vec![
        ("meaning", safe_words(safe)),
        (
            "states",
            format!("{}, {} of them reached by drift", facts.states, safe.marked),
        ),
        ("margin", safe.margin.to_string()),
    ];
    lines.extend(drift_words(plan).map(|words| ("drift", words)));
    lines.push(("crystals", margin_words(plan, safe)));
    lines
}

/// The mark with its meaning, where a blank stay limit is not simply the
/// ceiling. How many there are is no matter: spellings of one plan differ in it.
pub fn mark_words(plan: &Plan) -> Option<&'static str> {
    let words = "2: a blank stay limit is that of the last edge to close, or the ceiling where \
                 no edge leaves";
    (plan.mark == EDGES_MARK).then_some(words)
}

/// Which judge took the plan, where it is the quicker one, and what that means.
pub fn joint_words(facts: &Facts) -> Option<&'static str> {
    let words = "the quicker one: each loop that can be gone has an edge that resets every clock, \
                 so slight drift enters no location that perfect clocks do not";
    facts.is_joint.then_some(words)
}

/// How long our trail is, and where it leads.
pub fn trail_words(facts: &Facts, danger: &Unsafe) -> String {
    let place = facts.plan.quoted(danger.location);
    let touch = match facts.is_joint {
        true => ", the fewest without touch",
        false => "",
    };
    format!("{} steps into {place}{touch}", danger.steps)
}

/// What the margin of a safe plan means.
pub fn safe_words(safe: &Safe) -> String {
    format!(
        "drift below 1/{} of a unit enters no forbidden location, ever",
        safe.margin
    )
}

fn danger_lines(facts: &Facts, danger: &Unsafe) -> Vec<Line> {
    let plan = &facts.plan;
    let place = plan.quoted(danger.location);
    let mut lines = vec![
        ("meaning", danger_words(&danger.perfect, &place)),
        ("states", facts.states.to_string()),
        ("trail", trail_words(facts, danger)),
        ("perfect clocks", perfect_words(plan, &danger.perfect)),
        ("harm", harm_words(plan, danger)),
    ];
    lines.extend(drift_words(plan).map(|words| ("drift", words)));
    if let Some(window) = Window::of(plan, danger) {
        lines.push(("jumps", window.jump_words()));
        lines.extend(window.time_words().map(|words| ("time", words)));
    }
    let example = danger.example.as_ref();
    lines.extend(example.map(|example| ("example", example_words(plan, example))));
    lines
}

fn danger_words(perfect: &Perfect, place: &str) -> String {
    match perfect {
        Perfect::FailsToo { .. } => format!("the ring can enter {place}, drift or no drift"),
        Perfect::Clean => {
            format!("with any drift, however slight, the ring can enter {place} in the end")
        }
    }
}

/// Whether perfect clocks do harm too, and how soon.
pub fn perfect_words(plan: &Plan, perfect: &Perfect) -> String {
    match perfect {
        Perfect::FailsToo { soonest, .. } => format!(
            "fail too: {}; a trail of time and jump steps alone passes the proved check",
            soonest_words(plan, soonest)
        ),
        Perfect::Clean => "clean: it takes drift to get there".to_string(),
    }
}

fn soonest_words(plan: &Plan, soonest: &Soonest) -> String {
    let place = plan.quoted(soonest.location);
    match soonest.units {
        0 => format!("{place} at once"),
        units => {
            let (count, real) = (counted_units(units), real_words(plan, units.into()));
            format!("{place} after {count} at the soonest{real}")
        }
    }
}

/// Within how many jumps a drift of 1/q does harm.
pub fn harm_words(plan: &Plan, danger: &Unsafe) -> String {
    let within = danger.within(plan);
    let (base, rate) = (grouped(within.base.into()), grouped(within.rate.into()));
    match danger.perfect {
        Perfect::FailsToo { .. } => {
            format!("some run does harm within {base} jumps, whatever the drift")
        }
        Perfect::Clean => format!(
            "at a drift of 1/q of a unit no run of fewer than q - 1 jumps does harm, and some \
             run of at most {base} + {rate} q jumps does"
        ),
    }
}

/// A run found by search: how long it is, and how long it takes.
pub fn example_words(plan: &Plan, example: &Example) -> String {
    let (jumps, time) = (grouped(example.jumps.len() as u128), example.units());
    let real = real_words(plan, time);
    let (drift, time) = (grouped(example.d.into()), grouped(time));
    let whose = match example.is_crystals {
        true => ", which the crystals make,",
        false => "",
    };
    format!(
        "at a drift of 1/{drift}{whose} a run of {jumps} jumps gets there in {time} units{real} \
         (by a search, not proved)"
    )
}

impl Example {
    /// The units that the run takes, rounded up.
    pub fn units(&self) -> u128 {
        let last = self.jumps.last().map_or(0, |jump| jump.moment);
        u128::from(last).div_ceil(u128::from(self.d))
    }
}

/// What of all this is proved, and what is not.
fn trust_lines(facts: &Facts) -> [Line; 2] {
    let proved = match &facts.finding {
        Finding::Safe(_) => "verdict, states, margin; the sheet passes the proved check",
        Finding::Unsafe(danger) => match danger.perfect {
            Perfect::Clean => {
                "verdict, states, trail, that perfect clocks are clean, the jumps before harm and \
                 those within which it comes; the trail passes the proved check"
            }
            Perfect::FailsToo { .. } => {
                "verdict, states, trail, the units at the soonest, the jumps within which harm \
                 comes; the trails pass the proved check"
            }
        },
    };
    let not_proved = match &facts.finding {
        Finding::Safe(_) => "how crystals make a drift (docs/DRIFT.md argues it)",
        Finding::Unsafe(_) => {
            "how long jumps take; how crystals make a drift (docs/DRIFT.md argues it)"
        }
    };
    [
        ("proved", proved.to_string()),
        ("not proved", not_proved.to_string()),
    ]
}

/// A line of the table for a plan that could be judged.
pub fn row(facts: &Facts) -> [String; 4] {
    let found = match &facts.finding {
        Finding::Safe(safe) => {
            let drift = Drift::of(&facts.plan);
            let more = match drift.filter(|drift| !drift.is_harmless(safe.margin)) {
                Some(_) => "; ITS CRYSTALS DRIFT MORE",
                None => "",
            };
            format!("harmless for ever below 1/{} of a unit{more}", safe.margin)
        }
        Finding::Unsafe(danger) => {
            let how = match danger.perfect {
                Perfect::Clean => "by drift only",
                Perfect::FailsToo { .. } => "with perfect clocks too",
            };
            let (place, steps) = (facts.plan.quoted(danger.location), danger.steps);
            format!("{place} in {steps} steps, {how}")
        }
    };
    let warned = match facts.warnings.len() {
        0 => String::new(),
        count => format!("; {}", counted(count, "warning")),
    };
    [
        facts.title.clone(),
        facts.verdict().to_string(),
        facts.states.to_string(),
        found + &warned,
    ]
}

/// The rows of several plans.
pub fn table(rows: &[[String; 4]]) -> String {
    text::table(["plan", "verdict", "states", "finding"], Some(2), rows)
}
