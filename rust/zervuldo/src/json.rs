//! Facts as JSON, for programs.

use crate::facts::{Example, Facts, Finding, Perfect, Safe, Soonest, Unsafe, Warning};
use crate::units::{greatest_error, nanoseconds, Drift, Window};
use plan::Plan;
use std::fmt;

/// A value of JSON.
#[derive(Clone, Debug, PartialEq)]
pub enum Json {
    Null,
    Bool(bool),
    Number(u128),
    Text(String),
    List(Vec<Json>),
    Object(Vec<(&'static str, Json)>),
}

impl fmt::Display for Json {
    fn fmt(&self, out: &mut fmt::Formatter) -> fmt::Result {
        match self {
            Json::Null => out.write_str("null"),
            Json::Bool(value) => write!(out, "{value}"),
            Json::Number(number) => write!(out, "{number}"),
            Json::Text(text) => write_text(out, text),
            Json::List(values) => {
                let write = |out: &mut fmt::Formatter, value: &Json| write!(out, "{value}");
                write_all(out, ['[', ']'], values, write)
            }
            Json::Object(fields) => write_all(out, ['{', '}'], fields, |out, (name, value)| {
                write_text(out, name)?;
                write!(out, ":{value}")
            }),
        }
    }
}

fn write_all<T>(
    out: &mut fmt::Formatter,
    [open, close]: [char; 2],
    items: &[T],
    write: impl Fn(&mut fmt::Formatter, &T) -> fmt::Result,
) -> fmt::Result {
    write!(out, "{open}")?;
    for (at, item) in items.iter().enumerate() {
        if at > 0 {
            out.write_str(",")?;
        }
        write(out, item)?;
    }
    write!(out, "{close}")
}

fn write_text(out: &mut fmt::Formatter, text: &str) -> fmt::Result {
    out.write_str("\"")?;
    for letter in text.chars() {
        match letter {
            '"' | '\\' => write!(out, "\\{letter}")?,
            '\n' => out.write_str("\\n")?,
            control if control < ' ' => write!(out, "\\u{:04x}", control as u32)?,
            letter => write!(out, "{letter}")?,
        }
    }
    out.write_str("\"")
}

impl Json {
    pub fn text(words: impl Into<String>) -> Json {
        Json::Text(words.into())
    }

    pub fn number(number: impl Into<u128>) -> Json {
        Json::Number(number.into())
    }

    pub fn count(number: usize) -> Json {
        Json::Number(number as u128)
    }

    /// A value, or null where there is none.
    pub fn or_null<T>(value: Option<T>, json: impl Fn(T) -> Json) -> Json {
        value.map_or(Json::Null, json)
    }
}

/// What is known of a judged plan; where its evidence was written, if it was.
pub fn facts_json(facts: &Facts, evidence: Option<&str>) -> Json {
    let plan = &facts.plan;
    let mut fields = vec![
        ("plan", Json::text(&facts.title)),
        ("verdict", Json::text(facts.verdict())),
        ("states", Json::count(facts.states)),
    ];
    match &facts.finding {
        Finding::Safe(safe) => fields.extend(safe_fields(plan, safe)),
        Finding::Unsafe(danger) => fields.extend(danger_fields(plan, danger)),
    }
    let warnings = facts.warnings.iter();
    let warnings = warnings.map(|warning| warning_json(plan, warning));
    fields.extend([
        ("drift", Json::or_null(Drift::of(plan), drift_json)),
        ("evidence", evidence_json(facts, evidence)),
        ("warnings", Json::List(warnings.collect())),
        ("mark", Json::number(plan.mark)),
        ("joint", Json::Bool(facts.is_joint)),
    ]);
    Json::Object(fields)
}

fn drift_json(drift: Drift) -> Json {
    Json::Object(vec![
        ("e", Json::Number(drift.e)),
        ("d", Json::Number(drift.d)),
    ])
}

fn evidence_json(facts: &Facts, file: Option<&str>) -> Json {
    Json::Object(vec![
        ("kind", Json::text(facts.kind())),
        ("bytes", Json::count(facts.evidence.len())),
        ("file", Json::or_null(file, Json::text)),
        ("passes_proved_check", Json::Bool(true)),
    ])
}

fn safe_fields(plan: &Plan, safe: &Safe) -> Vec<(&'static str, Json)> {
    let harmless = Drift::of(plan).map(|drift| drift.is_harmless(safe.margin));
    vec![
        ("marked", Json::count(safe.marked)),
        ("margin", Json::number(safe.margin)),
        ("harmless_at_drift", Json::or_null(harmless, Json::Bool)),
        (
            "greatest_error_ppb",
            Json::or_null(greatest_error(plan, safe.margin), Json::number),
        ),
    ]
}

fn danger_fields(plan: &Plan, danger: &Unsafe) -> Vec<(&'static str, Json)> {
    let name = &plan.locations[danger.location].name;
    let harm = vec![
        ("base", Json::number(danger.base)),
        ("rate", Json::number(danger.rate)),
    ];
    vec![
        ("steps", Json::count(danger.steps)),
        ("location", Json::text(name)),
        ("perfect_clocks", perfect_json(plan, &danger.perfect)),
        ("harm", Json::Object(harm)),
        (
            "window",
            Json::or_null(Window::of(plan, danger), window_json),
        ),
        (
            "example",
            Json::or_null(danger.example.as_ref(), example_json),
        ),
    ]
}

fn perfect_json(plan: &Plan, perfect: &Perfect) -> Json {
    let soonest = match perfect {
        Perfect::Clean => None,
        Perfect::FailsToo { soonest, .. } => Some(soonest),
    };
    Json::Object(vec![
        ("clean", Json::Bool(soonest.is_none())),
        ("proved", Json::Bool(true)),
        (
            "soonest",
            Json::or_null(soonest, |soonest| soonest_json(plan, soonest)),
        ),
    ])
}

fn soonest_json(plan: &Plan, soonest: &Soonest) -> Json {
    let name = &plan.locations[soonest.location].name;
    let [units, real] = time_fields(plan, Some(soonest.units));
    Json::Object(vec![("location", Json::text(name)), units, real])
}

/// A least time, if there is one, in units and in nanoseconds.
pub fn time_fields(plan: &Plan, units: Option<u64>) -> [(&'static str, Json); 2] {
    let real = units.and_then(|units| nanoseconds(plan, units.into()));
    [
        ("units", Json::or_null(units, Json::number)),
        ("ns", Json::or_null(real, Json::Number)),
    ]
}

fn window_json(window: Window) -> Json {
    Json::Object(vec![
        ("least_jumps", Json::or_null(window.least, Json::Number)),
        ("most_jumps", Json::Number(window.most)),
        ("least_ns", Json::or_null(window.least_time, Json::Number)),
        ("most_ns", Json::or_null(window.most_time, Json::Number)),
    ])
}

fn example_json(example: &Example) -> Json {
    Json::Object(vec![
        ("e", Json::number(example.e)),
        ("d", Json::number(example.d)),
        ("jumps", Json::count(example.jumps.len())),
        ("units", Json::Number(example.units())),
        ("proved", Json::Bool(false)),
    ])
}

fn warning_json(plan: &Plan, warning: &Warning) -> Json {
    Json::Object(vec![
        ("words", Json::text(warning.words(plan))),
        ("proved", Json::Bool(warning.is_proved())),
    ])
}

/// A plan without a verdict: its mistakes, or why it is refused.
pub fn failure_json(title: &str, message: &str) -> Json {
    Json::Object(vec![
        ("plan", Json::text(title)),
        ("verdict", Json::Null),
        ("message", Json::text(message)),
    ])
}

#[cfg(test)]
mod tests {
    use super::*;

    #[test]
    fn values_are_written() {
        let json = Json::Object(vec![
            ("a", Json::List(vec![Json::Null, Json::Bool(true)])),
            ("b", Json::text("q\"\\\n\u{1}\u{e9}")),
            ("c", Json::number(7u8)),
            ("d", Json::Object(Vec::new())),
        ]);
        assert_eq!(
            json.to_string(),
            "{\"a\":[null,true],\"b\":\"q\\\"\\\\\\n\\u0001\u{e9}\",\"c\":7,\"d\":{}}"
        );
    }
}
