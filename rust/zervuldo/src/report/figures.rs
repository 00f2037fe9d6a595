//! Figures: margin, crystals, jumps and times, each with how it is known.

use super::html::{code, element, paragraph, section, Html};
use super::trail;
use crate::facts::{Facts, Finding, Perfect, Safe, Unsafe};
use crate::told::{
    example_words, harm_words, joint_words, mark_words, perfect_words, safe_words, trail_words,
};
use crate::units::{drift_words, grouped, margin_words, Window};
use plan::units::Quantity;
use plan::Plan;

const PROVED: &str = "proved";
const SEARCHED: &str = "by a search, not proved";
const ARGUED: &str = "argued in docs/DRIFT.md, not proved";
const COUNTED: &str = "counted from the plan's own times, not proved";
const BY_TRAIL: &str = "proved, by a trail without drift that passed the check";
const GIVEN: &str = "given with the plan";

/// A label, what is said under it, and how it is known.
type Row = (&'static str, String, &'static str);

pub fn figures(facts: &Facts) -> Html {
    let plan = &facts.plan;
    let mut rows = match &facts.finding {
        Finding::Safe(safe) => safe_rows(facts, safe),
        Finding::Unsafe(danger) => danger_rows(facts, danger),
    };
    rows.extend(joint_words(facts).map(|words| ("Judge", words.to_string(), PROVED)));
    rows.extend(mark_words(plan).map(|words| ("Mark", words.to_string(), GIVEN)));
    let unit = plan.units.unit.map(|unit| Quantity::Unit.written(unit));
    rows.extend(unit.map(|unit| ("One unit", unit, GIVEN)));
    section("Figures", [table(&rows), missing(plan)])
}

fn safe_rows(facts: &Facts, safe: &Safe) -> Vec<Row> {
    let plan = &facts.plan;
    let marked = grouped(safe.marked as u128);
    let states = format!("{}, {marked} of them reached by drift", states(facts));
    let margin = format!("{}: {}", grouped(safe.margin.into()), safe_words(safe));
    let mut rows = vec![("Margin", margin, PROVED), ("States", states, PROVED)];
    rows.extend(drift_words(plan).map(|words| ("Drift", words, ARGUED)));
    rows.push(("Crystals", margin_words(plan, safe), ARGUED));
    rows
}

fn danger_rows(facts: &Facts, danger: &Unsafe) -> Vec<Row> {
    let plan = &facts.plan;
    let mut shortest = trail_words(facts, danger);
    let harm = match danger.perfect {
        Perfect::FailsToo { .. } => BY_TRAIL,
        Perfect::Clean => PROVED,
    };
    let told = trail(facts).map_or(0, |steps| steps.len());
    if told != danger.steps {
        shortest += &format!("; the one told here has {told} and needs no drift");
    }
    let mut rows = vec![
        ("Shortest trail", shortest, PROVED),
        ("States", states(facts), PROVED),
        (
            "Perfect clocks",
            perfect_words(plan, &danger.perfect),
            PROVED,
        ),
        ("Harm", harm_words(plan, danger), harm),
    ];
    rows.extend(drift_words(plan).map(|words| ("Drift", words, ARGUED)));
    if let Some(window) = Window::of(plan, danger) {
        rows.push(("Jumps", window.jump_words(), harm));
        let time = window.time_words();
        rows.extend(time.map(|words| ("Time", words, COUNTED)));
    }
    let example = danger.example.as_ref();
    rows.extend(example.map(|example| ("Example", example_words(plan, example), SEARCHED)));
    rows
}

fn states(facts: &Facts) -> String {
    grouped(facts.states as u128)
}

fn table(rows: &[Row]) -> Html {
    let heads = ["What", "Figure", "How it is known"];
    let heads = heads.map(|head| element("th scope=\"col\"", head));
    let rows = rows.iter().map(|(label, words, known)| {
        let label = element("th scope=\"row\"", *label);
        let cells = [words.as_str(), known].map(|cell| element("td", cell));
        element("tr", [label, cells.into()])
    });
    let head = element("thead", element("tr", heads));
    element("table", [head, element("tbody", rows.collect::<Html>())])
}

/// What the plan could say, and what this page would then tell.
fn missing(plan: &Plan) -> Html {
    let missing = [Quantity::Unit, Quantity::Crystal];
    let missing = missing
        .into_iter()
        .filter(|&quantity| plan.units.get(quantity).is_none());
    let examples: Vec<Html> = missing.map(|quantity| code(quantity.example())).collect();
    if examples.is_empty() {
        return Html::default();
    }
    let mut sentence = vec![Html::from(
        "The plan leaves open what real parts it is for. With",
    )];
    for (at, example) in examples.into_iter().enumerate() {
        sentence.extend([if at == 0 { " " } else { " and " }.into(), example]);
    }
    sentence
        .push(" among its lines, this page has the drift of the crystals and real times.".into());
    paragraph(sentence.into_iter().collect::<Html>())
}
