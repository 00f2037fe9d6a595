//! A plan's verdict as one page of HTML, for any browser and for paper: it has
//! no script and loads nothing.

mod check;
mod figures;
mod html;
mod meaning;
mod proved;
mod story;
mod timeline;

use crate::facts::{Facts, Finding, Safe};
use crate::units::grouped;
use html::{element, empty, lines, list, paragraph, section, Html};
use plan::draw::{draw, Heading};
use plan::print::write_text;
use plan::sheet::is_sheet;
use plan::tell::story::Story;
use plan::trail::{read_trail, start_of, Step};
use plan::Plan;

pub use meaning::verdict_line;

const STYLE: &str = include_str!("style.css");

/// The whole page.
pub fn page(facts: &Facts) -> String {
    let head = [
        empty("meta charset=\"utf-8\""),
        empty("meta name=\"viewport\" content=\"width=device-width, initial-scale=1\""),
        element("title", format!("{}: {}", facts.title, facts.verdict())),
        element("style", Html::as_is(STYLE)),
    ];
    let trail = trail(facts);
    let body = [
        meaning::header(facts),
        warnings(facts),
        figures::figures(facts),
        picture(facts, trail.as_deref()),
        match (&facts.finding, &trail) {
            (Finding::Safe(safe), _) => why(facts, safe),
            (Finding::Unsafe(_), steps) => how(&facts.plan, steps.as_deref().unwrap_or(&[])),
        },
        check::check(facts),
        proved::proved(facts),
    ];
    let maker = format!("Made by zervuldo {}.", env!("CARGO_PKG_VERSION"));
    let body = [element("main", body), element("footer", maker)];
    let body = element("body", body);
    element("html lang=\"en\"", [element("head", head), body]).into_page()
}

/// The steps of the trail that is told; a sheet has none.
fn trail(facts: &Facts) -> Option<Vec<Step>> {
    let evidence = facts.story();
    (!is_sheet(evidence)).then(|| read_trail(&facts.plan, evidence).steps)
}

/// The location in which the trail that is told ends.
fn end(facts: &Facts) -> usize {
    let steps = trail(facts).unwrap_or_default();
    let last = steps.last().map(|step| step.to);
    last.unwrap_or(start_of(&facts.plan)).location
}

fn warnings(facts: &Facts) -> Html {
    if facts.warnings.is_empty() {
        return Html::default();
    }
    let words = facts.warnings.iter();
    let words = words.map(|warning| Html::from(warning.words(&facts.plan)));
    let warnings = element("div class=\"warning\"", list("ul", words));
    section("Warnings", [warnings])
}

fn picture(facts: &Facts, trail: Option<&[Step]>) -> Html {
    let verdict = verdict_line(facts);
    let heading = Heading {
        title: &facts.title,
        verdict: Some(&verdict),
    };
    let drawing = Html::as_is(&draw(&facts.plan, &heading, trail));
    let text = "The same as text, which any editor opens and this program reads:";
    section(
        "The plan",
        [
            element("figure", drawing),
            element("p class=\"leads\"", text),
            lines(&write_text(&facts.plan)),
        ],
    )
}

/// What the sheet of a safe plan says.
fn why(facts: &Facts, safe: &Safe) -> Html {
    let (marked, states) = (grouped(safe.marked as u128), grouped(facts.states as u128));
    let sheet = format!(
        "A state is a location together with the whole units that the clocks have passed and the \
         order of their fractions; the plan has {states}. The sheet names {marked} of them: all \
         that the ring can get into while drift adds up for ever. None of these is forbidden. \
         Each step from one of them leads to one of them, and the heights beside the others show \
         that no loop lies so near that drift could slip into it."
    );
    section("Why it is safe", [paragraph(sheet)])
}

/// The trail told in words and drawn over time.
fn how(plan: &Plan, steps: &[Step]) -> Html {
    let story = Story::of(steps);
    section(
        "How it happens",
        [
            story::told(plan, &story),
            element("h3", "The clocks over time"),
            timeline::figure(plan, &story),
        ],
    )
}
