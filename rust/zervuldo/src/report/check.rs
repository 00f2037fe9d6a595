//! The bytes that were judged, and how anyone checks the evidence again.

use super::html::{code, element, lines, list, paragraph, section, Html};
use crate::facts::Facts;

/// Longer evidence would fill pages; it is written again instead.
const MOST_PRINTED: usize = 2_000;

pub fn check(facts: &Facts) -> Html {
    let (title, kind) = (&facts.title, facts.kind());
    let (plan, evidence) = (format!("{title}.plan"), format!("{title}.{kind}"));
    let is_printed = facts.story().len() <= MOST_PRINTED;
    let get_evidence = match is_printed {
        true => saved(&format!("the numbers of the {kind}"), &evidence),
        false => again(&plan, kind),
    };
    let run = format!("zervuldo check {plan} {evidence}");
    let steps = [
        saved("the numbers of the plan", &plan),
        get_evidence,
        Html::from([
            "Run ".into(),
            code(&run),
            format!(". It says that the {kind} passes.").into(),
        ]),
    ];
    let trust = format!(
        "The check is proved: it passes a {kind} only if the plan is {}. It makes no search, and \
         trusts neither this page nor whoever made the {kind}.",
        facts.verdict()
    );
    section(
        "Check it again",
        [
            paragraph(trust),
            list("ol", steps),
            bytes("plan", &facts.model),
            match is_printed {
                true => bytes(kind, facts.story()),
                false => Html::default(),
            },
        ],
    )
}

fn saved(what: &str, file: &str) -> Html {
    let words = format!("Save {what} below in a file ");
    Html::from([words.into(), code(file), ".".into()])
}

fn again(plan: &str, kind: &str) -> Html {
    let run = format!("zervuldo judge {plan} --evidence .");
    let words = format!(" writes the {kind}, which is too long for this page.");
    Html::from([code(&run), words.into()])
}

/// Bytes as a list of numbers, which the program reads too.
fn bytes(what: &str, bytes: &[u8]) -> Html {
    let heading = format!("The {what}, {} bytes", bytes.len());
    let numbers: Vec<String> = bytes.iter().map(u8::to_string).collect();
    Html::from([element("h3", heading), lines(&numbers.join(", "))])
}
