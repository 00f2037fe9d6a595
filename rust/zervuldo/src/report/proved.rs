//! What of the page is proved, and what is not.

use super::html::{element, list, section, Html};
use crate::facts::{Facts, Finding, Perfect};

pub fn proved(facts: &Facts) -> Html {
    let proved = match &facts.finding {
        Finding::Safe(_) => &SAFE[..],
        Finding::Unsafe(danger) => match danger.perfect {
            Perfect::Clean => &BY_DRIFT[..],
            Perfect::FailsToo { .. } => &ANYWAY[..],
        },
    };
    let items = |words: &[&str]| list("ul", words.iter().map(|words| Html::from(*words)));
    section(
        "What is proved, and what is not",
        [
            element("h3", "Proved"),
            items(proved),
            element("h3", "Not proved"),
            items(&OPEN),
        ],
    )
}

const SAFE: [&str; 3] = [
    "The verdict: no run enters a forbidden location while drift stays below the margin.",
    "The margin.",
    "The check that this sheet passed, and that a sheet passes only if the plan is safe.",
];

const VERDICT: &str =
    "The verdict: with every drift above 0, however slight, some run enters a forbidden location.";
const WITHIN: &str = "The number of jumps within which that happens.";
const TRAIL: &str =
    "The check that this trail passed, and that a trail passes only if the plan is unsafe.";

const BY_DRIFT: [&str; 4] = [
    VERDICT,
    WITHIN,
    "That perfect clocks never enter a forbidden location, and with it the fewest jumps before \
     harm.",
    TRAIL,
];

const ANYWAY: [&str; 5] = [
    VERDICT,
    "That perfect clocks do too: a trail without drift passed the check, and where one does, some \
     run with perfect clocks enters a forbidden location.",
    WITHIN,
    "The units that perfect clocks take at the least: some run takes just so long, and none less.",
    TRAIL,
];

const OPEN: [&str; 5] = [
    "That the plan describes the ring as it is built.",
    "How the error of a crystal becomes a drift (argued in docs/DRIFT.md).",
    "Warnings, examples and times, where they say so.",
    "The program that made this page from the answers of the proved library: its words, its \
     picture and its time line.",
    "The compiler's last part, the operating system and the machine.",
];
