//! 10,000 damaged plans and pieces of evidence: none stops the command.

mod common;

use common::{outcome, plan};
use second::random::Random;
use std::path::Path;
use zervuldo::outcome::Status;

const ROUNDS: u64 = 10_000;

/// What is damaged: texts, lists of numbers, model bytes and evidence.
struct Whole {
    plans: Vec<Vec<u8>>,
    evidence: Vec<(String, Vec<u8>)>,
}

fn whole() -> Whole {
    let names = ["tiny", "loop", "poll", "poll-blank", "poll-mended"];
    let texts = names.map(|name| std::fs::read(plan(&format!("{name}.txt"))).unwrap());
    let models = names.map(|name| outcome(&["encode", &plan(&format!("{name}.txt"))]).output);
    let listed = ["tiny", "loop"].map(|name| std::fs::read(plan(&format!("{name}.plan"))).unwrap());
    let ours = |name: &str| {
        let folder = common::folder(&format!("ours-{name}"));
        let file = plan(&format!("{name}.txt"));
        outcome(&["judge", &file, "--evidence", folder.to_str().unwrap()]);
        let written = std::fs::read_dir(folder).unwrap().next().unwrap().unwrap();
        (file, std::fs::read(written.path()).unwrap())
    };
    Whole {
        plans: texts.into_iter().chain(models).chain(listed).collect(),
        evidence: names.map(ours).into(),
    }
}

/// Bytes with some dropped, changed or put in; now and then cut short.
fn damaged(random: &mut Random, mut bytes: Vec<u8>) -> Vec<u8> {
    const SCRAPS: [&[u8]; 13] = [
        b"mark 2",
        b"<=",
        b"\n",
        b"unit 9",
        b"bit rate",
        b"#",
        b"\xff",
        b"\xc3",
        b"\0",
        b"\x80\x80\x80",
        b"1,2",
        b"edge a -> a",
        b"clocks",
    ];
    for _ in 0..random.range(1, 4) {
        let at = random.below(bytes.len() + 1);
        let dropped = random.below(4).min(bytes.len() - at);
        let changed = [random.bits() as u8];
        let put = if random.one_in(2) {
            &changed[..]
        } else {
            *random.pick(&SCRAPS)
        };
        bytes.splice(at..at + dropped, put.iter().copied());
    }
    if random.one_in(8) {
        bytes.truncate(random.below(bytes.len() + 1));
    }
    bytes
}

/// Commands on a plan, the slow ones seldom.
fn command_on_plan(random: &mut Random) -> &'static [&'static str] {
    match random.below(500) {
        0 => &["report"],
        1 => &["draw"],
        2 => &["draw", "--plain"],
        3..=49 => &["words"],
        50..=199 => &["judge"],
        200..=249 => &["soonest"],
        250..=299 => &["encode"],
        300..=349 => &["decode"],
        350..=399 => &["shorten"],
        400..=449 => &["shorten", "--check"],
        _ => &["explain", "4"],
    }
}

/// What is tried on a damaged file: evidence beside its plan, a plan beside a
/// whole one, or a plan alone.
fn trial<'a>(random: &mut Random, whole: &'a Whole, name: &'a str) -> (Vec<u8>, Vec<&'a str>) {
    let (file, evidence) = random.pick(&whole.evidence);
    let plan = random.pick(&whole.plans);
    match random.below(12) {
        0..=3 => {
            let command = *random.pick(&["check", "words"]);
            (evidence.clone(), vec![command, file, name])
        }
        4 => (plan.clone(), vec!["compare", file, name]),
        5 => (plan.clone(), vec!["compare", name, file]),
        _ => {
            let arguments = [command_on_plan(random), &[name]].concat();
            (plan.clone(), arguments)
        }
    }
}

/// A command over a damaged file: it ends with an answer or a message.
fn tried(random: &mut Random, whole: &Whole, file: &Path) -> Status {
    let (content, arguments) = trial(random, whole, file.to_str().unwrap());
    std::fs::write(file, damaged(random, content)).unwrap();
    let found = outcome(&arguments);
    let says_something = !found.output.is_empty() || !found.messages.is_empty();
    let is_sound = says_something && found.status != Status::Failed;
    assert!(is_sound, "{arguments:?} {}", found.messages);
    found.status
}

#[test]
fn nothing_stops_the_command() {
    let whole = whole();
    let file = common::folder("damaged").join("file");
    let mut random = Random::new(18);
    let mut seen = [0; 3];
    for _ in 0..ROUNDS {
        let status = tried(&mut random, &whole, &file);
        seen[status as usize] += 1;
    }
    // Some are still good, many fail or are refused: the damage is neither
    // too slight nor too coarse to tell something.
    assert!(seen.iter().all(|&count| count > ROUNDS / 50), "{seen:?}");
}
