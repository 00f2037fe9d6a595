//! From text to bytes and back, from bytes to text and back.

mod common;

use common::*;
use plan::bytes::{decode, encode};
use plan::print::write_text;
use plan::resolve::read_text;
use plan::units::Quantity;
use plan::Plan;
use second::generate::{generate, KINDS};
use second::random::Random;
use second::{read_model, read_plan};

/// Kinds of models that are accepted and not padded, of both marks; `blank` is
/// of mark 2 alone.
const ACCEPTED: [&str; 11] = [
    "safe", "drift", "plain", "tiny", "small", "middle", "largest", "clocks-1", "clocks-2",
    "clocks-3", "blank",
];

/// A plan with other names, chosen by a seed.
fn renamed(mut plan: Plan, seed: u64) -> Plan {
    let mut random = Random::new(seed);
    let mut name = |at: usize| {
        format!(
            "{}{}{at}",
            random.pick(&["ring", "zone-", "Süd_", "when", "x"]),
            random.below(90)
        )
    };
    plan.clocks = (0..plan.clocks.len()).map(&mut name).collect();
    for (at, location) in plan.locations.iter_mut().enumerate() {
        location.name = name(at);
    }
    for (at, edge) in plan.edges.iter_mut().enumerate() {
        edge.name = (at % 3 == 0).then(|| name(at));
    }
    for quantity in Quantity::ALL {
        if random.below(3) > 0 {
            plan.units
                .set(quantity, 1 + random.bits() % quantity.most());
        }
    }
    plan
}

#[test]
fn bytes_come_back() {
    for kind in ACCEPTED {
        let mut seen = [0; 2];
        for seed in 0..150 {
            let bytes = generate(seed, kind).unwrap();
            let text = write_text(&decode(&bytes).unwrap());
            assert_eq!(
                encode(&read_text(&text).unwrap()),
                bytes,
                "{kind} {seed}\n{text}"
            );
            seen[usize::from(bytes[0]) - 1] += 1;
        }
        let is_enough = |count: usize| count > 40 || kind == "blank";
        assert!(seen[1] > 40 && is_enough(seen[0]), "{kind} {seen:?}");
    }
}

/// The mark comes first where it is 2, and is not said where it is 1.
#[test]
fn the_mark_in_the_text() {
    for kind in ACCEPTED {
        for seed in 0..60 {
            let plan = decode(&generate(seed, kind).unwrap()).unwrap();
            let text = write_text(&plan);
            let begins = if plan.mark == 2 {
                "mark 2\nclocks "
            } else {
                "clocks "
            };
            assert!(text.starts_with(begins), "{text}");
            assert_eq!(text.matches("mark").count(), usize::from(plan.mark) - 1);
            // Said outright, mark 1 is the same; and a line may stand anywhere.
            let rest = text.trim_start_matches("mark 2\n");
            let said = format!("{rest}\nmark {} # here", plan.mark);
            assert_eq!(read_text(&said), Ok(plan));
        }
    }
}

#[test]
fn padded_bytes_come_back_short() {
    for seed in 0..150 {
        let bytes = generate(seed, "padded").unwrap();
        let short = encode(&decode(&bytes).unwrap());
        assert!(short.len() < bytes.len());
        assert_eq!(read_plan(&short), read_plan(&bytes));
    }
}

#[test]
fn text_comes_back() {
    for kind in ACCEPTED {
        for seed in 0..60 {
            let plan = renamed(decode(&generate(seed, kind).unwrap()).unwrap(), seed);
            assert_eq!(read_text(&write_text(&plan)), Ok(plan.clone()));
            assert_eq!(decode(&encode(&plan)), Ok(plan.with_plain_names()));
        }
    }
    for name in EXAMPLES {
        let plan = example(name);
        assert_eq!(read_text(&write_text(&plan)), Ok(plan.clone()), "{name}");
        assert_eq!(
            decode(&encode(&plan)),
            Ok(plan.with_plain_names()),
            "{name}"
        );
    }
}

/// A plan has the mark and the limits that the second checker reads.
fn assert_read(plan: &Plan, bytes: &[u8]) {
    let reading = read_plan(bytes).unwrap();
    assert_eq!(
        (u32::from(plan.mark), plan.model()),
        (reading.mark, reading.model.clone())
    );
    for (location, clock) in stay_fields(plan) {
        let limit = reading.model.locations[location].limit[clock];
        assert_eq!(plan.limit(location, clock), limit, "{bytes:?}");
    }
}

#[test]
fn models_are_those_of_the_second_checker() {
    for kind in KINDS {
        for seed in 0..120 {
            let bytes = generate(seed, kind).unwrap();
            match decode(&bytes) {
                Ok(plan) => assert_read(&plan, &bytes),
                Err(flaw) => assert_eq!(Err(flaw.refusal), read_model(&bytes), "{kind} {seed}"),
            }
        }
    }
}

/// Damaged texts: no text stops the reader, mistakes lie within the text, and
/// what is read without one is accepted.
#[test]
fn damaged_texts() {
    const SCRAPS: [&str; 17] = [
        "<=", "x", "9", "-", ",", "->", " ", "\n", "reset", "when", "stay", "start", "1.5", "#",
        "edge", "mark", "é",
    ];
    let mut mistaken = 0;
    for seed in 0..6_000 {
        let mut random = Random::new(seed);
        let mut letters: Vec<char> = text(EXAMPLES[seed as usize % EXAMPLES.len()])
            .chars()
            .collect();
        for _ in 0..random.range(1, 4) {
            let at = random.below(letters.len());
            let dropped = random.below(6).min(letters.len() - at);
            letters.splice(at..at + dropped, random.pick(&SCRAPS).chars());
        }
        let damaged: String = letters.into_iter().collect();
        match read_text(&damaged) {
            Ok(plan) => assert!(read_model(&encode(&plan)).is_ok(), "{damaged}"),
            Err(mistakes) => {
                mistaken += 1;
                assert!(!mistakes.is_empty());
                for mistake in mistakes {
                    let line = damaged
                        .lines()
                        .nth(mistake.line - 1)
                        .expect("a line of the text");
                    assert!(
                        (1..=line.chars().count() + 1).contains(&mistake.column),
                        "{damaged}\n{mistake:?}"
                    );
                }
            }
        }
    }
    assert!(mistaken > 1_000);
}
