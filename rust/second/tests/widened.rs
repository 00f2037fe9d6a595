//! Runs against regions: what lists of jumps and zones say of runs agrees with
//! what the region graph says.

mod common;

use common::{ENOUGH, LOOP};
use second::generate::{classify, generate, Class};
use second::model::Model;
use second::widened::{fewest_jumps, is_covered, run_to_forbidden, Fewest, Runs};
use second::{harm, read_model, sheet_margin, Harm, SheetMargin};

const JUMPS: usize = 6;

/// More zones than any search here comes to.
const ZONES: usize = 20_000;

/// Small models with not too many lists of jumps.
fn models() -> impl Iterator<Item = Model> {
    (0..600)
        .flat_map(|seed| {
            [
                "tiny",
                "small",
                "blank",
                "clocks-2",
                "clocks-3",
                "dead-links",
                "joint",
            ]
            .map(|kind| generate(seed, kind).unwrap())
        })
        .filter_map(|bytes| read_model(&bytes).ok())
        .filter(|model| model.edges.len() <= 10)
}

/// Perfect clocks enter a forbidden location exactly in the models that the
/// region graph says so of; hardly ever with more jumps than are tried.
#[test]
fn perfect_clocks() {
    let (mut plain, mut found) = (0, 0);
    for model in models() {
        let run = run_to_forbidden(&model, JUMPS, 0, 1);
        let is_plain = classify(&model) == Class::Plain;
        assert!(is_plain || run.is_none(), "{model:?}");
        if is_plain && run.is_none() {
            let fewest = fewest_jumps(&model, 0, 1, ZONES);
            assert!(matches!(fewest, Fewest::Jumps(jumps) if jumps > JUMPS));
        }
        plain += usize::from(is_plain);
        found += usize::from(run.is_some());
    }
    println!("a run was found for {found} of {plain} models");
    assert!(found >= 500 && 100 * found >= 99 * plain);
}

/// A widening that is covered changes nothing: models that are safe, or
/// unsafe only by drift, have no such run of so few jumps.
#[test]
fn covered_runs() {
    let d = JUMPS as i64 + 2;
    assert!(is_covered(JUMPS as u64, 1, d as u64));
    for model in models().filter(|model| classify(model) != Class::Plain) {
        assert_eq!(run_to_forbidden(&model, JUMPS, 1, d), None, "{model:?}");
    }
}

/// Where only drift leads to a forbidden location, clocks that drift much
/// mostly get there in a few jumps.
#[test]
fn much_drift() {
    let (mut drift, mut found) = (0, 0);
    for model in models().filter(|model| classify(model) == Class::Drift) {
        drift += 1;
        found += usize::from(run_to_forbidden(&model, 8, 1, 3).is_some());
    }
    println!("a run was found for {found} of {drift} models");
    assert!(drift >= 100 && 2 * found >= drift);
}

/// One clock, ceiling 1: a stay limit of 0, and an edge at 1 to a forbidden
/// location. The margin is 2.
const SHUT: [u8; 15] = [1, 1, 1, 2, 1, 0, 0, 1, 1, 0, 0, 1, 1, 1, 1];

#[test]
fn zones_by_hand() {
    let zones = |model: &[u8], e, d| fewest_jumps(&read_model(model).unwrap(), e, d, ZONES);
    // The limit and the low meet at a half.
    assert_eq!(zones(&SHUT, 1, 2), Fewest::Jumps(1));
    assert_eq!(zones(&SHUT, 10, 21), Fewest::Never);
    assert_eq!(zones(&LOOP, 0, 1), Fewest::Never);
    assert_eq!(zones(&LOOP, 10, 100), Fewest::Jumps(9));
    let mut forbidden = SHUT;
    forbidden[6] = 1;
    assert_eq!(zones(&forbidden, 0, 1), Fewest::Jumps(0));
}

#[test]
fn used_up_zones_are_told() {
    let model = read_model(&LOOP).unwrap();
    let Fewest::MoreThan(jumps) = fewest_jumps(&model, 1, 100, 10) else {
        panic!("ten zones are too few");
    };
    assert!(0 < jumps && jumps < 99);
}

/// Zones find the fewest jumps of all lists.
#[test]
fn zones_and_lists() {
    let mut found = 0;
    for model in models() {
        for (e, d) in [(0, 1), (1, 1), (2, 5), (1, 3), (1, 5)] {
            let fewest = fewest_jumps(&model, e, d, ZONES);
            for jumps in 0..=JUMPS {
                let run = run_to_forbidden(&model, jumps, e, d);
                let reached = matches!(fewest, Fewest::Jumps(fewest) if fewest <= jumps);
                assert_eq!(run.is_some(), reached, "{jumps} {e}/{d} {model:?}");
                found += usize::from(reached);
            }
        }
    }
    assert!(found >= 10_000);
}

/// Bytes of models of some kinds.
fn bytes<'a>(kinds: &'a [&str], seeds: u64) -> impl Iterator<Item = Vec<u8>> + 'a {
    let of_kind = move |kind: &'a &str| (0..seeds).filter_map(|seed| generate(seed, kind));
    kinds.iter().flat_map(of_kind)
}

/// A drift below the margin of the sheet never does harm; some greater ones do.
#[test]
fn harmless_drift() {
    let (mut safe, mut harmed) = (0, 0);
    let kinds = [
        "tiny",
        "small",
        "blank",
        "middle",
        "clocks-3",
        "dead-links",
        "joint",
    ];
    for bytes in bytes(&kinds, 400) {
        let Ok(SheetMargin::Safe { margin, .. }) = sheet_margin(&bytes, ENOUGH) else {
            continue;
        };
        let model = read_model(&bytes).unwrap();
        let zones = |e, d| fewest_jumps(&model, e, d, ZONES);
        let margin = i64::from(margin);
        assert_eq!(zones(1, margin + 1), Fewest::Never, "{bytes:?}");
        assert_eq!(zones(10, 10 * margin + 1), Fewest::Never, "{bytes:?}");
        safe += 1;
        harmed += usize::from(zones(1, 1) != Fewest::Never);
    }
    println!("of {safe} safe models a drift of 1 harms {harmed}");
    assert!(safe >= 400 && harmed >= 20);
}

/// Every drift does harm to an unsafe model, within the jumps that its trail
/// promises and, where perfect clocks do none, not within those that are covered.
#[test]
fn harm_in_time() {
    let mut drifted = 0;
    let kinds = [
        "tiny",
        "small",
        "blank",
        "drift",
        "clocks-3",
        "dead-links",
        "joint",
    ];
    for bytes in bytes(&kinds, 400) {
        let Ok(Harm::Within { bound, .. }) = harm(&bytes, ENOUGH) else {
            continue;
        };
        let model = read_model(&bytes).unwrap();
        let clean = fewest_jumps(&model, 0, 1, ZONES) == Fewest::Never;
        assert_eq!(clean, classify(&model) == Class::Drift, "{bytes:?}");
        for q in [1, 3, 10] {
            let Fewest::Jumps(jumps) = fewest_jumps(&model, 1, q as i64, ZONES) else {
                panic!("no harm at 1/{q}: {bytes:?}");
            };
            let jumps = jumps as u64;
            assert!(jumps <= bound.base + bound.rate * q, "{q} {bytes:?}");
            assert!(!clean || !is_covered(jumps, 1, q), "{q} {bytes:?}");
        }
        drifted += usize::from(clean);
    }
    assert!(drifted >= 400);
}

/// Lists of jumps that a run can make have moments, which keep every limit, and
/// no others have.
#[test]
fn moments_of_runs() {
    let (e, d) = (1, 3);
    let (mut found, mut none) = (0, 0);
    for model in models() {
        let runs = Runs::new(&model, e, d);
        let Some(run) = run_to_forbidden(&model, JUMPS, e, d) else {
            none += 1;
            continue;
        };
        found += 1;
        let moments = runs.moments(&run).expect("the moments of a run");
        keep_limits(&model, &run, &moments, (e, d));
        assert!(runs.has_run(run.iter().copied()));
        // With perfect clocks both or neither find it.
        let perfect = Runs::new(&model, 0, d);
        let has_run = perfect.has_run(run.iter().copied());
        assert_eq!(perfect.moments(&run).is_some(), has_run);
        assert!(has_run || run_to_forbidden(&model, JUMPS, 0, d) != Some(run));
    }
    assert!(found > 100 && none > 100, "{found} {none}");
}

/// A widened run by 01's words.
fn keep_limits(model: &Model, run: &[usize], moments: &[i64], (e, d): (i64, i64)) {
    let mut reset = vec![0; model.clocks];
    let (mut location, mut before) = (model.start, 0);
    for (&edge, &now) in run.iter().zip(moments) {
        let edge = &model.edges[edge];
        assert!(edge.from == location && now >= before);
        let within = |at: usize, clock: usize, reset: i64| {
            now - reset <= i64::from(model.locations[at].limit[clock]) * d + e
        };
        for (clock, reset) in reset.iter_mut().enumerate() {
            assert!(within(edge.from, clock, *reset));
            assert!(now - *reset <= i64::from(edge.high[clock]) * d + e);
            assert!(now - *reset >= i64::from(edge.low[clock]) * d - e);
            if edge.resets >> clock & 1 == 1 {
                *reset = now;
            }
            assert!(within(edge.to, clock, *reset));
        }
        (location, before) = (edge.to, now);
    }
    assert!(model.locations[location].forbidden);
}
