//! How slight a drift is harmless, and how soon another does harm: by hand on
//! small plans, and by both routes on generated ones.

mod common;

use common::*;
use second::brute::Brute;
use second::generate::{generate, KINDS};
use second::numbers::numbers_of;
use second::{harm, judge, read_model, sheet_margin, Harm, SheetMargin};

fn margin_of(model: &[u8]) -> Option<u32> {
    match sheet_margin(model, ENOUGH).expect("an accepted model") {
        SheetMargin::Safe { margin, .. } => Some(margin),
        SheetMargin::Unsafe { .. } => None,
    }
}

fn harm_of(model: &[u8]) -> Option<(u64, u64)> {
    match harm(model, ENOUGH).expect("an accepted model") {
        Harm::Safe { .. } => None,
        Harm::Within { bound, .. } => Some((bound.base, bound.rate)),
    }
}

/// One clock, ceiling 1, three locations: an edge at 1 that keeps the clock,
/// then one without guard that keeps it too.
const THREE: [u8; 22] = [
    1, 1, 1, 3, 2, 0, //
    0, 0, 0, 0, 0, 0, //
    0, 1, 0, 1, 1, //
    1, 2, 0, 0, 1,
];

/// Two clocks, ceiling 1, one location without edges.
const SQUARE: [u8; 9] = [1, 2, 1, 1, 0, 0, 0, 0, 0];

#[test]
fn margins_by_hand() {
    // All states are in: nothing is on the fringe.
    assert_eq!(margin_of(&ROW), Some(2));
    // The interval below the point 1 of the second location; time leaves it.
    assert_eq!(margin_of(&TWO), Some(2 + 1));
    // A jump leads from that interval to the one of the third location.
    assert_eq!(margin_of(&THREE), Some(4 + 1));
    // The diagonal is in. Time leads from an edge of the square through a
    // triangle to an edge, which is no jump.
    assert_eq!(margin_of(&SQUARE), Some(2 + 2));
    assert_eq!(margin_of(&LOOP), None);
}

#[test]
fn harm_by_hand() {
    let forbidden = |model: &[u8], kind: usize| {
        let mut model = model.to_vec();
        model[kind] = 1;
        harm_of(&model)
    };
    assert_eq!(harm_of(&ROW), None);
    assert_eq!(forbidden(&ROW, 6), Some((0, 0)));
    assert_eq!(forbidden(&TWO, 8), Some((1, 0)));
    assert_eq!(forbidden(&THREE, 10), Some((2, 0)));
    // Our trail has three jumps and touches a triangle, then an edge, with two
    // jumps in each walk.
    let triangle = (2 * 2 * 2, 3 * 3 * 2);
    let edge = (2 * 2, 2 * 2 * 2);
    assert_eq!(
        harm_of(&LOOP),
        Some((3 + triangle.0 + edge.0, triangle.1 + edge.1))
    );
}

/// The greatest height on our sheet.
fn greatest_height(model: &[u8]) -> u32 {
    let sheet = numbers_of(&evidence(model)).expect("evidence spells numbers");
    let heights = sheet[1..].iter().map(|number| number / 2);
    heights.max().expect("a state")
}

/// Holds both answers against the brute-force route.
fn compare(model: &[u8]) {
    let brute = Brute::new(model).expect("an accepted model");
    if brute.is_unsafe() {
        assert_eq!(margin_of(model), None, "{model:?}");
        assert_eq!(harm_of(model), Some(brute.harm()), "{model:?}");
    } else {
        let margin = margin_of(model);
        assert_eq!(margin, Some(brute.sheet_margin()), "{model:?}");
        assert_eq!(harm_of(model), None, "{model:?}");
        let by_heights = 2 * (greatest_height(model) + 1) + brute.plan.clocks as u32;
        assert!(margin <= Some(by_heights), "{model:?}");
    }
}

/// The models of a kind with at most so many states.
fn models(kind: &str, seeds: u64, most: usize) -> Vec<Vec<u8>> {
    let few = |model: &Vec<u8>| judge(model, ENOUGH).is_ok_and(|found| found.states <= most);
    let all = (0..seeds).map(|seed| generate(seed, kind).expect("a known kind"));
    all.filter(few).collect()
}

#[test]
fn both_routes_on_small_models() {
    for (kind, seeds) in [
        ("tiny", 2_500),
        ("small", 2_500),
        ("blank", 1_000),
        ("dead-links", 1_500),
        ("joint", 500),
        ("disjoint", 500),
        ("noise", 1_500),
    ] {
        models(kind, seeds, 160)
            .iter()
            .for_each(|model| compare(model));
    }
}

#[test]
fn both_routes_on_some_middle_models() {
    let models = models("middle", 150, 700);
    assert!(models.len() >= 30);
    models.iter().for_each(|model| compare(model));
}

/// No fringe, fringes without jumps and with several come up, and margins
/// below the one by heights.
#[test]
fn margins_differ() {
    let mut by_visits = [0; 4];
    let mut below = 0;
    for model in models("small", 2_500, 160) {
        let Some(margin) = margin_of(&model) else {
            continue;
        };
        let clocks = read_model(&model).unwrap().clocks as u32;
        let visits = (margin - clocks) / 2;
        by_visits[visits.min(3) as usize] += 1;
        below += usize::from(visits < greatest_height(&model) + 1);
    }
    println!("fringes of 0, 1, 2 and more visits: {by_visits:?}; below: {below}");
    assert!(by_visits.iter().all(|&count| count >= 5) && below >= 100);
}

/// Refusals, verdict and number of states are those of the judge.
#[test]
fn as_the_judge() {
    for kind in KINDS {
        for seed in 0..30 {
            let model = generate(seed, kind).expect("a known kind");
            for scratch in [ENOUGH, [4_000; 4], [4_000, 4_000, 50, 4_000]] {
                let judged = judge(&model, scratch).map(|found| (found.is_unsafe, found.states));
                let margin = sheet_margin(&model, scratch).map(|found| match found {
                    SheetMargin::Safe { states, .. } => (false, states),
                    SheetMargin::Unsafe { states } => (true, states),
                });
                let harm = harm(&model, scratch).map(|found| match found {
                    Harm::Safe { states } => (false, states),
                    Harm::Within { states, .. } => (true, states),
                });
                assert_eq!((margin, harm), (judged, judged), "{kind} {seed}");
            }
        }
    }
}
