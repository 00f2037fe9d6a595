//! The plain route and the brute-force route give the same answers.

mod common;

use common::*;
use second::blanks::with_mark;
use second::brute::read::read_with_mark;
use second::brute::regions::NaiveRegions;
use second::brute::trails::{least_of_all, least_trail, least_walk};
use second::brute::Brute;
use second::generate::{generate, KINDS, SMALL};
use second::graph::Graph;
use second::limits::NUMBER_BYTES;
use second::mutate::{mutate, mutate_as, roles, Role};
use second::numbers::{numbers_of, push_padded};
use second::padding::{count, first_padded, pad_at};
use second::random::Random;
use second::regions::Regions;
use second::{judge, marks, read_model, read_plan, rounds};
use std::collections::BTreeMap;

/// Holds everything about a model against the brute-force route; true if the
/// model is accepted.
fn compare(model: &[u8], seed: u64, changes: u64) -> bool {
    let brute = match Brute::new(model) {
        Ok(brute) => brute,
        Err(refusal) => {
            assert_eq!(read_model(model), Err(refusal), "{model:?}");
            assert_eq!(judge(model, ENOUGH), Err(refusal));
            assert_eq!(check(model, &[]), Err(refusal));
            assert_eq!(rounds(model), Err(refusal));
            return false;
        }
    };
    let states = brute.states.list.len();
    let marked = brute.states.marked();
    let judgement = judge(model, [states; 4]).expect("accepted by both");
    assert_eq!(judge(model, [states - 1; 4]), Err(8));
    assert_eq!(judgement.states, states);
    assert_eq!(judgement.is_unsafe, brute.is_unsafe(), "{model:?}");
    let mut out = vec![9; states];
    assert_eq!(marks(model, ENOUGH, &mut out), Ok(states));
    assert_eq!(
        out,
        marked
            .iter()
            .map(|&mark| u8::from(mark))
            .collect::<Vec<u8>>(),
        "{model:?}"
    );

    let counted = rounds(model).expect("accepted by both");
    let counted = (counted.rounds, counted.marked);
    assert_eq!(counted, brute.rounds(), "{model:?}");

    let ours = evidence(model);
    assert_eq!(ours, brute.evidence(), "{model:?}");
    let count = if judgement.is_unsafe {
        least_trail(&brute.states).len()
    } else {
        out.iter().map(|&b| b as usize).sum()
    };
    assert_eq!(judgement.count, count);

    let passes = if judgement.is_unsafe { 2 } else { 1 };
    assert_eq!(check(model, &ours), Ok(passes), "{model:?}");
    assert_eq!(brute.check(&ours), Ok(passes), "{model:?}");
    for change in 0..changes {
        let (kind, mut other) = mutate(seed * 1_000 + change, model, &ours);
        assert_eq!(
            check(model, &other),
            brute.check(&other),
            "{kind} {model:?} {other:?}"
        );
        // A second change on top of the first.
        if change % 2 == 0 {
            other = mutate(seed * 1_000 + change + 500, model, &other).1;
            assert_eq!(
                check(model, &other),
                brute.check(&other),
                "{model:?} {other:?}"
            );
        }
    }
    true
}

/// Generates models of a kind and compares all of them.
fn compare_kind(kind: &str, seeds: std::ops::Range<u64>, changes: u64) -> usize {
    seeds
        .filter(|&seed| compare(&generate(seed, kind).unwrap(), seed, changes))
        .count()
}

#[test]
fn tiny_models() {
    assert_eq!(compare_kind("tiny", 0..2_500, 16), 2_500);
}

#[test]
fn small_models() {
    assert_eq!(compare_kind("small", 0..2_500, 12), 2_500);
}

/// Mark 2, with limits below those of mark 1.
#[test]
fn blank_models() {
    assert_eq!(compare_kind("blank", 0..3_000, 12), 3_000);
}

/// Closed walks that do not count, and such that do. Larger models are left to
/// the plain route alone.
#[test]
fn models_with_dead_links() {
    let (mut accepted, mut refused) = (0, 0);
    for seed in 0..3_000 {
        let model = generate(seed, "dead-links").unwrap();
        match judge(&model, [SMALL; 4]) {
            Err(8) => continue,
            Ok(_) => accepted += 1,
            Err(_) => refused += 1,
        }
        compare(&model, seed, 12);
    }
    println!("accepted {accepted}, refused {refused}");
    assert!(accepted >= 1_800 && refused >= 400);
}

/// Closed walks that begin all clocks anew, and such that do not quite; all calls but
/// those that ask for it.
#[test]
fn models_with_joint_resets() {
    for kind in ["joint", "disjoint"] {
        let few = |model: &Vec<u8>| judge(model, [SMALL; 4]).is_ok();
        let models = (0..500).map(|seed| generate(seed, kind).unwrap());
        let models: Vec<Vec<u8>> = models.filter(few).collect();
        assert!(models.len() >= 350, "{kind}");
        for (seed, model) in models.iter().enumerate() {
            compare(model, seed as u64, 8);
        }
    }
}

/// The same plans with the other mark: its states, sets and evidence too.
#[test]
fn models_with_the_other_mark() {
    for kind in ["tiny", "small", "blank"] {
        for seed in 0..600 {
            let model = generate(seed, kind).unwrap();
            let mark = read_plan(&model).unwrap().mark;
            let other = with_mark(&model, 3 - mark).unwrap();
            assert!(compare(&other, seed, 4));
        }
    }
}

/// Mark, limits and all else that is read, or the refusal, of every kind; as it
/// is, and with other marks.
#[test]
fn readings() {
    let mut limits = BTreeMap::new();
    for kind in KINDS {
        for seed in 0..200 {
            let model = generate(seed, kind).unwrap();
            let others = (0..=3).filter_map(|mark| with_mark(&model, mark).ok());
            for bytes in others.chain([model.clone()]) {
                same_reading(&bytes, &mut limits);
            }
        }
    }
    // With mark 2 blanks below the ceiling, at it, and other limits.
    println!("limits by mark, blank, at the ceiling: {limits:?}");
    assert_eq!(limits.len(), 2 + 4);
    assert!(limits.values().all(|&times| times >= 500), "{limits:?}");
}

/// Counts the limits by mark, whether they are the default, and whether they
/// are the ceiling.
fn same_reading(bytes: &[u8], limits: &mut BTreeMap<(u32, bool, bool), usize>) {
    let (mark, plan) = match (read_with_mark(bytes), read_plan(bytes)) {
        (Ok(read), Ok(reading)) => {
            assert_eq!(read.0, reading.mark, "{bytes:?}");
            read
        }
        (naive, plain) => return assert_eq!(naive.err(), plain.err(), "{bytes:?}"),
    };
    let model = read_model(bytes).unwrap();
    assert_eq!((plan.clocks, plan.start), (model.clocks, model.start));
    assert_eq!(plan.limits.len(), model.locations.len());
    for (at, location) in model.locations.iter().enumerate() {
        assert_eq!(plan.forbidden[at], location.forbidden);
        for (clock, &limit) in plan.limits[at].iter().enumerate() {
            assert_eq!(limit, location.limit[clock].into(), "{bytes:?}");
            let is_default = limit == plan.default_limit(mark, at, clock);
            let what = (mark, is_default, limit == plan.ceiling);
            *limits.entry(what).or_default() += 1;
        }
    }
}

#[test]
fn some_middle_models() {
    let mut compared = 0;
    for seed in 0..150 {
        let model = generate(seed, "middle").unwrap();
        if judge(&model, ENOUGH).unwrap().states <= 700 {
            compare(&model, seed, 12);
            compared += 1;
        }
    }
    assert!(compared >= 30);
}

#[test]
fn the_loop_plan() {
    assert!(compare(&LOOP, 0, 400));
}

#[test]
fn damaged_models() {
    for kind in [
        "refused-1",
        "refused-2",
        "refused-3",
        "refused-4",
        "refused-5",
        "refused-6",
        "refused-7",
    ] {
        assert_eq!(compare_kind(kind, 0..300, 0), 0);
    }
}

#[test]
fn padded_tiny_models() {
    for seed in 0..200 {
        let mut random = Random::new(seed);
        let mut padded = Vec::new();
        // Every number of a small model is one byte.
        for byte in generate(seed, "tiny").unwrap() {
            push_padded(&mut padded, byte.into(), random.range(1, NUMBER_BYTES));
        }
        assert!(compare(&padded, seed, 4));
    }
}

/// What both routes answer.
fn agreed(brute: &Brute, model: &[u8], evidence: &[u8]) -> Result<u32, u8> {
    let answer = check(model, evidence);
    assert_eq!(answer, brute.check(evidence), "{model:?} {evidence:?}");
    answer
}

/// Each number of our evidence, padded alone by one empty group or two.
#[test]
fn evidence_padded_at_each_place() {
    let mut padded = 0;
    for seed in 0..300 {
        let model = generate(seed, "tiny").unwrap();
        let brute = Brute::new(&model).unwrap();
        let ours = evidence(&model);
        for place in 0..count(&ours) {
            for other in (1..NUMBER_BYTES).filter_map(|groups| pad_at(&ours, place, groups)) {
                assert_eq!(agreed(&brute, &model, &other), Err(15));
                padded += 1;
            }
        }
    }
    assert!(padded >= 5_000);
}

/// A single padded number comes up often in each role, and its place is the
/// only thing that decides.
#[test]
fn evidence_padded_in_each_role() {
    let mut seen: BTreeMap<Role, usize> = BTreeMap::new();
    for seed in 0..600 {
        let model = generate(seed, ["tiny", "small"][seed as usize % 2]).unwrap();
        let brute = Brute::new(&model).unwrap();
        let graph = Graph::new(read_model(&model).unwrap());
        let ours = evidence(&model);
        let roles = roles(&graph, &numbers_of(&ours).unwrap()).unwrap();
        for again in 0..6 {
            let one = mutate_as(6 * seed + again, "pad", &model, &ours).unwrap();
            assert_eq!(agreed(&brute, &model, &one), Err(15));
            *seen.entry(roles[first_padded(&one).unwrap()]).or_default() += 1;
            let many = mutate_as(6 * seed + again, "pad-many", &model, &ours).unwrap();
            assert_eq!(agreed(&brute, &model, &many), Err(15));
        }
    }
    println!("padded {seen:?}");
    assert_eq!(seen.len(), 9);
    assert!(seen.values().all(|&times| times >= 100), "{seen:?}");
}

/// A padded number with other damage before, at or after it: every refusal of
/// a number comes up. None of the rest can, since a padded number is read
/// before 12 and 14 are looked at.
#[test]
fn padding_among_other_damage() {
    let mut seen: BTreeMap<u8, usize> = BTreeMap::new();
    for seed in 0..1_500 {
        let model = generate(seed, ["tiny", "small"][seed as usize % 2]).unwrap();
        let brute = Brute::new(&model).unwrap();
        let ours = evidence(&model);
        for again in 0..8 {
            if let Some(both) = mutate_as(8 * seed + again, "pad-order", &model, &ours) {
                let refusal = agreed(&brute, &model, &both).unwrap_err();
                *seen.entry(refusal).or_default() += 1;
            }
        }
    }
    println!("refusals {seen:?}");
    let refusals: Vec<u8> = seen.keys().copied().collect();
    assert_eq!(refusals, [1, 2, 6, 10, 11, 13, 15]);
    assert!(seen.values().all(|&times| times >= 100), "{seen:?}");
}

#[test]
fn noise() {
    for seed in 0..1_500 {
        let model = generate(seed, "noise").unwrap();
        // Larger ones are left to the plain route alone.
        let states = judge(&model, ENOUGH).map_or(0, |judgement| judgement.states);
        if states <= 160 {
            compare(&model, seed, 2);
        }
    }
}

/// On tiny models all trails, and all walks of the touches, are looked at.
#[test]
fn all_trails_of_tiny_models() {
    const MOST: usize = 1_000_000;
    let mut trails = 0;
    let mut with_touch = 0;
    let mut walks = 0;
    for seed in 0..1_200 {
        let model = generate(seed, "tiny").unwrap();
        let brute = Brute::new(&model).unwrap();
        let states = &brute.states;
        if brute.is_unsafe() {
            let is_end = |state| states.forbidden[state];
            if let Some(trail) = least_of_all(states, states.start, 0, 0..4, &is_end, MOST) {
                assert_eq!(trail, least_trail(states), "{model:?}");
                trails += 1;
                with_touch += usize::from(trail.iter().any(|label| label.kind == 3));
            }
        }
        for home in (0..states.list.len())
            .filter(|&state| states.walk[state][state])
            .step_by(5)
        {
            let is_end = |state| state == home;
            if let Some(walk) = least_of_all(states, home, 1, 0..2, &is_end, MOST) {
                assert_eq!(walk, least_walk(states, home), "{model:?}");
                walks += 1;
            }
        }
    }
    println!("all trails of {trails} models, {with_touch} with a touch, and {walks} walks");
    assert!(trails >= 400 && with_touch >= 100 && walks >= 500);
}

/// The region tables of both routes, for all clocks and ceilings.
#[test]
fn region_tables() {
    Regions::all().for_each(compare_tables);
}

fn compare_tables(plain: &Regions) {
    let (clocks, ceiling) = (plain.clocks, plain.ceiling);
    let naive = NaiveRegions::of(clocks, ceiling.into());
    assert_eq!(plain.count(), naive.list.len());
    let numbers = |list: &[u8]| {
        list[..clocks]
            .iter()
            .map(|&number| u32::from(number))
            .collect::<Vec<u32>>()
    };
    for one in 0..plain.count() {
        let region = &plain.list[one];
        assert_eq!(
            (numbers(&region.whole), numbers(&region.rank)),
            naive.list[one]
        );
        assert_eq!(plain.successor[one], naive.after_time(one, ceiling.into()));
        let corners = plain.corners[one]
            .iter()
            .map(|corner| numbers(corner))
            .collect();
        assert_eq!(naive.corners[one], corners);
        let indices = |row: &[bool]| {
            (0..row.len())
                .filter(|&other| row[other])
                .collect::<Vec<usize>>()
        };
        assert_eq!(plain.faces[one], indices(&naive.is_face[one]));
        assert_eq!(plain.near(one), indices(&naive.shares[one]));
    }
}
