//! The least time to a location: by hand, against runs on times counted in D-ths
//! and lists of jumps, and what must hold of it on generated models.

mod common;

use common::*;
use second::blanks::{by_both_marks, with_mark};
use second::brute::read::read;
use second::generate::{generate, respelled, KINDS};
use second::graph::Graph;
use second::limits::{MAX_CLOCKS, MAX_STATES};
use second::marking::{reached, Closure};
use second::model::Model;
use second::random::Random;
use second::widened::Runs;
use second::{judge, read_model, read_plan, soonest};

/// The time to each location, with scratch for every model.
fn times(model: &[u8]) -> Vec<Option<u64>> {
    let locations = read_model(model).expect("an accepted model").locations;
    let time = |location| match soonest(model, location, ENOUGH) {
        Ok(time) => Some(time),
        Err(refusal) => {
            assert_eq!(refusal, 16, "{model:?}");
            None
        }
    };
    (0..locations.len() as u64).map(time).collect()
}

#[test]
fn times_by_hand() {
    assert_eq!(times(&ROW), [Some(0)]);
    assert_eq!(times(&TWO), [Some(0), Some(1)]);
    // 01: "Perfect clocks never reach location 3."
    assert_eq!(times(&LOOP), [Some(0), Some(1), Some(1), None]);
    // Ceiling 3: at 3 by one jump, at 2 by two.
    let header = [1, 1, 3, 3, 3, 0, 0, 0, 0, 0, 0, 0];
    let edges = [0, 2, 0, 3, 3, 0, 1, 0, 1, 3, 1, 2, 0, 2, 3];
    let plan = [&header[..], &edges].concat();
    assert_eq!(times(&plan), [Some(0), Some(1), Some(2)]);
}

/// The start gives 0, forbidden or not, entered again or not.
#[test]
fn the_start() {
    for forbidden in [0, 1] {
        for limit in [0, 1] {
            let locations = [1, 1, 1, 2, 2, 1, 0, 0, forbidden, limit];
            let edges = [1, 0, 0, 0, 1, 0, 1, 1, 1, 1];
            let plan = [&locations[..], &edges].concat();
            assert_eq!(times(&plan), [Some(0), Some(0)]);
        }
    }
}

/// The location is compared as a whole number of 64 bits.
#[test]
fn numbers_that_no_location_has() {
    let low = [2, 3, 8, 255, 256, 257, 65_535, 65_536, 65_537];
    let high = [32, 33, 63].map(|bit| 1 << bit);
    let beside = high.iter().flat_map(|&bit| [bit - 1, bit, bit + 1]);
    // Times the three regions this is 2^64 + 2.
    for location in low
        .into_iter()
        .chain(beside)
        .chain([u64::MAX / 3 + 1, u64::MAX])
    {
        assert_eq!(soonest(&TWO, location, ENOUGH), Err(16), "{location}");
    }
}

/// 16 comes after 8, and 8 after the refusals of the model.
#[test]
fn order_of_refusals() {
    let short = [
        [5, 6, 6, 6],
        [6, 5, 6, 6],
        [6, 6, 5, 6],
        [6, 6, 6, 5],
        [0; 4],
    ];
    for location in [0, 1, 2, u64::MAX] {
        for scratch in short {
            assert_eq!(soonest(&TWO, location, scratch), Err(8));
            assert_eq!(soonest(&TWO[..14], location, scratch), Err(1));
        }
    }
    assert_eq!(soonest(&TWO, 1, [6; 4]), Ok(1));
    assert_eq!(soonest(&TWO, 1, [6, 9, 7, 8]), Ok(1));
    assert_eq!(soonest(&TWO, 2, [6; 4]), Err(16));
    for refusal in 1..=7 {
        for seed in 0..40 {
            let model = generate(seed, &format!("refused-{refusal}")).unwrap();
            for location in [0, 8] {
                assert_eq!(soonest(&model, location, [0; 4]), Err(refusal));
            }
        }
    }
    for seed in 0..20 {
        let model = generate(seed, "refused-8").unwrap();
        assert_eq!(soonest(&model, 8, [4_000; 4]), Err(8));
        assert_eq!(soonest(&model, 8, ENOUGH), Err(16));
    }
}

/// Generated models of every kind that are accepted and have at most so many
/// states.
fn models(seeds: u64, states: usize) -> impl Iterator<Item = Vec<u8>> {
    let all = KINDS.into_iter().flat_map(move |kind| {
        (0..seeds).map(move |seed| generate(seed, kind).expect("a known kind"))
    });
    all.filter(move |model| judge(model, [states; 4]).is_ok())
}

/// No run on D-ths is sooner than the least time, and one on whole units, and so
/// on any D-ths, takes just that long; 16 exactly where no run gets there.
fn same_in_parts(model: &[u8]) -> Vec<Option<u64>> {
    let times = times(model);
    let plan = read(model).expect("an accepted model");
    for d in 1..=4 {
        let in_parts = |time: &Option<u64>| time.map(|time| time as u32 * d);
        let expected: Vec<Option<u32>> = times.iter().map(in_parts).collect();
        assert_eq!(plan.least_times(d), expected, "{d} {model:?}");
    }
    times
}

#[test]
fn runs_on_parts_of_a_unit() {
    let (mut compared, mut never, mut late) = (0, 0, 0);
    let mut by_clocks = [0; MAX_CLOCKS + 1];
    for model in models(250, 400) {
        let times = same_in_parts(&model);
        let reading = read_model(&model).unwrap();
        compared += 1;
        by_clocks[reading.clocks] += 1;
        never += usize::from(times.contains(&None));
        let ceiling = u64::from(reading.ceiling);
        late += usize::from(times.iter().flatten().any(|&time| time > ceiling));
    }
    println!("models {compared}, by clocks {by_clocks:?}: never {never}, late {late}");
    assert!(compared >= 2_000 && never >= 1_000 && late >= 150);
    assert!(by_clocks[1..].iter().all(|&models| models >= 300));
}

/// The same on models with three clocks that are larger.
#[test]
fn larger_models_on_parts_of_a_unit() {
    let mut compared = 0;
    for (kind, seeds) in [
        ("slow", 120),
        ("middle", 60),
        ("clocks-3", 60),
        ("largest", 5),
    ] {
        for seed in 0..seeds {
            let model = generate(seed, kind).unwrap();
            if judge(&model, [401; 4]) == Err(8) {
                same_in_parts(&model);
                compared += 1;
            }
        }
    }
    println!("models {compared}");
    assert!(compared >= 100);
}

/// The least moment, in units of 1/D, at which a run enters each location with at
/// most so many jumps, by the difference bounds of each list of jumps.
fn by_lists(model: &Model, jumps: usize, d: i64) -> Vec<Option<i64>> {
    let runs = Runs::new(model, 0, d);
    let mut least = vec![None; model.locations.len()];
    least[model.start] = Some(0);
    let mut lists = vec![Vec::new()];
    for _ in 0..jumps {
        let mut longer = Vec::new();
        for list in &lists {
            let at = list
                .last()
                .map_or(model.start, |&edge: &usize| model.edges[edge].to);
            for edge in (0..model.edges.len()).filter(|&edge| model.edges[edge].from == at) {
                let list = [&list[..], &[edge]].concat();
                let Some(moments) = runs.moments(&list) else {
                    continue;
                };
                let (entered, now) = (model.edges[edge].to, moments[list.len() - 1]);
                least[entered] = Some(least[entered].map_or(now, |least: i64| least.min(now)));
                longer.push(list);
            }
        }
        lists = longer;
    }
    least
}

/// Lists of a few jumps are never sooner, and mostly as soon.
#[test]
fn lists_of_jumps() {
    let (mut as_soon, mut later) = (0, 0);
    for model in models(40, 160) {
        let reading = read_model(&model).unwrap();
        if reading.edges.len() > 10 {
            continue;
        }
        let d = 3;
        for (time, by_lists) in times(&model).into_iter().zip(by_lists(&reading, 4, d)) {
            match (time, by_lists) {
                (None, found) => assert_eq!(found, None, "{model:?}"),
                (Some(time), Some(found)) if found == time as i64 * d => as_soon += 1,
                (Some(time), found) => {
                    assert!(found.is_none_or(|found| found > time as i64 * d));
                    later += 1;
                }
            }
        }
    }
    println!("as soon {as_soon}, later or with more jumps {later}");
    assert!(as_soon >= 500 && later < as_soon / 10);
}

/// A location has a time exactly if time and jump steps lead to it.
#[test]
fn where_perfect_clocks_get() {
    for model in models(60, MAX_STATES) {
        let graph = Graph::new(read_model(&model).unwrap());
        let closure = Closure {
            face: false,
            touch: None,
        };
        let reached = reached(&graph, closure);
        let mut gets = vec![false; graph.model.locations.len()];
        for state in (0..graph.states()).filter(|&state| reached[state]) {
            gets[graph.location_of(state)] = true;
        }
        let has_time: Vec<bool> = times(&model).iter().map(Option::is_some).collect();
        assert_eq!(has_time, gets, "{model:?}");
    }
}

/// Kinds of locations, the spelling and the order of edges play no part.
#[test]
fn what_plays_no_part() {
    for model in models(20, 700) {
        let expected = times(&model);
        let random = &mut Random::new(1);
        assert_eq!(times(&respelled(random, &model).unwrap()), expected);
        let mut reading = read_plan(&model).unwrap();
        reading.model.edges.reverse();
        for location in &mut reading.model.locations {
            location.forbidden = !location.forbidden;
        }
        let other = second::shortest_plan::shortest_plan(&reading);
        assert_eq!(times(&other), expected, "{model:?}");
    }
}

/// With mark 2 no time is less than with mark 1. It is more, or there is none,
/// only where the limit of the location itself refuses the sooner entries.
#[test]
fn marks() {
    let mut changed = [0; 2];
    for model in models(250, 1_000) {
        let Ok([_, two]) = by_both_marks(&model) else {
            continue;
        };
        let [by_one, by_two] = [1, 2].map(|mark| times(&with_mark(&model, mark).unwrap()));
        for (at, (one, two_time)) in by_one.iter().zip(&by_two).enumerate() {
            assert!(two_time.is_none_or(|time| one.is_some_and(|one| one <= time)));
            if one != two_time {
                let limits = &two.locations[at].limit[..two.clocks];
                assert!(limits.iter().any(|&limit| limit < two.ceiling));
                changed[usize::from(two_time.is_some())] += 1;
            }
        }
    }
    println!("none any more {}, later {}", changed[0], changed[1]);
    assert!(changed[0] >= 100 && changed[1] >= 10);
}
