//! Time limits, for the release build: a model of about 4,000 states in 0.2
//! seconds, one of the largest in 2 seconds.

mod common;

use common::ENOUGH;
use second::generate::{generate_sized, Class};
use second::limits::{MAX_CEILING, MAX_CLOCKS, MAX_LOCATIONS, MAX_STATES};
use second::program::OUTPUT;
use second::shortest_plan::shortest_plan;
use second::{check_evidence, harm, judge, rounds, sheet_margin, soonest, write_evidence};
use second::{judge_joint, marks_joint, read_plan, room, write_joint};
use std::time::{Duration, Instant};

fn within(limit: Duration, sizes: &[(usize, u32, usize, usize)], classes: &[Class]) {
    for &(clocks, ceiling, locations, states) in sizes {
        for &class in classes {
            for seed in 0..6 {
                let model = generate_sized(seed, clocks, ceiling, locations, class);
                let begin = Instant::now();
                assert_eq!(judge(&model, ENOUGH).unwrap().states, states);
                assert!(begin.elapsed() < limit, "judge");
                let begin = Instant::now();
                let mut out = vec![0; OUTPUT];
                let (_, written) = write_evidence(&model, ENOUGH, &mut out).unwrap();
                assert!(begin.elapsed() < limit, "evidence");
                let begin = Instant::now();
                assert!(check_evidence(&model, &out[..written], ENOUGH).is_ok());
                assert!(begin.elapsed() < limit, "check");
                let begin = Instant::now();
                assert!(sheet_margin(&model, ENOUGH).is_ok());
                assert!(begin.elapsed() < limit, "margin");
                let begin = Instant::now();
                assert!(harm(&model, ENOUGH).is_ok());
                assert!(begin.elapsed() < limit, "harm");
                let begin = Instant::now();
                assert!(rounds(&model).is_ok());
                assert!(begin.elapsed() < limit, "rounds");
                let begin = Instant::now();
                assert_ne!(soonest(&model, locations as u64 - 1, ENOUGH), Err(8));
                assert!(begin.elapsed() < limit, "soonest");
                joint_within(limit, &model);
            }
        }
    }
}

/// The calls for a joint reset, with every edge resetting every clock.
fn joint_within(limit: Duration, model: &[u8]) {
    let mut reading = read_plan(model).unwrap();
    let all = (1 << reading.model.clocks) - 1;
    let edges = reading.model.edges.iter_mut();
    edges.for_each(|edge| edge.resets = all);
    let model = shortest_plan(&reading);
    let mut out = vec![0; OUTPUT];
    let begin = Instant::now();
    assert!(judge_joint(&model, ENOUGH).is_ok());
    assert!(begin.elapsed() < limit, "judge, joint");
    let begin = Instant::now();
    assert!(marks_joint(&model, ENOUGH, &mut out).is_ok());
    assert!(begin.elapsed() < limit, "marks, joint");
    let begin = Instant::now();
    assert!(write_joint(&model, ENOUGH, &mut out).is_ok());
    assert!(begin.elapsed() < limit, "evidence, joint");
}

#[test]
fn four_thousand_states() {
    let limit = Duration::from_millis(200);
    within(
        limit,
        &[(3, 3, 4, 3_532)],
        &[Class::Safe, Class::Drift, Class::Plain],
    );
    within(limit, &[(3, 4, 2, 3_954)], &[Class::Safe, Class::Plain]);
}

#[test]
fn the_largest() {
    within(
        Duration::from_secs(2),
        &[(MAX_CLOCKS, MAX_CEILING.into(), MAX_LOCATIONS, MAX_STATES)],
        &[Class::Safe, Class::Drift, Class::Plain],
    );
}

/// Nothing is marked: ten thousand largest models take less time than one may that is
/// judged.
#[test]
fn room_known_beforehand() {
    let (clocks, ceiling) = (MAX_CLOCKS, MAX_CEILING.into());
    let model = generate_sized(0, clocks, ceiling, MAX_LOCATIONS, Class::Drift);
    assert!(room(&model).is_ok());
    let begin = Instant::now();
    assert!((0..10_000).all(|_| room(&model).is_ok_and(|room| room.states == MAX_STATES)));
    assert!(begin.elapsed() < Duration::from_secs(2));
}
