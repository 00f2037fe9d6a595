//! Every case of "Plans on the bench" and "Limits".

mod common;

use common::*;
use second::generate::{classify, Class};
use second::limits::MAX_CEILING;
use second::number_at;
use second::program::{evidence_bytes, judge_lines, OUTPUT, SCRATCH};
use second::read_model;
use second::regions::{Region, Regions};
use second::widened::{is_covered, run_to_forbidden};

fn region(whole: [u8; 2], rank: [u8; 2]) -> Region {
    Region {
        whole: [whole[0], whole[1], 0],
        rank: [rank[0], rank[1], 0],
    }
}

#[test]
fn counts() {
    for (clocks, ceiling, count) in [(1, 1, 3), (2, 2, 33), (3, 1, 51), (3, 4, 1_977)] {
        assert_eq!(Regions::of(clocks, ceiling).count(), count);
    }
}

#[test]
fn corners() {
    let mut corners = region([0, 0], [2, 1]).corners();
    corners.sort();
    assert_eq!(corners, [[0, 0, 0], [1, 0, 0], [1, 1, 0]]);
}

#[test]
fn time() {
    let after = |whole, rank| region(whole, rank).time_successor(2, 2);
    assert_eq!(after([1, 0], [0, 0]), Some(region([1, 0], [1, 1])));
    assert_eq!(after([0, 1], [1, 2]), Some(region([0, 2], [1, 0])));
}

#[test]
fn one_location() {
    assert_eq!(evidence(&[1, 1, 1, 1, 0, 0, 0, 0]), [1, 5, 3, 1]);
    assert_eq!(evidence(&[1, 1, 1, 1, 0, 0, 1, 0]), [2, 0]);
    assert_eq!(check(&[1, 1, 1, 1, 0, 0, 0, 0], &[1, 5, 3, 1]), Ok(1));
    assert_eq!(check(&[1, 1, 1, 1, 0, 0, 1, 0], &[2, 0]), Ok(2));
    assert_eq!(
        judge_lines(&ROW, SCRATCH, OUTPUT),
        "verdict safe\nstates 3\nin 3\n"
    );
}

#[test]
fn loop_plan() {
    assert_eq!(
        judge_lines(&LOOP, SCRATCH, OUTPUT),
        "verdict unsafe\nstates 132\nsteps 8\n"
    );
    assert_eq!(check(&LOOP, &LOOP_TRAIL), Ok(2));
    assert_eq!(check(&LOOP, &LOOP_TRAIL[..33]), Err(1));
    let mut other_end = LOOP_TRAIL;
    other_end[33] = 2;
    assert_eq!(check(&LOOP, &other_end), Err(14));

    let ours = evidence(&LOOP);
    assert_eq!(ours[..2], [2, 8]);
    assert_eq!(check(&LOOP, &ours), Ok(2));
    assert_eq!(evidence_bytes(&LOOP, SCRATCH, OUTPUT), ours);
}

#[test]
fn loop_plan_with_perfect_clocks() {
    let model = read_model(&LOOP).unwrap();
    assert_eq!(classify(&model), Class::Drift);
    assert_eq!(run_to_forbidden(&model, 14, 0, 1), None);
}

#[test]
fn limit_of_the_ceiling() {
    assert!(read_model(&[1, 1, 4, 1, 0, 0, 0, 0]).is_ok());
    assert_eq!(read_model(&[1, 1, 5, 1, 0, 0, 0, 0]), Err(3));
}

#[test]
fn limit_of_the_edges() {
    let with = |edges: u8| {
        let mut bytes = vec![1, 1, 1, 1, edges, 0, 0, 0];
        for _ in 0..edges {
            bytes.extend([0, 0, 1, 0, 1]);
        }
        read_model(&bytes)
    };
    assert_eq!(with(24).unwrap().edges.len(), 24);
    assert_eq!(with(25), Err(3));
}

#[test]
fn limit_of_the_stay_field() {
    for ceiling in 1..=MAX_CEILING {
        assert!(read_model(&[1, 1, ceiling, 1, 0, 0, 0, ceiling + 1]).is_ok());
        assert_eq!(
            read_model(&[1, 1, ceiling, 1, 0, 0, 0, ceiling + 2]),
            Err(4)
        );
    }
}

#[test]
fn limit_of_the_number() {
    assert_eq!(number_at(&[133, 128, 0], 0), Ok((5, 3)));
    assert_eq!(number_at(&[133, 128, 128], 0), Err(2));
    // It is read in a model; evidence passes without it.
    assert!(read_model(&[1, 1, 1, 1, 0, 128, 128, 0, 0, 0]).is_ok());
    assert_eq!(check(&ROW, &[1, 133, 128, 0, 3, 1]), Err(15));
}

#[test]
fn limit_of_the_widening() {
    assert!(is_covered(9, 9, 100));
    assert!(!is_covered(9, 10, 100));
    // The loop plan shows that this is where it has to be: nine jumps reach
    // the forbidden location at 10/100, and at 9/100 they do not.
    let model = read_model(&LOOP).unwrap();
    assert_eq!(run_to_forbidden(&model, 9, 9, 100), None);
    assert_eq!(
        run_to_forbidden(&model, 9, 10, 100),
        Some(vec![0, 1, 2, 1, 2, 1, 2, 1, 3])
    );
    assert_eq!(run_to_forbidden(&model, 8, 10, 100), None);
}
