//! Each row of the table of refusals, their order, and what a call leaves.

mod common;

use common::*;
use second::generate::{generate, KINDS};
use second::numbers::shortest;
use second::padding::{count, pad_at};
use second::{check_evidence, judge, marks, read_model, read_plan, write_evidence};
use std::collections::BTreeSet;

/// The loop plan with each mark.
fn both_marks() -> [[u8; 46]; 2] {
    [1, 2].map(|mark| {
        let mut plan = LOOP;
        plan[0] = mark;
        plan
    })
}

/// A plan with one number changed and, if asked for, cut after it.
fn changed(plan: &[u8], at: usize, number: u32, cut: bool) -> Vec<u8> {
    let mut numbers: Vec<u32> = plan.iter().map(|&byte| byte.into()).collect();
    numbers[at] = number;
    if cut {
        numbers.truncate(at + 1);
    }
    shortest(&numbers)
}

#[test]
fn model_ends_too_soon() {
    for plan in both_marks() {
        for length in 0..plan.len() {
            let begun = &plan[..length];
            assert_eq!(read_model(begun), Err(1));
            assert_eq!(read_model(&[begun, &[128]].concat()), Err(1));
            assert_eq!(read_model(&[begun, &[128, 255]].concat()), Err(1));
        }
    }
}

#[test]
fn model_number_too_long() {
    for plan in both_marks() {
        for at in 0..plan.len() {
            // Whatever value the number might have had, and whatever follows.
            let (begun, rest) = (&plan[..at], &plan[at + 1..]);
            assert_eq!(read_model(&[begun, &[255, 255, 255]].concat()), Err(2));
            let long = [plan[at] | 128, 128, 128, 0];
            assert_eq!(read_model(&[begun, &long, rest].concat()), Err(2));
        }
    }
}

#[test]
fn model_numbers_out_of_range() {
    // Clocks 2, ceiling 2, locations 4.
    let header = [2, 3, 4, 8, 24, 3];
    let location = [1, 3, 3];
    let edge = [3, 3, 3, 2, 2, 2, 2];
    for plan in both_marks() {
        for at in 0..plan.len() {
            let (most, refusal) = match at {
                0..=5 => (header[at], 3),
                6..=17 => (location[(at - 6) % 3], 4),
                _ => (edge[(at - 18) % 7], 5),
            };
            for number in [most + 1, 127, 128, 16_384, (1 << 21) - 1] {
                // The refusal comes with the number, so what follows is no matter.
                for cut in [false, true] {
                    let other = changed(&plan, at, number, cut);
                    assert_eq!(read_model(&other), Err(refusal), "{at}");
                }
            }
        }
        for at in 0..4 {
            assert_eq!(read_model(&changed(&plan, at, 0, false)), Err(3));
        }
    }
}

/// The mark by its bytes, alone and with the rest of a plan behind it.
#[test]
fn the_mark() {
    for (first, mark) in [
        (&[1][..], Ok(1)),
        (&[129, 0], Ok(1)),
        (&[2], Ok(2)),
        (&[130, 0], Ok(2)),
        (&[130, 128, 0], Ok(2)),
        (&[0], Err(3)),
        (&[128, 0], Err(3)),
        (&[3], Err(3)),
        (&[131, 0], Err(3)),
        (&[130, 1], Err(3)),
        (&[130, 128, 1], Err(3)),
        (&[127], Err(3)),
        (&[130, 128, 128], Err(2)),
    ] {
        let plan = [first, &ROW[1..]].concat();
        assert_eq!(read_plan(&plan).map(|reading| reading.mark), mark);
        assert_eq!(judge(&plan, ENOUGH).err(), mark.err());
        assert_eq!(read_plan(first), Err(mark.err().unwrap_or(1)));
    }
    assert_eq!(read_plan(&[130]), Err(1));
    assert_eq!(read_plan(&[130, 128]), Err(1));
}

/// A stay field of 0 refuses nothing, whatever its limit turns out to be, and
/// what follows it is refused as with mark 1. But the lesser limits of mark 2
/// keep edges shut that open with mark 1, so that 7 may be gone.
#[test]
fn the_mark_changes_no_refusal_but_7() {
    let mut seen = BTreeSet::new();
    let mut gone = 0;
    for kind in KINDS {
        for seed in 0..150 {
            let model = generate(seed, kind).unwrap();
            if !matches!(model[..], [1 | 2, ..]) {
                continue;
            }
            let refusal = |mark: u8| {
                let other = [&[mark], &model[1..]].concat();
                judge(&other, [4_000; 4]).err()
            };
            let [one, two] = [1, 2].map(refusal);
            let is_gone = one == Some(7) && [None, Some(8)].contains(&two);
            assert!(one == two || is_gone, "{model:?}");
            gone += usize::from(is_gone);
            seen.insert(two);
        }
    }
    assert!(gone >= 5, "{gone}");
    let all = [1, 2, 3, 4, 5, 6, 7, 8].map(Some);
    assert_eq!(
        seen,
        BTreeSet::from(all).into_iter().chain([None]).collect()
    );
}

#[test]
fn stay_fields_of_mark_2() {
    // Ceiling 2; a loop that closes at 0 comes behind the field.
    let with = |stay: &[u8], rest: &[u8]| {
        let header = [2, 1, 2, 1, 1, 0, 0];
        read_model(&[&header, stay, rest].concat()).map(|model| model.locations[0].limit[0])
    };
    let edge = [0, 0, 1, 0, 0];
    for (stay, limit) in [(0, 0), (1, 0), (2, 1), (3, 2)] {
        assert_eq!(with(&[stay], &edge), Ok(limit));
        assert_eq!(with(&[stay + 128, 128, 0], &edge), Ok(limit));
    }
    assert_eq!(with(&[4], &edge), Err(4));
    assert_eq!(with(&[4], &[]), Err(4));
    assert_eq!(with(&[0], &edge[..4]), Err(1));
    assert_eq!(with(&[0], &[0, 0, 1, 0, 3]), Err(5));
    assert_eq!(with(&[0], &[0, 0, 1, 1, 0]), Err(5));
    assert_eq!(with(&[0], &[0, 0, 1, 0, 0, 0]), Err(6));
    // No time can pass, yet the drawing has a loop without a reset.
    assert_eq!(with(&[0], &[0, 0, 0, 0, 0]), Err(7));
}

#[test]
fn low_above_high_when_high_is_read() {
    let start = [1, 1, 2, 1, 1, 0, 0, 0, 0, 0, 1];
    let with = |rest: &[u8]| read_model(&[&start, rest].concat());
    assert_eq!(with(&[2]), Err(1));
    assert_eq!(with(&[3]), Err(5));
    assert_eq!(with(&[2, 1]), Err(5));
    assert_eq!(with(&[2, 128, 128, 128]), Err(2));
    assert_eq!(with(&[2, 3]), Err(5));
    assert_eq!(with(&[2, 1, 0]), Err(5));
    assert!(with(&[2, 2]).is_ok());
    assert_eq!(with(&[2, 2, 0]), Err(6));
}

#[test]
fn six_then_seven_then_eight() {
    let unreset = [1, 1, 1, 1, 1, 0, 0, 0, 0, 0, 0, 0, 1];
    assert_eq!(judge(&unreset, [0; 4]), Err(7));
    assert_eq!(judge(&[&unreset[..], &[0]].concat(), [0; 4]), Err(6));
    assert_eq!(
        judge(&[&LOOP[..], &[128, 128, 128]].concat(), [0; 4]),
        Err(6)
    );
    for short in 0..4 {
        let mut scratch = [132; 4];
        assert!(judge(&LOOP, scratch).is_ok());
        scratch[short] = 131;
        assert_eq!(judge(&LOOP, scratch), Err(8));
        assert_eq!(marks(&LOOP, scratch, &mut []), Err(8));
        assert_eq!(write_evidence(&LOOP, scratch, &mut []), Err(8));
        assert_eq!(check_evidence(&LOOP, &[], scratch), Err(8));
    }
}

#[test]
fn seven_by_edges_that_can_open() {
    // A loop at a location that nothing leads to, whose limit is 0.
    let with = |low| read_model(&[1, 1, 2, 2, 1, 0, 0, 0, 0, 1, 1, 1, 0, low, 2]);
    assert_eq!(with(0), Err(7));
    assert!(with(1).is_ok() && with(2).is_ok());
    // Two loops through one location that reset one clock each.
    let both = |first, second| {
        let edge = |from, to, mask| [from, to, mask, 0, 1, 0, 1];
        let edges = [
            edge(0, 1, first),
            edge(1, 0, 2),
            edge(0, 2, second),
            edge(2, 0, 2),
        ];
        read_model(
            &[
                &[1, 2, 1, 3, 4, 0, 0, 0, 0, 0, 0, 0, 0, 0, 0],
                edges.concat().as_slice(),
            ]
            .concat(),
        )
    };
    assert!(both(1, 1).is_ok());
    assert_eq!(both(1, 0), Err(7));
}

#[test]
fn outputs_of_marks() {
    for length in 0..132 {
        let mut out = vec![170; length];
        assert_eq!(marks(&LOOP, ENOUGH, &mut out), Err(9));
        assert!(out.iter().all(|&byte| byte == 170));
    }
    let mut out = vec![170; 140];
    assert_eq!(marks(&LOOP, ENOUGH, &mut out), Ok(132));
    assert!(out[..132].iter().all(|&byte| byte <= 1));
    assert!(out[132..].iter().all(|&byte| byte == 170));
    assert_eq!(marks(&ROW, [3; 4], &mut out[..3]), Ok(3));
    assert_eq!(out[..3], [1, 1, 1]);
}

#[test]
fn outputs_of_evidence() {
    for model in [&LOOP[..], &ROW[..]] {
        let whole = evidence(model);
        for length in 0..whole.len() {
            let mut out = vec![170; length];
            assert_eq!(write_evidence(model, ENOUGH, &mut out), Err(9));
            assert!(out.iter().all(|&byte| byte == 170));
        }
        for length in [whole.len(), whole.len() + 5] {
            let mut out = vec![170; length];
            let is_unsafe = whole[0] == 2;
            assert_eq!(
                write_evidence(model, ENOUGH, &mut out),
                Ok((is_unsafe, whole.len()))
            );
            assert_eq!(out[..whole.len()], whole);
            assert!(out[whole.len()..].iter().all(|&byte| byte == 170));
        }
    }
    // No other refusal touches the output either.
    let mut out = vec![170; 200];
    assert_eq!(write_evidence(&LOOP, [131; 4], &mut out), Err(8));
    assert_eq!(marks(&LOOP[..9], ENOUGH, &mut out), Err(1));
    assert!(out.iter().all(|&byte| byte == 170));
}

#[test]
fn first_number_of_evidence() {
    assert_eq!(check(&ROW, &[]), Err(1));
    assert_eq!(check(&ROW, &[129]), Err(1));
    assert_eq!(check(&ROW, &[129, 128, 128]), Err(2));
    for first in [0, 3, 4, 127] {
        assert_eq!(check(&ROW, &[first]), Err(10));
        assert_eq!(check(&ROW, &[first, 128, 128, 128]), Err(10));
    }
    // Padded, before 10 and before what follows.
    for first in [0, 1, 2, 3, 4, 127] {
        for padded in [&[first | 128, 0][..], &[first | 128, 128, 0]] {
            assert_eq!(check(&ROW, padded), Err(15));
            assert_eq!(check(&ROW, &[padded, &[128, 128, 128]].concat()), Err(15));
        }
    }
    assert_eq!(check(&ROW, &[128, 1]), Err(10));
    assert_eq!(check(&ROW, &[128, 129, 0]), Err(15));
    // The model comes first.
    assert_eq!(check(&ROW[..7], &[]), Err(1));
    assert_eq!(check(&[&ROW[..], &[0]].concat(), &[9]), Err(6));
}

#[test]
fn numbers_of_a_sheet() {
    for length in 1..4 {
        assert_eq!(check(&ROW, &[1, 5, 3, 1][..length]), Err(1));
        assert_eq!(
            check(&ROW, &[&[1, 5, 3, 1][..length], &[128, 128, 128]].concat()),
            Err(2)
        );
        // 2S-1 is 5; a number above it is refused before the end is seen.
        assert_eq!(
            check(&ROW, &[&[1, 5, 3, 1][..length], &[6]].concat()),
            Err(11)
        );
    }
    assert_eq!(check(&ROW, &[1, 5, 3, 1, 0]), Err(6));
    assert_eq!(check(&ROW, &[1, 5, 3, 1, 128, 128, 128]), Err(6));
    // Rules are looked at last.
    assert_eq!(check(&ROW, &[1, 0, 0, 0, 0]), Err(6));
    assert_eq!(check(&ROW, &[1, 0, 0, 0]), Err(12));
    // A stay limit of 0 allows only the first state.
    let short = [1, 1, 1, 1, 0, 0, 0, 1];
    assert_eq!(evidence(&short), [1, 1, 0, 0]);
    assert_eq!(check(&short, &[1, 5, 0, 0]), Ok(1));
    for number in 1..=5 {
        assert_eq!(check(&short, &[1, 1, number]), Err(11));
        assert_eq!(check(&short, &[1, 1, 0, number]), Err(11));
    }
}

#[test]
fn rules_of_a_sheet() {
    // Start in.
    assert_eq!(check(&ROW, &[1, 4, 2, 0]), Err(12));
    // Closed under time.
    assert_eq!(check(&ROW, &[1, 5, 2, 0]), Err(12));
    assert_eq!(check(&ROW, &[1, 5, 3, 0]), Err(12));
    // Heights are not raised, but may stay.
    assert_eq!(check(&ROW, &[1, 3, 5, 1]), Err(12));
    assert_eq!(check(&ROW, &[1, 1, 1, 1]), Ok(1));

    // The second location is entered at 1, and there only 1 is reached.
    assert_eq!(evidence(&TWO), [1, 7, 5, 3, 4, 2, 1]);
    assert_eq!(check(&TWO, &[1, 7, 5, 3, 4, 2, 1]), Ok(1));
    // Closed under jump.
    assert_eq!(check(&TWO, &[1, 7, 5, 3, 4, 2, 0]), Err(12));
    // Closed under face: with the interval in, its end 0 is in too.
    assert_eq!(check(&TWO, &[1, 7, 5, 3, 4, 3, 1]), Err(12));
    assert_eq!(check(&TWO, &[1, 7, 5, 3, 5, 3, 1]), Ok(1));
    // The interval is out and shares the corner 1: its step must go down.
    assert_eq!(check(&TWO, &[1, 7, 5, 3, 4, 0, 1]), Err(12));
    // The point 0 is out and shares no corner: its step may stay level.
    assert_eq!(check(&TWO, &[1, 7, 5, 3, 2, 2, 1]), Ok(1));
    // A jump that raises the height.
    assert_eq!(check(&TWO, &[1, 7, 5, 1, 6, 4, 3]), Err(12));
    // No in-state forbidden.
    let mut forbidden = TWO;
    forbidden[8] = 1;
    assert_eq!(check(&forbidden, &[1, 7, 5, 3, 4, 2, 1]), Err(12));
}

#[test]
fn an_equal_height_hides_no_loop() {
    // The set that perfect clocks reach in the loop plan, with heights that
    // stay level along the loop: the touched loop must break a rule.
    let forged = second::mutate::mutate_as(0, "equal", &LOOP, &LOOP_TRAIL).unwrap();
    assert_eq!(forged[0], 1);
    assert_eq!(check(&LOOP, &forged), Err(12));
}

#[test]
fn steps_of_a_trail() {
    let with = |rest: &[u8]| check(&LOOP, &[&[2], rest].concat());
    // The count, and a trail without steps.
    assert_eq!(with(&[]), Err(1));
    assert_eq!(with(&[128, 128, 128]), Err(2));
    assert_eq!(with(&[0]), Err(14));
    assert_eq!(with(&[0, 0]), Err(6));
    assert_eq!(with(&[1]), Err(1));
    assert_eq!(with(&[255, 255, 127, 4]), Err(13));
    assert_eq!(with(&[255, 255, 127, 0]), Err(1));
    // Kinds.
    for kind in [4, 5, 127] {
        assert_eq!(with(&[1, kind]), Err(13));
    }
    assert_eq!(with(&[1, 132, 0]), Err(15)); // padded
    assert_eq!(with(&[1, 128, 0]), Err(15)); // time, padded
    assert_eq!(with(&[5, 0, 0, 0, 0, 0]), Err(13)); // past the ceiling
    assert_eq!(with(&[4, 0, 0, 0, 0]), Err(14));
    // Edges: a guard that does not hold, another location, no such edge.
    assert_eq!(with(&[1, 1]), Err(1));
    assert_eq!(with(&[1, 1, 0]), Err(13));
    assert_eq!(with(&[3, 0, 0, 1, 1]), Err(13));
    assert_eq!(with(&[3, 0, 0, 1, 4]), Err(13));
    assert_eq!(with(&[3, 0, 0, 1, 0]), Err(14));
    // Faces: of w 0 0, r 1 1 these are (0,0) and (1,1).
    assert_eq!(with(&[2, 0, 2, 0, 0, 0, 0]), Err(14));
    assert_eq!(with(&[2, 0, 2, 1, 1, 0, 0]), Err(14));
    assert_eq!(with(&[2, 0, 2, 0, 0, 1, 1]), Err(13)); // all corners
    assert_eq!(with(&[2, 0, 2, 1, 0, 0, 0]), Err(13));
    assert_eq!(with(&[1, 2, 0, 0, 0, 0]), Err(13));
    // A bad region is refused with its last number, not before.
    assert_eq!(with(&[2, 0, 2, 9, 9, 9]), Err(1));
    assert_eq!(with(&[2, 0, 2, 9, 128, 128, 128, 0]), Err(2));
    assert_eq!(with(&[2, 0, 2, 9, 9, 9, 9]), Err(13));
    assert_eq!(with(&[2, 0, 2, 0, 0, 2, 0]), Err(13)); // ranks 2 and 0
                                                       // 6 comes before 14.
    assert_eq!(with(&[1, 0, 0]), Err(6));
    let longer = [&LOOP_TRAIL[..], &[0]].concat();
    assert_eq!(check(&LOOP, &longer), Err(6));
}

#[test]
fn touches_of_a_trail() {
    // The trail of the bench up to its touch: w 0 1, r 0 1 in location 2.
    let before = &LOOP_TRAIL[1..9];
    let with = |rest: &[u8]| check(&LOOP, &[&[2], before, rest].concat());
    let touch: &[u8] = &[3, 0, 1, 0, 1];
    let walk: &[u8] = &[0, 0, 1, 2, 0, 0, 0, 0, 0, 0, 1, 1];
    let touching = |rest: &[u8]| with(&[touch, rest].concat());
    assert_eq!(touching(&[&[10], walk].concat()), Err(1)); // the trail goes on
                                                           // A region that shares no corner, is none, or is cut short.
    assert_eq!(with(&[3, 1, 2, 1, 0]), Err(13));
    assert_eq!(with(&[3, 0, 1, 0, 2]), Err(13));
    assert_eq!(with(&[3, 0, 1, 0]), Err(1));
    // The count of the walk.
    assert_eq!(touching(&[]), Err(1));
    assert_eq!(touching(&[0]), Err(13));
    assert_eq!(touching(&[128, 128, 128]), Err(2));
    assert_eq!(touching(&[255, 255, 127, 0]), Err(1));
    // Kinds and edges of the walk: never face or touch.
    assert_eq!(touching(&[1, 2]), Err(13));
    assert_eq!(touching(&[1, 3]), Err(13));
    assert_eq!(touching(&[2, 0, 1]), Err(1));
    assert_eq!(touching(&[2, 1, 0]), Err(13));
    assert_eq!(touching(&[2, 1, 9]), Err(13));
    // A walk that does not close, after its last step.
    assert_eq!(touching(&[9, 0, 0, 1, 2, 0, 0, 0, 0, 0, 0]), Err(13));
    assert_eq!(touching(&[9, 0, 0, 1, 2, 0, 0, 0, 0, 0]), Err(1));
    assert_eq!(touching(&[1, 0]), Err(13));
    // A walk may be gone twice.
    let twice = [&[&[20], walk, walk].concat()[..], &LOOP_TRAIL[27..]].concat();
    assert_eq!(touching(&twice), Ok(2));
}

#[test]
fn a_touch_may_stay_where_it_is() {
    // One location with a loop that resets its clock: the start touches itself.
    let model = [1, 1, 1, 1, 1, 0, 1, 0, 0, 0, 1, 0, 1];
    assert_eq!(evidence(&model), [2, 0]);
    assert_eq!(check(&model, &[2, 1, 3, 0, 0, 1, 1, 0]), Ok(2));
    // Without the loop there is no walk to go.
    assert_eq!(
        check(&[1, 1, 1, 1, 0, 0, 1, 0], &[2, 1, 3, 0, 0, 1, 1, 0]),
        Err(13)
    );
}

#[test]
fn regions_not_allowed_are_bad() {
    // Two locations with a stay limit of 1 at ceiling 2; the second lies in
    // a loop that resets the clock.
    let model = [1, 1, 2, 1, 1, 0, 1, 2, 0, 0, 1, 0, 2];
    // From the point 1: the interval below is on the loop, the one above is not allowed.
    assert_eq!(check(&model, &[2, 3, 0, 0, 3, 0, 1, 3, 0, 1, 0, 0]), Ok(2));
    assert_eq!(check(&model, &[2, 3, 0, 0, 3, 1, 1]), Err(13));
    assert_eq!(check(&model, &[2, 3, 0, 0, 0]), Err(13));
}

#[test]
fn inputs_at_which_readings_could_differ() {
    // A walk step that cannot be taken is refused at once, though the bytes end.
    assert_eq!(check(&LOOP, &[2, 1, 3, 0, 0, 0, 0, 5, 1, 9]), Err(13));
    // A region without a shared corner is refused before the walk is read.
    assert_eq!(check(&ROW, &[2, 1, 3, 1, 0]), Err(13));
    // A region on no closed walk is refused by its walk: here the bytes end first.
    assert_eq!(check(&ROW, &[2, 1, 3, 0, 0]), Err(1));
    assert_eq!(check(&ROW, &[2, 1, 3, 0, 0, 1]), Err(1));
    assert_eq!(check(&ROW, &[2, 1, 3, 0, 0, 1, 0]), Err(13));
    // Through a forbidden location to an ordinary one.
    let mut through = TWO;
    through[6] = 1;
    assert_eq!(check(&through, &[2, 3, 0, 0, 1, 0]), Err(14));
    assert_eq!(check(&through, &[2, 2, 0, 0]), Ok(2));
}

/// Each number of passing evidence, padded alone by one empty group or two.
#[test]
fn a_padded_number_anywhere() {
    let mut forbidden = ROW;
    forbidden[6] = 1;
    let mut shut = ROW;
    shut[7] = 1;
    let mut padded = 0;
    for (model, passing) in [
        (&ROW[..], &[1, 5, 3, 1][..]),
        (&TWO, &[1, 7, 5, 3, 4, 2, 1]),
        (&shut, &[1, 1, 0, 0]),
        (&forbidden, &[2, 0]),
        (&LOOP, &LOOP_TRAIL),
        (&LOOP, &evidence(&LOOP)),
    ] {
        assert_eq!(check(model, passing), Ok(passing[0].into()));
        for place in 0..count(passing) {
            for groups in 1..=2 {
                let other = pad_at(passing, place, groups).unwrap();
                assert_eq!(check(model, &other), Err(15), "{other:?}");
                // A padded number is still none before its last byte.
                let cut = &other[..place + groups];
                assert_eq!(check(model, cut), Err(1), "{cut:?}");
                padded += 1;
            }
        }
    }
    assert_eq!(padded, 2 * (4 + 7 + 4 + 2 + 34 + 42));
}

/// 15 for a sheet number stands after its 1 and 2, and before its 11.
#[test]
fn order_in_a_padded_sheet() {
    for (evidence, refusal) in [
        (&[1, 133][..], 1),
        (&[1, 133, 128], 1),
        (&[1, 133, 128, 128], 2),
        (&[1, 133, 128, 128, 0], 2),
        (&[1, 133, 0], 15),
        (&[1, 137, 0], 15),
        (&[1, 128, 1], 11),
        (&[1, 128, 129, 0], 15),
        (&[1, 9, 131, 0], 11),
        (&[1, 133, 0, 9], 15),
        (&[1, 133, 0, 128, 128, 128], 15),
        // What remains is not read; the rules come last.
        (&[1, 5, 3, 1, 128, 0], 6),
        (&[1, 0, 0, 0, 128, 0], 6),
        (&[1, 5, 3, 129, 0, 0], 15),
        (&[1, 4, 2, 128, 0], 15),
    ] {
        assert_eq!(check(&ROW, evidence), Err(refusal), "{evidence:?}");
    }
    let shut = [1, 1, 1, 1, 0, 0, 0, 1];
    assert_eq!(check(&shut, &[1, 1, 129, 0, 0]), Err(15));
    assert_eq!(check(&shut, &[1, 1, 1, 128, 0]), Err(11));
}

/// 15 for a number of a trail stands after its 1 and 2, and before the 13 that
/// comes with it.
#[test]
fn order_in_a_padded_trail() {
    for (rest, refusal) in [
        // The count; 14 comes after all numbers.
        (&[128, 0][..], 15),
        (&[128, 1], 1),
        (&[128, 129, 0], 15),
        (&[0, 128, 0], 6),
        // Kinds and edges: bad, and after a bad one.
        (&[1, 129, 0], 15),
        (&[1, 4, 128, 0], 13),
        (&[5, 0, 0, 0, 0, 128, 0], 15),
        (&[1, 1, 128, 0], 15),
        (&[1, 1, 128, 128], 1),
        (&[1, 1, 0, 128, 0], 13),
        (&[3, 0, 0, 1, 132, 0], 15),
        (&[3, 0, 0, 1, 4, 128, 0], 13),
        // A region: its numbers one by one, and 13 after the last of them.
        (&[2, 0, 2, 137, 0], 15),
        (&[2, 0, 2, 9, 137, 0, 9, 9], 15),
        (&[2, 0, 2, 9, 128, 128, 128, 137, 0], 2),
        (&[2, 0, 2, 9, 9, 9, 137, 0], 15),
        (&[2, 0, 2, 9, 9, 9, 9, 137, 0], 13),
        (&[2, 0, 2, 0, 0, 0, 128, 0], 15),
    ] {
        let evidence = [&[2], rest].concat();
        assert_eq!(check(&LOOP, &evidence), Err(refusal), "{evidence:?}");
    }
}

#[test]
fn order_in_a_padded_walk() {
    let touching = |rest: &[u8]| check(&LOOP, &[&LOOP_TRAIL[..14], rest].concat());
    for (rest, refusal) in [
        (&[128, 0][..], 15),
        (&[0, 128, 0], 13),
        (&[138, 0], 15),
        (&[138], 1),
        (&[9, 130, 0], 15),
        (&[9, 2, 128, 0], 13),
        (&[9, 129, 0, 9], 15),
        (&[9, 1, 137, 0], 15),
        (&[9, 1, 9, 128, 0], 13),
        // A walk that does not close: 13 after its last number.
        (&[1, 128, 0], 15),
        (&[1, 0, 128, 0], 13),
    ] {
        assert_eq!(touching(rest), Err(refusal), "{rest:?}");
    }
    // A region that shares no corner comes before its walk.
    let far = [&LOOP_TRAIL[..9], &[3, 1, 2, 1, 0, 138, 0]].concat();
    assert_eq!(check(&LOOP, &far), Err(13));
}

/// Models may be padded, and they are looked at first, scratch too.
#[test]
fn only_evidence_is_refused_by_15() {
    let mut padded = Vec::new();
    for byte in ROW {
        padded.extend([byte | 128, 128, 0]);
    }
    assert_eq!(check(&padded, &[1, 5, 3, 1]), Ok(1));
    assert_eq!(check(&padded, &[1, 5, 3, 129, 0]), Err(15));
    assert_eq!(check(&padded[1..], &[129, 0]), Err(3));
    assert_eq!(check_evidence(&ROW, &[129, 0], [2; 4]), Err(8));
    assert_eq!(check_evidence(&ROW, &[129, 0], [3; 4]), Err(15));
}
