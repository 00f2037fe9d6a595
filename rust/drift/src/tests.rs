//! The calls on plans of document 01's bench, with what they leave.

use super::*;
use Refusal::*;

/// The loop plan: safe with perfect clocks only.
const LOOP: [u8; 46] = [
    1, 2, 2, 4, 4, 0, //
    0, 0, 0, 0, 0, 0, 0, 0, 0, 1, 0, 0, //
    0, 1, 2, 1, 1, 1, 1, //
    1, 2, 1, 0, 2, 0, 2, //
    2, 1, 2, 0, 2, 2, 2, //
    2, 3, 0, 0, 0, 2, 2,
];
const LOOP_STATES: usize = 132;

/// Its trail as we write it.
const LOOP_TRAIL: [u8; 42] = [
    2, 8, 0, 0, 1, 0, 3, 0, 0, 2, 1, 9, 0, 0, 0, 0, 1, 1, 0, 0, 1, 2, 0, 3, 1, 1, 1, 1, 6, 0, 1, 1,
    1, 2, 0, 0, 0, 0, 1, 1, 1, 3,
];

/// One clock, ceiling 1, one ordinary location: three states in a row.
const ROW: [u8; 8] = [1, 1, 1, 1, 0, 0, 0, 0];
const ROW_SHEET: [u8; 4] = [1, 5, 3, 1];

/// The same with a forbidden location.
const FORBIDDEN: [u8; 8] = [1, 1, 1, 1, 0, 0, 1, 0];

/// A loop that resets nothing.
const UNRESET: [u8; 13] = [1, 1, 1, 1, 1, 0, 0, 0, 0, 0, 0, 0, 1];

/// What lent memory holds beforehand.
const DIRT: u8 = 0xa5;

/// So many numbers of each scratch slice are beyond what a plan needs.
const SPARE: usize = 5;

/// Dirty scratch of so many numbers each.
fn dirty(length: usize) -> [Vec<Word>; 4] {
    std::array::from_fn(|_| vec![DIRT.into(); length])
}

fn lend(scratch: &mut [Vec<Word>; 4]) -> Scratch<'_> {
    scratch.each_mut().map(|slice| &mut slice[..])
}

/// An answer, the output afterwards, and how many first numbers of each
/// scratch slice are zero; the rest must be as before.
type Left = (Result<Written, Refusal>, Vec<u8>, usize);

fn write(model: &[u8], length: usize, room: usize) -> Left {
    let mut scratch = dirty(length);
    let mut out = vec![DIRT; room];
    let answer = write_evidence(model, lend(&mut scratch), &mut out);
    let zeros = scratch[0].iter().take_while(|&&number| number == 0).count();
    for slice in &scratch {
        assert!(slice[..zeros].iter().all(|&number| number == 0));
        assert!(slice[zeros..].iter().all(|&number| number == DIRT.into()));
    }
    (answer, out, zeros)
}

/// The evidence is written where there is room for it, and 9 comes otherwise.
fn writes(model: &[u8], states: usize, verdict: Verdict, evidence: &[u8]) {
    let bytes = evidence.len();
    for room in 0..bytes + SPARE {
        let (answer, out) = if room < bytes {
            (Err(OutputTooShort), vec![DIRT; room])
        } else {
            let rest = vec![DIRT; room - bytes];
            (Ok(Written { verdict, bytes }), [evidence, &rest].concat())
        };
        assert_eq!(write(model, states + SPARE, room), (answer, out, states));
    }
}

/// A word as c/drift.h adds it up, with each field at its greatest.
#[test]
fn fields_of_an_answer() {
    let answer = 14 + (1 << 8) + (0xff_ffff << 16) + (7 << 40);
    assert_eq!(accepted(answer), Err(EndsOrdinary));
    let fields = [VERDICT, STATES, COUNT].map(|bits| field(answer, bits));
    assert_eq!(fields, [1, 0xff_ffff, 7]);
    let bits = [VERDICT, STATES, COUNT, UNITS, WRITTEN, VALUE, PADDED, NEXT];
    let whole = bits.map(|bits| field(u64::MAX, bits));
    let greatest = [8, 24, 24, 24, 48, 21, 1, 32].map(|bits| (1 << bits) - 1);
    assert_eq!(whole, greatest);
}

/// As document 02 has it, whatever the verdict; a refused plan gets its number.
#[test]
fn room_known_beforehand() {
    let told = |model: &[u8]| room(model).map(|it| [it.states, it.scratch, it.sheet, it.steps]);
    assert_eq!(told(&ROW), Ok([3, 3, 4, 2]));
    assert_eq!(told(&FORBIDDEN), Ok([3, 3, 4, 2]));
    assert_eq!(told(&LOOP), Ok([LOOP_STATES, LOOP_STATES, 265, 131]));
    assert_eq!(told(&UNRESET), Err(ClockUnreset));
    assert_eq!(told(&[]), Err(EndsTooSoon));
}

#[test]
fn a_sheet_is_written() {
    writes(&ROW, 3, Verdict::Safe, &ROW_SHEET);
}

#[test]
fn a_trail_is_written() {
    writes(&FORBIDDEN, 3, Verdict::Unsafe, &[2, 0]);
    writes(&LOOP, LOOP_STATES, Verdict::Unsafe, &LOOP_TRAIL);
}

#[test]
fn what_is_written_passes() {
    let mut scratch = dirty(LOOP_STATES);
    let mut out = [DIRT; 64];
    for (model, kind) in [
        (&ROW[..], Kind::Sheet),
        (&FORBIDDEN, Kind::Trail),
        (&LOOP, Kind::Trail),
    ] {
        let written = write_evidence(model, lend(&mut scratch), &mut out).unwrap();
        let evidence = &out[..written.bytes];
        assert_eq!(
            check_evidence(model, evidence, lend(&mut scratch)),
            Ok(kind)
        );
        assert_eq!(written.verdict == Verdict::Unsafe, kind == Kind::Trail);
    }
}

#[test]
fn early_refusals_touch_nothing() {
    let untouched = vec![DIRT; 64];
    let cases = [
        (&LOOP[..45], LOOP_STATES, EndsTooSoon),
        (&[133, 128, 128], 0, NumberTooLong),
        (&[&LOOP[..], &[0]].concat(), LOOP_STATES, BytesRemain),
        (&LOOP, LOOP_STATES - 1, ScratchTooShort),
    ];
    for (model, length, refusal) in cases {
        assert_eq!(
            write(model, length, 64),
            (Err(refusal), untouched.clone(), 0)
        );
    }
}

#[test]
fn the_trail_carries_the_judged_steps() {
    let judgement = Judgement {
        verdict: Verdict::Unsafe,
        states: LOOP_STATES,
        count: 8,
    };
    let mut scratch = dirty(LOOP_STATES);
    assert_eq!(judge(&LOOP, lend(&mut scratch)), Ok(judgement));
    let mut numbers = Numbers::new(&LOOP_TRAIL);
    assert_eq!(numbers.number(), Ok(2));
    assert_eq!(numbers.number(), Ok(judgement.count as u32));
}

/// The least times of the loop plan; what only drift reaches has none, nor has
/// a number that is no location's, however large. 8 comes first.
#[test]
fn least_times() {
    let ask = |location, length| {
        let mut scratch = dirty(length);
        let answer = soonest(&LOOP, location, lend(&mut scratch));
        let zeros = scratch[0].iter().take_while(|&&number| number == 0).count();
        for slice in &scratch {
            assert!(slice[..zeros].iter().all(|&number| number == 0));
            assert!(slice[zeros..].iter().all(|&number| number == DIRT.into()));
        }
        (answer, zeros)
    };
    for (location, units) in [(0, 0), (1, 1), (2, 1)] {
        let answer = ask(location, LOOP_STATES + SPARE);
        assert_eq!(answer, (Ok(units), LOOP_STATES));
    }
    for location in [3, 4, 256, 1 << 32, (1 << 32) + 1, u64::MAX] {
        let answer = ask(location, LOOP_STATES);
        assert_eq!(answer, (Err(Unreached), LOOP_STATES));
        assert_eq!(ask(location, LOOP_STATES - 1), (Err(ScratchTooShort), 0));
    }
}

/// One clock: a loop that resets it at 2, and a way to a forbidden location that
/// opens at 2. A touch saves a step, so the trail without one is longer.
const LATE: [u8; 20] = [1, 1, 2, 2, 2, 0, 0, 0, 1, 0, 0, 0, 1, 2, 2, 0, 1, 0, 2, 2];
const LATE_STATES: usize = 10;

#[test]
fn joint_resets() {
    let mut buffers = Buffers::new(LATE_STATES);
    let judgement = |count| Judgement {
        verdict: Verdict::Unsafe,
        states: LATE_STATES,
        count,
    };
    assert_eq!(judge(&LATE, buffers.lend()), Ok(judgement(4)));
    assert_eq!(judge_joint(&LATE, buffers.lend()), Ok(judgement(5)));
    let mut out = [[DIRT; LATE_STATES]; 2];
    let [full, joint] = &mut out;
    assert_eq!(marks(&LATE, buffers.lend(), full), Ok(LATE_STATES));
    assert_eq!(marks_joint(&LATE, buffers.lend(), joint), Ok(LATE_STATES));
    assert_eq!(full, joint);
    let trail = [2, 5, 0, 0, 0, 0, 1, 1];
    let mut out = [DIRT; 10];
    let written = write_joint(&LATE, buffers.lend(), &mut out).unwrap();
    assert_eq!(out, [&trail[..], &[DIRT; 2]].concat()[..]);
    assert_eq!(written.bytes, trail.len());
    let checked = check_evidence(&LATE, &trail, buffers.lend());
    assert_eq!(checked, Ok(Kind::Trail));
}

/// The loop plan's clocks are reset one by one. 8 comes before 17, and 9 after
/// it; past 8 the scratch is cleared, and the output stays as it was.
#[test]
fn no_joint_reset() {
    for (length, refusal, zeros) in [
        (LOOP_STATES - 1, ScratchTooShort, 0),
        (LOOP_STATES, NotJoint, LOOP_STATES),
    ] {
        let mut out = [DIRT; 5];
        for call in 0..4 {
            let mut scratch = dirty(length);
            let lent = lend(&mut scratch);
            let refused = match call {
                0 => judge_joint(&LOOP, lent).map(drop),
                1 => marks_joint(&LOOP, lent, &mut out).map(drop),
                2 => write_joint(&LOOP, lent, &mut out).map(drop),
                _ => write_joint(&LOOP, lent, &mut []).map(drop),
            };
            assert_eq!(refused, Err(refusal));
            for slice in &scratch {
                assert!(slice[..zeros].iter().all(|&number| number == 0));
                assert!(slice[zeros..].iter().all(|&number| number == DIRT.into()));
            }
        }
        assert_eq!(out, [DIRT; 5]);
    }
    let mut buffers = Buffers::new(LOOP_STATES);
    assert_eq!(judge_joint(&UNRESET, buffers.lend()), Err(ClockUnreset));
}

/// The margins that the proved program prints; a plan with a loop that resets
/// nothing is refused.
#[test]
fn margins() {
    let bound = |states, margin| Ok(Tolerance { states, margin });
    assert_eq!(margin(&LOOP), bound(LOOP_STATES, 40));
    assert_eq!(margin(&ROW), bound(3, 3));
    assert_eq!(margin(&LOOP[..10]), Err(EndsTooSoon));
    assert_eq!(margin(&UNRESET), Err(ClockUnreset));
}

#[test]
fn margins_of_sheets() {
    let mut buffers = Buffers::new(LOOP_STATES);
    let mut margin = |model: &[u8]| sheet_margin(model, buffers.lend());
    let (states, margin_of_row) = (3, 2);
    let safe = SheetMargin::Safe {
        states,
        margin: margin_of_row,
    };
    assert_eq!(margin(&ROW), Ok(safe));
    assert_eq!(margin(&FORBIDDEN), Ok(SheetMargin::Unsafe { states }));
    let states = LOOP_STATES;
    assert_eq!(margin(&LOOP), Ok(SheetMargin::Unsafe { states }));
    assert_eq!(margin(&UNRESET), Err(ClockUnreset));
    let mut few = Buffers::new(LOOP_STATES - 1);
    assert_eq!(sheet_margin(&LOOP, few.lend()), Err(ScratchTooShort));
}

/// The loop plan's trail has three jumps, a touch at top rank 2 and one at
/// top rank 1, whose walks have two jumps each.
#[test]
fn jumps_before_harm() {
    let mut buffers = Buffers::new(LOOP_STATES);
    let mut within = |model: &[u8]| harm(model, buffers.lend());
    assert_eq!(within(&ROW), Ok(Harm::Safe { states: 3 }));
    let at_once = Harm::Within {
        states: 3,
        base: 0,
        rate: 0,
    };
    assert_eq!(within(&FORBIDDEN), Ok(at_once));
    let in_turns = Harm::Within {
        states: LOOP_STATES,
        base: 3 + 2 * 2 * 2 + 2 * 2,
        rate: 9 * 2 + 4 * 2,
    };
    assert_eq!(within(&LOOP), Ok(in_turns));
    assert_eq!(within(&UNRESET), Err(ClockUnreset));
}

/// The shortest form of a plan with padding and a stay field of M+1, into
/// outputs that are too short, just long enough and longer.
#[test]
fn plans_redrawn_short() {
    let padded = [129, 128, 0, 1, 1, 129, 0, 0, 0, 0, 2];
    for room in 0..ROW.len() {
        let mut out = vec![DIRT; room];
        assert_eq!(write_plan(&padded, &mut out), Err(OutputTooShort));
        assert_eq!(out, vec![DIRT; room]);
    }
    for spare in [0, SPARE] {
        let mut out = vec![DIRT; ROW.len() + spare];
        assert_eq!(write_plan(&padded, &mut out), Ok(ROW.len()));
        assert_eq!(out, [&ROW[..], &vec![DIRT; spare]].concat());
    }
    assert_eq!(write_plan(&UNRESET, &mut []), Err(ClockUnreset));
}
