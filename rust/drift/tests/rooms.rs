//! The room told for every plan of crates/cases, lent: just so much is enough, and
//! one less is not.

use drift::{Buffers, Refusal, Room, Verdict};

const CASES: &str = include_str!("../../../crates/cases/stdin");

/// The plans: their bytes stand on the line after one that begins with a dash.
fn plans() -> impl Iterator<Item = Vec<u8>> {
    let mut lines = CASES.lines();
    std::iter::from_fn(move || {
        lines.find(|line| line.starts_with('-'))?;
        let bytes = lines.next().expect("the bytes of a plan").split(',');
        let bytes = bytes.filter(|word| !word.is_empty());
        Some(bytes.map(|word| word.parse().expect("a byte")).collect())
    })
}

/// The verdict, and how many bytes the evidence of each writer takes that serves;
/// or the refusal for room.
fn judged(model: &[u8], room: &Room, output: usize) -> Result<(Verdict, Vec<usize>), Refusal> {
    let mut buffers = Buffers::new(room.scratch);
    let judgement = drift::judge(model, buffers.lend())?;
    assert_eq!(judgement.states, room.states);
    let is_unsafe = judgement.verdict == Verdict::Unsafe;
    assert!(!is_unsafe || judgement.count <= room.steps);
    let mut out = vec![0; output];
    let full = drift::write_evidence(model, buffers.lend(), &mut out);
    let quicker = match drift::write_joint(model, buffers.lend(), &mut out) {
        Err(Refusal::NotJoint) => None,
        answer => Some(answer),
    };
    let written = [full].into_iter().chain(quicker);
    let bytes = written.map(|answer| answer.map(|written| written.bytes));
    Ok((judgement.verdict, bytes.collect::<Result<_, _>>()?))
}

#[test]
fn just_so_much_is_enough() {
    let [mut safe, mut at_limit, mut longer] = [0; 3];
    for model in plans() {
        let Ok(room) = drift::room(&model) else {
            continue;
        };
        match judged(&model, &room, room.sheet) {
            Ok((Verdict::Safe, bytes)) => {
                safe += 1;
                let is_longest = bytes[0] == room.sheet;
                at_limit += usize::from(is_longest);
                let less = judged(&model, &room, room.sheet - 1);
                assert_eq!(less.err(), is_longest.then_some(Refusal::OutputTooShort));
            }
            Ok((Verdict::Unsafe, _)) => {}
            // The bytes of a trail are not told beforehand.
            Err(Refusal::OutputTooShort) => {
                let verdict = judged(&model, &room, 1 << 20).map(|(verdict, _)| verdict);
                assert_eq!(verdict, Ok(Verdict::Unsafe), "{model:?}");
                longer += 1;
            }
            Err(refusal) => panic!("{model:?}: {refusal}"),
        }
    }
    println!("safe {safe}, as long as the limit {at_limit}; trails that are longer {longer}");
    assert!(safe >= 100 && at_limit >= 50 && at_limit < safe && longer >= 1);
}

#[test]
fn a_number_less_of_scratch_is_not() {
    for model in plans() {
        let Ok(room) = drift::room(&model) else {
            continue;
        };
        let less = Room {
            scratch: room.scratch - 1,
            ..room
        };
        let refused = judged(&model, &less, room.sheet).err();
        assert_eq!(refused, Some(Refusal::ScratchTooShort), "{model:?}");
    }
}

/// Every call refuses these plans alike; nothing is lent.
#[test]
fn refused_plans_get_their_number() {
    let mut refused = 0;
    for model in plans() {
        if let Err(refusal) = drift::room(&model) {
            let judged = drift::judge(&model, Buffers::new(0).lend());
            assert_eq!(judged, Err(refusal), "{model:?}");
            assert!(refusal.number() <= 7);
            refused += 1;
        }
    }
    assert!(refused >= 50);
}
