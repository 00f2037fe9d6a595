//! One call of each checker, with answers and memory compared.

use crate::memory::{Lent, Output};
use second::harm::Bound;
use second::random::Random;
use second::{Harm, SheetMargin};
use std::fmt::Debug;

/// A judge with its marks and its evidence writer.
#[derive(Clone, Copy)]
pub enum Judge {
    Full,
    /// The quicker one, which takes just the plans with a joint reset.
    Joint,
}

/// The number of states, where a call gets past refusal 8: the scratch is
/// left at zero there, whatever the answer is.
fn past_eight(model: &[u8], lengths: [usize; 4]) -> Option<usize> {
    let states = second::calls::states_of(&second::read_model(model).ok()?);
    let enough = lengths.iter().all(|&length| states <= length);
    enough.then_some(states)
}

/// A call of the library that is lent scratch alone. The copy tells whether
/// it left the model, which it may only read.
fn call<T>(
    model: &[u8],
    lent: &Lent,
    call: impl FnOnce(&[u8], drift::Scratch) -> Result<T, drift::Refusal>,
) -> Result<Result<T, u8>, String> {
    let copy = model.to_vec();
    let zeroed = past_eight(model, lent.lengths());
    let got = lent.run(|scratch| call(&copy, scratch), zeroed)?;
    if model != copy {
        return Err("the model was changed".into());
    }
    Ok(got.map_err(drift::Refusal::number))
}

/// What both answer.
pub fn same<T: PartialEq + Debug>(wanted: T, got: T) -> Result<T, String> {
    if wanted == got {
        Ok(wanted)
    } else {
        Err(format!("wanted {wanted:?}, got {got:?}"))
    }
}

pub fn judge_alike(
    judge: Judge,
    model: &[u8],
    lent: &Lent,
) -> Result<Result<second::Judgement, u8>, String> {
    let (got, wanted) = match judge {
        Judge::Full => (
            call(model, lent, drift::judge)?,
            second::judge(model, lent.lengths()),
        ),
        Judge::Joint => (
            call(model, lent, drift::judge_joint)?,
            second::judge_joint(model, lent.lengths()),
        ),
    };
    let got = got.map(|got| second::Judgement {
        is_unsafe: got.verdict == drift::Verdict::Unsafe,
        states: got.states,
        count: got.count,
    });
    same(wanted, got)
}

pub fn sheet_margin_alike(model: &[u8], lent: &Lent) -> Result<Result<SheetMargin, u8>, String> {
    let got = call(model, lent, drift::sheet_margin)?;
    let got = got.map(|got| match got {
        drift::SheetMargin::Safe { states, margin } => SheetMargin::Safe { states, margin },
        drift::SheetMargin::Unsafe { states } => SheetMargin::Unsafe { states },
    });
    same(second::sheet_margin(model, lent.lengths()), got)
}

pub fn harm_alike(model: &[u8], lent: &Lent) -> Result<Result<Harm, u8>, String> {
    let got = call(model, lent, drift::harm)?;
    let got = got.map(|got| match got {
        drift::Harm::Safe { states } => Harm::Safe { states },
        drift::Harm::Within { states, base, rate } => Harm::Within {
            states,
            bound: Bound { base, rate },
        },
    });
    same(second::harm(model, lent.lengths()), got)
}

pub fn soonest_alike(model: &[u8], location: u64, lent: &Lent) -> Result<Result<u64, u8>, String> {
    let got = call(model, lent, |model, scratch| {
        drift::soonest(model, location, scratch)
    })?;
    same(second::soonest(model, location, lent.lengths()), got)
}

/// The marks, or the refusal.
pub fn marks_alike(
    judge: Judge,
    model: &[u8],
    lent: &Lent,
    room: usize,
    random: &mut Random,
) -> Result<Result<Vec<u8>, u8>, String> {
    let mut wanted_output = Output::new(random, room);
    let mut got_output = wanted_output.clone();
    let wanted = match judge {
        Judge::Full => second::marks(model, lent.lengths(), wanted_output.lent()),
        Judge::Joint => second::marks_joint(model, lent.lengths(), wanted_output.lent()),
    };
    let zeroed = past_eight(model, lent.lengths());
    let call = |scratch: drift::Scratch| match judge {
        Judge::Full => drift::marks(model, scratch, got_output.lent()),
        Judge::Joint => drift::marks_joint(model, scratch, got_output.lent()),
    };
    let got = lent
        .run(call, zeroed)
        .map_err(|error| format!("marks: {error}"))?
        .map_err(drift::Refusal::number);
    if wanted != got {
        return Err(format!("marks: wanted {wanted:?}, got {got:?}"));
    }
    if wanted_output != got_output {
        return Err("marks: outputs differ".into());
    }
    Ok(got.map(|states| got_output.lent()[..states].to_vec()))
}

/// The verdict (true for unsafe) with the bytes written, or the refusal.
pub fn write_alike(
    judge: Judge,
    model: &[u8],
    lent: &Lent,
    room: usize,
    random: &mut Random,
) -> Result<Result<(bool, Vec<u8>), u8>, String> {
    let mut wanted_output = Output::new(random, room);
    let mut got_output = wanted_output.clone();
    let wanted = match judge {
        Judge::Full => second::write_evidence(model, lent.lengths(), wanted_output.lent()),
        Judge::Joint => second::write_joint(model, lent.lengths(), wanted_output.lent()),
    };
    let zeroed = past_eight(model, lent.lengths());
    let model_copy = model.to_vec();
    let call = |scratch: drift::Scratch| match judge {
        Judge::Full => drift::write_evidence(&model_copy, scratch, got_output.lent()),
        Judge::Joint => drift::write_joint(&model_copy, scratch, got_output.lent()),
    };
    let got = lent
        .run(call, zeroed)
        .map_err(|error| format!("evidence: wanted {wanted:?}, {error}"))?
        .map_err(drift::Refusal::number);
    let is_unsafe = |written: drift::Written| written.verdict == drift::Verdict::Unsafe;
    if wanted != got.map(|written| (is_unsafe(written), written.bytes)) {
        return Err(format!("evidence: wanted {wanted:?}, got {got:?}"));
    }
    if wanted_output != got_output {
        return Err("evidence: outputs differ".into());
    }
    if model != model_copy {
        return Err("evidence: the model was changed".into());
    }
    Ok(got.map(|written| {
        (
            is_unsafe(written),
            got_output.lent()[..written.bytes].to_vec(),
        )
    }))
}

/// The shortest form of a plan, or the refusal.
pub fn plan_alike(
    model: &[u8],
    room: usize,
    random: &mut Random,
) -> Result<Result<Vec<u8>, u8>, String> {
    let mut wanted_output = Output::new(random, room);
    let mut got_output = wanted_output.clone();
    let copy = model.to_vec();
    let wanted = second::write_plan(model, wanted_output.lent());
    let got = drift::write_plan(&copy, got_output.lent()).map_err(drift::Refusal::number);
    let bytes = same(wanted, got)?;
    if wanted_output != got_output {
        return Err("outputs differ".into());
    }
    if model != copy {
        return Err("the model was changed".into());
    }
    Ok(bytes.map(|bytes| got_output.lent()[..bytes].to_vec()))
}

/// All numbers that bytes spell, up to a refusal, at which both readers stay.
pub fn numbers_alike(bytes: &[u8]) -> Result<(), String> {
    let mut numbers = drift::Numbers::new(bytes);
    let mut place = 0;
    loop {
        let wanted = second::spelled_at(bytes, place)
            .map(|number| (number.value, number.next, number.padded));
        let next = wanted.map_or(place, |(_, next, _)| next);
        // The second time at a refusal tells whether it stays.
        for _ in 0..if wanted.is_ok() { 1 } else { 2 } {
            let number = numbers
                .spelled()
                .map(|number| (number.value, number.next, number.padded))
                .map_err(drift::Refusal::number);
            let got = (number, numbers.place());
            if (wanted, next) != got {
                return Err(format!("number at {place}: wanted {wanted:?}, got {got:?}"));
            }
        }
        if wanted.is_err() {
            return Ok(());
        }
        place = next;
    }
}

/// 1 or 2 for what passes, or the refusal.
pub fn check_alike(model: &[u8], evidence: &[u8], lent: &Lent) -> Result<Result<u32, u8>, String> {
    let wanted = second::check_evidence(model, evidence, lent.lengths());
    let zeroed = past_eight(model, lent.lengths());
    // The copies tell whether the call left what it may only read.
    let (model_copy, evidence_copy) = (model.to_vec(), evidence.to_vec());
    let got = lent
        .run(
            |scratch| drift::check_evidence(&model_copy, &evidence_copy, scratch),
            zeroed,
        )
        .map_err(|error| format!("check: wanted {wanted:?}, {error}"))?
        .map_err(drift::Refusal::number);
    let kind = got.map(|kind| match kind {
        drift::Kind::Sheet => 1,
        drift::Kind::Trail => 2,
    });
    if wanted != kind {
        return Err(format!("check: wanted {wanted:?}, got {got:?}"));
    }
    if (model, evidence) != (&model_copy, &evidence_copy) {
        return Err("check: the bytes were changed".into());
    }
    Ok(wanted)
}
