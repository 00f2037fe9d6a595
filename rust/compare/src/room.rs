//! The room told beforehand: by both checkers alike, and lent. With just so much
//! no call is refused for room but a writer for the bytes of its trail; with one
//! slice shorter every call that is lent scratch is refused by 8.

use crate::alike::{check_alike, harm_alike, judge_alike, marks_alike, same, sheet_margin_alike};
use crate::alike::{soonest_alike, write_alike, Judge};
use crate::memory::Lent;
use crate::tally::Tally;
use second::random::Random;
use second::refusal::{OUTPUT_TOO_SHORT, SCRATCH_TOO_SHORT};
use second::Room;

/// What each call that is lent scratch returns: 0 or its refusal.
type Numbers = Vec<(&'static str, u8)>;

/// The room of the model, or its refusal; and what comes of lending it.
pub fn room_alike(
    model: &[u8],
    random: &mut Random,
    tally: &mut Tally,
) -> Result<Result<Room, u8>, String> {
    let copy = model.to_vec();
    let got = drift::room(&copy).map_err(drift::Refusal::number);
    let got = got.map(|room| Room {
        states: room.states,
        scratch: room.scratch,
        sheet: room.sheet,
        steps: room.steps,
    });
    let told = same(second::room(model), got)?;
    if model != copy {
        return Err("the model was changed".into());
    }
    tally.room(&told);
    if let Ok(room) = &told {
        just_enough(model, room, random)?;
        one_shorter(model, room, random)?;
    }
    Ok(told)
}

/// What the check says; no sheet that passes is longer than the limit told.
pub fn within_limit(
    told: &Result<Room, u8>,
    evidence: &[u8],
    checked: Result<u32, u8>,
    tally: &mut Tally,
) -> Result<Result<u32, u8>, String> {
    if let (Ok(room), Ok(1)) = (told, checked) {
        tally.limit(room, evidence.len());
        if evidence.len() > room.sheet {
            return Err(format!(
                "a sheet of {} bytes, told {room:?}",
                evidence.len()
            ));
        }
    }
    Ok(checked)
}

fn just_enough(model: &[u8], room: &Room, random: &mut Random) -> Result<(), String> {
    let lent = Lent::enough(random, room.scratch);
    let judged = judge_alike(Judge::Full, model, &lent)?
        .map_err(|refusal| format!("refused {refusal} with the scratch told"))?;
    if judged.states != room.states || judged.is_unsafe && judged.count > room.steps {
        return Err(format!("told {room:?}, judged {judged:?}"));
    }
    for (call, number) in numbers(model, &lent, room.sheet, random)? {
        let too_short = number == OUTPUT_TOO_SHORT && !judged.is_unsafe;
        if number == SCRATCH_TOO_SHORT || too_short {
            return Err(format!("{call}: refused {number} with the room told"));
        }
    }
    let quicker = judge_alike(Judge::Joint, model, &lent)?;
    if quicker.is_ok_and(|judged| judged.is_unsafe && judged.count > room.steps) {
        return Err(format!("told {room:?}, judged {quicker:?}"));
    }
    a_byte_less(model, room, &lent, random)
}

/// A sheet as long as the limit gets 9 with a byte less, and no other does.
fn a_byte_less(model: &[u8], room: &Room, lent: &Lent, random: &mut Random) -> Result<(), String> {
    let Ok((false, sheet)) = write_alike(Judge::Full, model, lent, room.sheet, random)? else {
        return Ok(());
    };
    let written = write_alike(Judge::Full, model, lent, room.sheet - 1, random)?;
    if (written == Err(OUTPUT_TOO_SHORT)) != (sheet.len() == room.sheet) {
        return Err(format!("told {room:?}, a byte less gives {written:?}"));
    }
    Ok(())
}

/// One slice has a number less, or any number less.
fn one_shorter(model: &[u8], room: &Room, random: &mut Random) -> Result<(), String> {
    let less = if random.one_in(2) {
        room.scratch - 1
    } else {
        random.below(room.scratch)
    };
    let mut lengths = [room.scratch; 4];
    lengths[random.below(4)] = less;
    let lent = Lent::of(random, lengths);
    for (call, number) in numbers(model, &lent, room.sheet, random)? {
        if number != SCRATCH_TOO_SHORT {
            return Err(format!("{call}: {number} with scratch {lengths:?}"));
        }
    }
    Ok(())
}

/// Each call once, in both checkers, with this scratch and so much output.
fn numbers(
    model: &[u8],
    lent: &Lent,
    output: usize,
    random: &mut Random,
) -> Result<Numbers, String> {
    let location = random.below(9) as u64;
    let evidence = [1 + random.below(2) as u8, random.bits() as u8];
    let mut numbers = vec![
        ("margin", number(sheet_margin_alike(model, lent)?)),
        ("harm", number(harm_alike(model, lent)?)),
        ("soonest", number(soonest_alike(model, location, lent)?)),
        ("check", number(check_alike(model, &evidence, lent)?)),
    ];
    for judge in [Judge::Full, Judge::Joint] {
        numbers.push(("judge", number(judge_alike(judge, model, lent)?)));
        let marked = marks_alike(judge, model, lent, output, random)?;
        numbers.push(("marks", number(marked)));
        let written = write_alike(judge, model, lent, output, random)?;
        numbers.push(("evidence", number(written)));
    }
    Ok(numbers)
}

fn number<T>(answer: Result<T, u8>) -> u8 {
    answer.err().unwrap_or(0)
}
