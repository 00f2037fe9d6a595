//! The quicker judge, compared in both checkers, and with the full one.

use crate::alike::{check_alike, judge_alike, marks_alike, write_alike, Judge};
use crate::memory::{length_near, rooms, Lent};
use crate::tally::Tally;
use second::random::Random;

/// Output for the evidence of a plan that is taken.
const ROOM: usize = 1 << 17;

/// Both answer alike, whatever is lent; and where they take the plan, verdict,
/// marks and sheet are the full judge's, and a trail passes the check.
pub fn joint_alike(
    model: &[u8],
    random: &mut Random,
    states: usize,
    tally: &mut Tally,
) -> Result<(), String> {
    judge_alike(Judge::Joint, model, &Lent::near(random, states))?.ok();
    let (lent, room) = (Lent::near(random, states), length_near(random, states));
    marks_alike(Judge::Joint, model, &lent, room, random)?.ok();
    let enough = Lent::enough(random, states);
    let judged = judge_alike(Judge::Joint, model, &enough)?;
    let full = judge_alike(Judge::Full, model, &enough)?;
    tally.joint(&judged, &full);
    let (Ok(judged), Ok(full)) = (judged, full) else {
        let room = random.below(states + 2);
        let lent = Lent::near(random, states);
        write_alike(Judge::Joint, model, &lent, room, random)?.ok();
        return Ok(());
    };
    let fewer = judged.is_unsafe && judged.count < full.count;
    if (judged.is_unsafe, judged.states) != (full.is_unsafe, full.states) || fewer {
        return Err(format!("{judged:?}, the full judge {full:?}"));
    }
    let marks =
        [Judge::Joint, Judge::Full].map(|judge| marks_alike(judge, model, &enough, states, random));
    if marks[0] != marks[1] {
        return Err("the marks are not the full judge's".into());
    }
    evidence_alike(model, random, states, &enough)
}

/// The evidence into outputs that are too short, just enough and longer.
fn evidence_alike(
    model: &[u8],
    random: &mut Random,
    states: usize,
    enough: &Lent,
) -> Result<(), String> {
    let taken = |refusal| format!("refused {refusal} with room for the evidence");
    let (is_unsafe, ours) =
        write_alike(Judge::Joint, model, enough, ROOM, random)?.map_err(taken)?;
    for room in rooms(random, ours.len()) {
        let lent = Lent::near(random, states);
        write_alike(Judge::Joint, model, &lent, room, random)?.ok();
    }
    let wanted = if is_unsafe { 2 } else { 1 };
    let checked = check_alike(model, &ours, enough)?;
    if checked != Ok(wanted) {
        return Err(format!("what is written gets {checked:?}"));
    }
    if !is_unsafe && write_alike(Judge::Full, model, enough, ROOM, random)? != Ok((false, ours)) {
        return Err("the sheet is not the full judge's".into());
    }
    Ok(())
}
