//! Plans in shortest form: by both checkers, from other spellings, and again.

use crate::alike::plan_alike;
use crate::memory::rooms;
use crate::tally::Tally;
use second::generate::respelled;
use second::random::Random;

/// So many bytes are to spare in the longest output.
const SPARE: usize = 5;

/// Both checkers write the same into outputs that are a byte short, just long
/// enough and longer. Another spelling of the plan gives the same bytes, and
/// so do these; no spelling met is shorter.
pub fn plans_alike(model: &[u8], random: &mut Random, tally: &mut Tally) -> Result<(), String> {
    let Ok(read) = second::read_plan(model) else {
        for room in rooms(random, 0) {
            tally.shortened(model, &plan_alike(model, room, random)?);
        }
        return Ok(());
    };
    let need = second::shortest_plan::shortest_plan(&read).len();
    for room in [need - 1, need, need + SPARE, random.below(need)] {
        tally.shortened(model, &plan_alike(model, room, random)?);
    }
    let shortest = plan_alike(model, model.len(), random)?
        .map_err(|refusal| format!("refused {refusal} with an output as long as the plan"))?;
    let other = respelled(random, model).expect("an accepted model");
    for again in [&other, &shortest] {
        if plan_alike(again, again.len(), random)? != Ok(shortest.clone()) {
            return Err(format!("of {again:?} it is not {shortest:?}"));
        }
    }
    Ok(())
}
