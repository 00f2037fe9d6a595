//! A plan in its other mark: only what a blank stay field means can change, and
//! with it which edges can open.

use crate::alike::{check_alike, judge_alike, marks_alike, plan_alike, write_alike, Judge};
use crate::memory::Lent;
use crate::tally::Tally;
use second::blanks::with_mark;
use second::model::{read_plan, Reading, CEILING_MARK, EDGES_MARK};
use second::program::OUTPUT;
use second::random::Random;
use second::Judgement;

/// Both checkers judge, mark, write and shorten the plan with the other mark
/// alike, and take evidence of the one for the other alike.
pub fn remarked_alike(
    model: &[u8],
    random: &mut Random,
    states: usize,
    tally: &mut Tally,
) -> Result<(), String> {
    let Ok(Reading { mark, .. }) = read_plan(model) else {
        return Ok(());
    };
    let other = with_mark(model, CEILING_MARK + EDGES_MARK - mark).expect("an accepted plan");
    let verdicts =
        [model, &other].map(|plan| judge_alike(Judge::Full, plan, &Lent::enough(random, states)));
    let [one, two] = verdicts;
    let is_unsafe = |judged: Result<Judgement, u8>| judged.map(|judged| judged.is_unsafe);
    tally.remarked(mark, is_unsafe(one?), is_unsafe(two?));
    marks_alike(
        Judge::Full,
        &other,
        &Lent::near(random, states),
        states,
        random,
    )?
    .ok();
    tally.shortened(&other, &plan_alike(&other, other.len(), random)?);
    for (written, asked) in [(model, &other[..]), (&other[..], model)] {
        let lent = Lent::enough(random, states);
        let Ok((_, evidence)) = write_alike(Judge::Full, written, &lent, OUTPUT, random)? else {
            continue;
        };
        let label = "of the other mark";
        tally.checked(
            label,
            check_alike(asked, &evidence, &Lent::near(random, states))?,
        );
    }
    Ok(())
}
