//! The least times of all locations, compared in both checkers.

use crate::alike::soonest_alike;
use crate::memory::Lent;
use crate::tally::Tally;
use second::random::Random;

const MOST_LOCATIONS: u64 = 8;

/// As many locations as a plan can have, and numbers that are none of them:
/// among them those that a cut to fewer bits would take for one.
fn locations(random: &mut Random) -> impl Iterator<Item = u64> {
    let real = random.below(MOST_LOCATIONS as usize) as u64;
    let cut = [8, 16, 32].map(|bits| real + (1 << bits));
    (0..=MOST_LOCATIONS)
        .chain(cut)
        .chain([random.bits(), u64::MAX])
}

/// Both answer alike for every location, each time with scratch of its own.
pub fn soonest_all_alike(
    model: &[u8],
    random: &mut Random,
    states: usize,
    tally: &mut Tally,
) -> Result<(), String> {
    for location in locations(random) {
        let lent = Lent::near(random, states);
        let answer = soonest_alike(model, location, &lent)
            .map_err(|what| format!("soonest {location}: {what}"))?;
        tally.soonest(&answer);
    }
    Ok(())
}
