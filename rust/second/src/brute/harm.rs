//! The harm of our trail, from the numbers that spell it.

use super::Brute;

impl Brute {
    /// Base and rate of the trail we write for an unsafe model.
    pub fn harm(&self) -> (u64, u64) {
        let trail = self.trail();
        let mut numbers = trail.into_iter();
        let mut next = || numbers.next().expect("the trail goes on");
        assert_eq!(next(), 2);
        let (mut base, mut rate) = (0, 0);
        for _ in 0..next() {
            match next() {
                0 => {}
                1 => {
                    next();
                    base += 1;
                }
                2 => {
                    top_rank(self.plan.clocks, &mut next);
                }
                _ => {
                    let g = top_rank(self.plan.clocks, &mut next);
                    let jumps = walk_jumps(&mut next);
                    base += 2 * g * jumps;
                    rate += (g + 1) * (g + 1) * jumps;
                }
            }
        }
        assert_eq!(numbers.next(), None);
        (base, rate)
    }
}

/// The greatest rank of a region: whole parts first, then ranks.
fn top_rank(clocks: usize, next: &mut impl FnMut() -> u32) -> u64 {
    let numbers: Vec<u32> = (0..2 * clocks).map(|_| next()).collect();
    let ranks = &numbers[clocks..];
    u64::from(*ranks.iter().max().expect("a clock"))
}

/// The jumps of a walk, which its count comes before.
fn walk_jumps(next: &mut impl FnMut() -> u32) -> u64 {
    let mut jumps = 0;
    for _ in 0..next() {
        if next() == 1 {
            next();
            jumps += 1;
        }
    }
    jumps
}
