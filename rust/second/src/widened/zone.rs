//! Zones: clock values by bounds on their differences, a difference bound
//! matrix, in units of 1/D.

use crate::limits::MAX_CLOCKS;

/// Row 0 for the value 0, then one for each clock, and one more for a clock
/// that tells the time since the start.
const ROWS: usize = MAX_CLOCKS + 2;

/// Above all bounds; a sum of two stays within range.
const FREE: i64 = i64::MAX / 2;

fn row(clock: usize) -> usize {
    clock + 1
}

#[derive(Clone, Copy)]
pub struct Zone {
    clocks: usize,
    /// Row i is at most bound[i][j] above row j. The rows of clocks that there
    /// are not stay 0.
    bound: [[i64; ROWS]; ROWS],
}

impl Zone {
    /// All clocks 0.
    pub fn zero(clocks: usize) -> Zone {
        let bound = [[0; ROWS]; ROWS];
        Zone { clocks, bound }
    }

    /// Lets any time pass. The bounds must be tight, and stay so.
    pub fn wait(&mut self) {
        for clock in 0..self.clocks {
            self.bound[row(clock)][0] = FREE;
        }
    }

    pub fn cut_above(&mut self, clock: usize, most: i64) {
        let bound = &mut self.bound[row(clock)][0];
        *bound = most.min(*bound);
    }

    pub fn cut_below(&mut self, clock: usize, least: i64) {
        let bound = &mut self.bound[0][row(clock)];
        *bound = (-least).min(*bound);
    }

    /// Sets the clocks of the mask to 0. The bounds must be tight, and stay so.
    pub fn reset(mut self, mask: u8) -> Zone {
        for clock in (0..self.clocks).filter(|clock| mask >> clock & 1 == 1) {
            for other in 0..=self.clocks {
                self.bound[row(clock)][other] = self.bound[0][other];
                self.bound[other][row(clock)] = self.bound[other][0];
            }
        }
        self
    }

    /// Each bound as tight as the others make it; none if no values are left.
    pub fn tightened(mut self) -> Option<Zone> {
        for via in 0..=self.clocks {
            for from in 0..=self.clocks {
                for to in 0..=self.clocks {
                    let round = self.bound[from][via] + self.bound[via][to];
                    self.bound[from][to] = round.min(self.bound[from][to]);
                }
            }
        }
        let is_empty = (0..=self.clocks).any(|row| self.bound[row][row] < 0);
        (!is_empty).then_some(self)
    }

    /// Whether all values of another zone, whose bounds are tight, are in this.
    pub fn contains(&self, other: &Zone) -> bool {
        let bounds = self.bound.iter().flatten();
        let mut pairs = bounds.zip(other.bound.iter().flatten());
        pairs.all(|(own, its)| its <= own)
    }

    /// What of it has these values of clocks.
    pub fn fixed(mut self, values: impl Iterator<Item = (usize, i64)>) -> Option<Zone> {
        for (clock, value) in values {
            self.cut_above(clock, value);
            self.cut_below(clock, value);
        }
        self.tightened()
    }

    /// Values of all clocks in it: the least of the last, then of those before.
    pub fn least(&self) -> Vec<i64> {
        let mut rest = *self;
        let mut values = vec![0; self.clocks];
        for clock in (0..self.clocks).rev() {
            values[clock] = -rest.bound[0][row(clock)];
            let least = [(clock, values[clock])];
            rest = rest
                .fixed(least.into_iter())
                .expect("tight bounds are reached");
        }
        values
    }

    /// Values in it from which the shortest wait leads to the given ones, which
    /// some wait leads to.
    pub fn before_wait(&self, values: &[i64]) -> Vec<i64> {
        let above = |(clock, value): (usize, &i64)| value - self.bound[row(clock)][0];
        let wait = values.iter().enumerate().map(above).max();
        let wait = wait.unwrap_or(0).max(0);
        values.iter().map(|value| value - wait).collect()
    }
}

#[cfg(test)]
mod tests {
    use super::*;

    #[test]
    fn values() {
        let (x, y) = (0, 1);
        let mut zone = Zone::zero(2);
        zone.wait();
        zone.cut_below(x, 3);
        zone.cut_above(x, 5);
        let late = zone.tightened().unwrap();
        assert_eq!(late.least(), [3, 3]);
        // From the reset on x lags behind y by 3 to 5.
        let reset = late.reset(1 << x);
        assert_eq!(reset.least(), [0, 3]);
        let mut later = reset;
        later.wait();
        let later = later.fixed([(y, 7)].into_iter()).unwrap();
        assert_eq!(later.least(), [2, 7]);
        assert_eq!(reset.before_wait(&[2, 7]), [0, 5]);
        assert!(late.fixed([(y, 6)].into_iter()).is_none());
    }
}
