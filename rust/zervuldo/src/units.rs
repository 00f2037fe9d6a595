//! Real units: the drift that a plan's crystals and bit rate make, beside the
//! margin of a safe plan, and as jumps and time before harm of an unsafe one.
//!
//! docs/DRIFT.md argues how a crystal's error becomes a drift; that is not
//! proved. Whole numbers alone are compared, so no rounding hides a slip.

use crate::facts::{Perfect, Safe, Unsafe};
use crate::pace::least_units;
use crate::text::counted;
use plan::units::Quantity;
use plan::{Plan, Units};

/// Thousandths of a millionth in one, and nanoseconds in a second.
const BILLION: u128 = 1_000_000_000;

/// A drift of e/D of a unit.
#[derive(Clone, Copy, Debug, PartialEq, Eq)]
pub struct Drift {
    pub e: u128,
    pub d: u128,
}

impl Drift {
    /// What the plan's crystals and bit rate make; none where it names
    /// neither, or a bit rate without the length of a unit.
    pub fn of(plan: &Plan) -> Option<Drift> {
        let Units {
            crystal, bit_rate, ..
        } = plan.units;
        if crystal.is_none() && bit_rate.is_none() {
            return None;
        }
        Drift::with_crystals(plan, crystal.unwrap_or(0))
    }

    /// The same with crystals of another error: ceiling * p / (1 - p), and one
    /// bit if there is a bit rate.
    fn with_crystals(plan: &Plan, error: u64) -> Option<Drift> {
        let error = u128::from(error);
        let (e, d) = (u128::from(plan.ceiling) * error, BILLION - error);
        let Some(rate) = plan.units.bit_rate else {
            return Some(Drift { e, d }.reduced());
        };
        let bits = u128::from(rate) * u128::from(plan.units.unit?);
        let late = Drift {
            e: e * bits + BILLION * d,
            d: d * bits,
        };
        Some(late.reduced())
    }

    /// The same in least numbers.
    fn reduced(self) -> Drift {
        let (mut one, mut other) = (self.d, self.e);
        while other != 0 {
            (one, other) = (other, one % other);
        }
        Drift {
            e: self.e / one,
            d: self.d / one,
        }
    }

    /// Whether a plan with this margin takes no harm of it, ever. A product
    /// that has no room is above every D.
    pub fn is_harmless(self, margin: u32) -> bool {
        let times = u128::from(margin).checked_mul(self.e);
        times.is_some_and(|times| times < self.d)
    }

    /// The least q with a drift of at least 1/q.
    pub fn part(self) -> u128 {
        self.d.div_ceil(self.e)
    }

    pub fn words(self) -> String {
        format!("{} of a unit", significant(self.e as f64 / self.d as f64))
    }
}

/// The crystals and the bit rate that a plan names, and their drift.
pub fn drift_words(plan: &Plan) -> Option<String> {
    let drift = Drift::of(plan)?;
    let part = |quantity: Quantity| {
        let value = plan.units.get(quantity)?;
        Some(format!("{} {}", quantity.name(), quantity.written(value)))
    };
    let parts = [Quantity::Crystal, Quantity::BitRate].map(part);
    let named: Vec<String> = parts.into_iter().flatten().collect();
    let (named, ceiling) = (named.join(", "), plan.ceiling);
    Some(format!(
        "{named}, ceiling {ceiling}: drift {}",
        drift.words()
    ))
}

/// The greatest error of crystals, in thousandths of a millionth, that a plan
/// with this margin takes no harm of; none if the bit rate alone is too slow.
pub fn greatest_error(plan: &Plan, margin: u32) -> Option<u64> {
    let is_harmless = |error: u64| {
        Drift::with_crystals(plan, error).is_some_and(|drift| drift.is_harmless(margin))
    };
    let (mut harmless, mut harmful) = (0, BILLION as u64);
    if !is_harmless(1) {
        return None;
    }
    while harmful - harmless > 1 {
        let middle = harmless + (harmful - harmless) / 2;
        if is_harmless(middle) {
            harmless = middle;
        } else {
            harmful = middle;
        }
    }
    Some(harmless)
}

/// What the margin of a safe plan says of the crystals that it names, or else
/// of those that it could have.
pub fn margin_words(plan: &Plan, safe: &Safe) -> String {
    let most = greatest_error(plan, safe.margin).map(|error| Quantity::Crystal.written(error));
    let Some(most) = most else {
        return "NOT shown harmless: at this bit rate no crystal is good enough".to_string();
    };
    match Drift::of(plan) {
        None => format!("good to {most} or better they are harmless for ever"),
        Some(drift) if drift.is_harmless(safe.margin) => {
            format!("harmless for ever; so is all that is good to {most} or better")
        }
        Some(_) => format!(
            "NOT shown harmless: the drift is not below 1/{}; good to {most} or better they are",
            safe.margin
        ),
    }
}

/// When drift does harm: the jumps, and the time that they take.
#[derive(Clone, Copy, Debug, PartialEq, Eq)]
pub struct Window {
    /// No run with fewer jumps does harm, where perfect clocks do none.
    pub least: Option<u128>,
    /// Some run of at most so many jumps does.
    pub most: u128,
    /// In nanoseconds, where the length of a unit is known; no least time
    /// where jumps can follow each other in no time.
    pub least_time: Option<u128>,
    pub most_time: Option<u128>,
}

impl Window {
    /// The window at the drift of the plan's crystals, if it names any.
    pub fn of(plan: &Plan, danger: &Unsafe) -> Option<Window> {
        let part = Drift::of(plan)?.part();
        let clean = danger.perfect == Perfect::Clean;
        let least = clean.then(|| part - 1);
        let within = danger.within(plan);
        let most = u128::from(within.rate)
            .saturating_mul(part)
            .saturating_add(within.base.into());
        Some(Window {
            least,
            most,
            least_time: least
                .and_then(|jumps| least_units(plan, jumps))
                .and_then(|units| nanoseconds(plan, units))
                .map(|time| lessened(time, part))
                .filter(|time| *time > 0),
            most_time: nanoseconds(plan, most.saturating_mul(plan.ceiling.into()))
                .map(|time| time.saturating_add(time / part + 1)),
        })
    }

    pub fn jump_words(&self) -> String {
        let most = format!("some run of at most {} does", grouped(self.most));
        match self.least {
            Some(least) => {
                let least = grouped(least);
                format!("no run of fewer than {least} jumps does harm, and {most}")
            }
            None => format!("{most} harm"),
        }
    }

    /// The same in time, where the length of a unit is known.
    pub fn time_words(&self) -> Option<String> {
        let most = time_words(self.most_time?, Round::Up);
        Some(match self.least_time {
            Some(least) => {
                let least = time_words(least, Round::Down);
                format!("not before {least}; {most} are enough")
            }
            None => format!("{most} are enough; with drift no least time is known"),
        })
    }
}

/// A least time by whole limits, less what drift takes off each of them. The
/// drift is below 1/(part - 1).
fn lessened(time: u128, part: u128) -> u128 {
    match part {
        0..=2 => 0,
        part => time - time.div_ceil(part - 1),
    }
}

#[derive(Clone, Copy, Debug, PartialEq, Eq)]
pub enum Round {
    Down,
    Near,
    Up,
}

/// Measures of time in nanoseconds, with the least time that is told in them.
const TIMES: [(&str, u128, u128); 8] = [
    ("years", 31_557_600 * BILLION, 63_115_200 * BILLION),
    ("days", 86_400 * BILLION, 172_800 * BILLION),
    ("hours", 3_600 * BILLION, 7_200 * BILLION),
    ("minutes", 60 * BILLION, 120 * BILLION),
    ("s", BILLION, BILLION),
    ("ms", BILLION / 1_000, BILLION / 1_000),
    ("us", 1_000, 1_000),
    ("ns", 1, 0),
];

/// A time of so many nanoseconds, in a measure that fits, with one decimal
/// where that still tells something.
pub fn time_words(nanoseconds: u128, round: Round) -> String {
    let fitting = TIMES.iter().find(|(_, _, least)| nanoseconds >= *least);
    let (measure, one, _) = fitting.expect("the last measure fits every time");
    let is_short = nanoseconds < 100 * one && *one > 1;
    let parts = if is_short { 10 } else { 1 };
    let scaled = nanoseconds.saturating_mul(parts);
    let count = match round {
        Round::Down => scaled / one,
        Round::Near => (scaled + one / 2) / one,
        Round::Up => scaled.div_ceil(*one),
    };
    let number = match count % parts {
        0 => grouped(count / parts),
        part => format!("{}.{part}", grouped(count / parts)),
    };
    format!("{number} {measure}")
}

/// A time of so many units in nanoseconds, where the length of a unit is known.
pub fn nanoseconds(plan: &Plan, units: u128) -> Option<u128> {
    Some(units.saturating_mul(plan.units.unit?.into()))
}

/// The same in words.
pub fn units_words(plan: &Plan, units: u128) -> Option<String> {
    nanoseconds(plan, units).map(|time| time_words(time, Round::Near))
}

/// So many units.
pub fn counted_units(units: u64) -> String {
    counted(units as usize, "unit")
}

/// Their real time behind a comma, or nothing.
pub fn real_words(plan: &Plan, units: u128) -> String {
    units_words(plan, units).map_or(String::new(), |words| format!(", {words}"))
}

/// A number with a comma before each three digits.
pub fn grouped(number: u128) -> String {
    let digits = number.to_string();
    let mut words = String::new();
    for (at, digit) in digits.chars().enumerate() {
        if at > 0 && (digits.len() - at).is_multiple_of(3) {
            words.push(',');
        }
        words.push(digit);
    }
    words
}

/// Three digits that count.
fn significant(number: f64) -> String {
    let places = (2.0 - number.log10().floor()).clamp(0.0, 20.0) as usize;
    let words = format!("{number:.places$}");
    match words.contains('.') {
        true => words
            .trim_end_matches('0')
            .trim_end_matches('.')
            .to_string(),
        false => words,
    }
}

#[cfg(test)]
mod tests {
    use super::*;
    use plan::resolve::read_text;

    /// A plan with a ceiling of 3 and lines of real units.
    fn with(lines: &str) -> Plan {
        let text = format!("clocks x\nceiling 3\nlocation a start\n{lines}");
        read_text(&text).unwrap()
    }

    #[test]
    fn drift_of_crystals_and_bits() {
        assert_eq!(Drift::of(&with("unit 1 ms")), None);
        // 3 * 50 / (1,000,000 - 50)
        let crystals = Drift::of(&with("crystal 50 ppm")).unwrap();
        assert_eq!(crystals, Drift { e: 3, d: 19_999 });
        assert_eq!(crystals.part(), 6_667);
        assert_eq!(crystals.words(), "0.00015 of a unit");
        let bits = Drift::of(&with("bit rate 200\nunit 20 ms")).unwrap();
        assert_eq!(bits, Drift { e: 1, d: 4 });
        let both = Drift::of(&with("bit rate 200\nunit 20 ms\ncrystal 50 ppm")).unwrap();
        assert_eq!(both.e * 4 * 19_999, both.d * (19_999 + 12));
    }

    /// Exactly at the margin is not below it.
    #[test]
    fn drift_beside_the_margin() {
        let quarter = Drift { e: 1, d: 4 };
        assert!(quarter.is_harmless(3) && !quarter.is_harmless(4));
        let plan = with("");
        let error = greatest_error(&plan, 36).unwrap();
        let drift = |error| Drift::with_crystals(&plan, error).unwrap();
        assert!(drift(error).is_harmless(36) && !drift(error + 1).is_harmless(36));
        assert_eq!(greatest_error(&with("bit rate 200\nunit 20 ms"), 4), None);
    }

    /// The longest and shortest units, the best and worst parts: no number is
    /// too large.
    #[test]
    fn extremes() {
        for unit in ["1 ns", "86400 s"] {
            for rate in ["1", "1000000000"] {
                for crystal in ["0.001 ppm", "100000 ppm"] {
                    let lines = format!("unit {unit}\nbit rate {rate}\ncrystal {crystal}");
                    let plan = with(&lines);
                    let drift = Drift::of(&plan).unwrap();
                    assert!(drift.part() >= 1 && !drift.words().is_empty());
                    for margin in [1, (1 << 24) - 1] {
                        let safe = Safe { marked: 1, margin };
                        assert!(!margin_words(&plan, &safe).is_empty());
                    }
                }
            }
        }
    }

    #[test]
    fn times_in_words() {
        let second = BILLION;
        for (time, round, words) in [
            (0, Round::Near, "0 ns"),
            (999, Round::Near, "999 ns"),
            (40_000_000, Round::Near, "40 ms"),
            (1_250_000_000, Round::Down, "1.2 s"),
            (1_250_000_000, Round::Up, "1.3 s"),
            (90 * second, Round::Near, "90 s"),
            (9_000 * second, Round::Near, "2.5 hours"),
            (3 * 86_400 * second, Round::Near, "3 days"),
            (u128::MAX, Round::Up, "10,782,897,524,556,318,080,697 years"),
        ] {
            assert_eq!(time_words(time, round), words);
        }
        assert_eq!(grouped(1_234_567), "1,234,567");
        assert_eq!(grouped(12), "12");
    }
}
