//! Real time and real parts: what a text plan says beside the model.

/// What the lines `unit`, `crystal` and `bit rate` of a plan say. They are no
/// part of the model, so decoded bytes have none.
#[derive(Clone, Copy, Debug, Default, PartialEq, Eq)]
pub struct Units {
    /// How long a unit of the drawing is, in nanoseconds.
    pub unit: Option<u64>,
    /// The crystals are good to so many thousandths of a millionth.
    pub crystal: Option<u64>,
    /// Bits a second on the ring: a signal may come one bit late.
    pub bit_rate: Option<u64>,
}

impl Units {
    pub fn get(&self, quantity: Quantity) -> Option<u64> {
        match quantity {
            Quantity::Unit => self.unit,
            Quantity::Crystal => self.crystal,
            Quantity::BitRate => self.bit_rate,
        }
    }

    pub fn set(&mut self, quantity: Quantity, value: u64) {
        let slot = match quantity {
            Quantity::Unit => &mut self.unit,
            Quantity::Crystal => &mut self.crystal,
            Quantity::BitRate => &mut self.bit_rate,
        };
        *slot = Some(value);
    }
}

#[derive(Clone, Copy, Debug, PartialEq, Eq)]
pub enum Quantity {
    Unit,
    Crystal,
    BitRate,
}

/// Which half of a quantity is wrong, and why.
#[derive(Clone, Debug, PartialEq, Eq)]
pub enum Slip {
    Number(String),
    Measure(String),
}

impl Quantity {
    pub const ALL: [Quantity; 3] = [Quantity::Unit, Quantity::Crystal, Quantity::BitRate];

    /// The word or words that its line begins with.
    pub fn name(self) -> &'static str {
        match self {
            Quantity::Unit => "unit",
            Quantity::Crystal => "crystal",
            Quantity::BitRate => "bit rate",
        }
    }

    /// A line as it might be.
    pub fn example(self) -> &'static str {
        match self {
            Quantity::Unit => "unit 20 ms",
            Quantity::Crystal => "crystal 50 ppm",
            Quantity::BitRate => "bit rate 19200",
        }
    }

    /// Measures by name, each with what one of it counts.
    fn measures(self) -> &'static [(&'static str, u64)] {
        match self {
            Quantity::Unit => &[
                ("s", 1_000_000_000),
                ("ms", 1_000_000),
                ("us", 1_000),
                ("µs", 1_000),
                ("ns", 1),
            ],
            Quantity::Crystal => &[("ppm", 1_000)],
            Quantity::BitRate => &[("", 1)],
        }
    }

    /// The greatest value that can be said.
    pub fn most(self) -> u64 {
        match self {
            Quantity::Unit => 86_400_000_000_000,
            Quantity::Crystal => 100_000_000,
            Quantity::BitRate => 1_000_000_000,
        }
    }

    fn range_words(self) -> &'static str {
        match self {
            Quantity::Unit => "a unit lasts 1 ns to 86400 s, in whole nanoseconds",
            Quantity::Crystal => "crystals are good to 0.001 to 100000 ppm, in whole thousandths",
            Quantity::BitRate => "a bit rate is a whole number from 1 to 1000000000",
        }
    }

    fn measure_words(self) -> &'static str {
        match self {
            Quantity::Unit => "s, ms, us or ns",
            Quantity::Crystal => "ppm, millionths",
            Quantity::BitRate => "none, since it counts bits a second",
        }
    }

    /// What a number and its measure come to.
    pub fn value(self, number: &str, measure: &str) -> Result<u64, Slip> {
        let known = self.measures().iter().find(|(name, _)| *name == measure);
        let Some((_, scale)) = known else {
            let given = match measure {
                "" => "is missing".to_string(),
                _ => format!("cannot be '{measure}'"),
            };
            let words = format!("the measure {given}: it is {}", self.measure_words());
            return Err(Slip::Measure(words));
        };
        let value = decimal(number, *scale).filter(|value| (1..=self.most()).contains(value));
        value.ok_or_else(|| Slip::Number(format!("{}, not '{number}'", self.range_words())))
    }

    /// A quantity as it is written, with or without a blank before its measure.
    pub fn read(self, text: &str) -> Result<u64, String> {
        let (number, measure) = halves(text.trim());
        self.value(number.trim_end(), measure)
            .map_err(|slip| match slip {
                Slip::Number(words) | Slip::Measure(words) => words,
            })
    }

    /// A quantity written so that it is read back as it was.
    pub fn written(self, value: u64) -> String {
        let measures = self.measures();
        let fitting = measures.iter().find(|(_, scale)| *scale <= value);
        let (measure, scale) = fitting.unwrap_or(&measures[measures.len() - 1]);
        let part = format!("{:0width$}", value % scale, width = digits(*scale));
        let number = format!("{}.{part}", value / scale);
        let number = number.trim_end_matches('0').trim_end_matches('.');
        format!("{number} {measure}").trim_end().to_string()
    }
}

/// A number and the measure behind it.
pub fn halves(text: &str) -> (&str, &str) {
    text.split_at(text.find(char::is_alphabetic).unwrap_or(text.len()))
}

/// The digits after the point of a number with so many parts.
fn digits(scale: u64) -> usize {
    scale.ilog10() as usize
}

/// A decimal number times a power of ten, if that is whole.
fn decimal(number: &str, scale: u64) -> Option<u64> {
    let (whole, part) = number.split_once('.').unwrap_or((number, "0"));
    if ![whole, part]
        .iter()
        .all(|half| half.bytes().all(|b| b.is_ascii_digit()))
    {
        return None;
    }
    let whole = whole.parse::<u64>().ok()?.checked_mul(scale)?;
    let places = u32::try_from(part.len()).ok()?;
    let part = part.parse::<u64>().ok()?.checked_mul(scale)?;
    let tenths = 10u64.checked_pow(places)?;
    (part % tenths == 0).then(|| whole.checked_add(part / tenths))?
}

#[cfg(test)]
mod tests {
    use super::*;

    #[test]
    fn read_and_written() {
        for (quantity, text, value) in [
            (Quantity::Unit, "20 ms", 20_000_000),
            (Quantity::Unit, "2.5 ms", 2_500_000),
            (Quantity::Unit, "86400 s", 86_400_000_000_000),
            (Quantity::Unit, "1 ns", 1),
            (Quantity::Crystal, "50 ppm", 50_000),
            (Quantity::Crystal, "0.5 ppm", 500),
            (Quantity::BitRate, "19200", 19_200),
        ] {
            assert_eq!(quantity.read(text), Ok(value));
            assert_eq!(quantity.written(value), text);
            assert_eq!(quantity.read(&text.replace(' ', "")), Ok(value));
        }
        assert_eq!(Quantity::Unit.read("7µs"), Ok(7_000));
    }

    #[test]
    fn what_is_no_quantity() {
        for (quantity, text) in [
            (Quantity::Unit, "20"),
            (Quantity::Unit, "0 ms"),
            (Quantity::Unit, "ms"),
            (Quantity::Unit, "0.5 ns"),
            (Quantity::Unit, "86401 s"),
            (Quantity::Unit, "99999999999999999999 s"),
            (Quantity::Unit, "1.00000000000000000000000000001 s"),
            (Quantity::Unit, "1..5 s"),
            (Quantity::Unit, "1. s"),
            (Quantity::Crystal, "50 ms"),
            (Quantity::Crystal, "-1 ppm"),
            (Quantity::BitRate, "19.2"),
            (Quantity::BitRate, "19200 baud"),
        ] {
            assert!(quantity.read(text).is_err(), "{text}");
        }
    }
}
