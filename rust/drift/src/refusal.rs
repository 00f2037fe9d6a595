//! Refusals: why a call gives no answer.

use std::error::Error;
use std::fmt;

/// A refusal of document 01, or 15 to 17 of document 02, by its number there.
#[derive(Clone, Copy, Debug, PartialEq, Eq, PartialOrd, Ord, Hash)]
#[repr(u8)]
pub enum Refusal {
    EndsTooSoon = 1,
    NumberTooLong,
    BadHeader,
    BadLocation,
    BadEdge,
    BytesRemain,
    ClockUnreset,
    ScratchTooShort,
    OutputTooShort,
    NoEvidence,
    BadSheetNumber,
    SheetRuleBroken,
    BadStep,
    EndsOrdinary,
    Padded,
    Unreached,
    NotJoint,
}

use Refusal::*;

impl Refusal {
    /// All of them, in the order of their numbers from 1 on.
    pub const ALL: [Refusal; 17] = [
        EndsTooSoon,
        NumberTooLong,
        BadHeader,
        BadLocation,
        BadEdge,
        BytesRemain,
        ClockUnreset,
        ScratchTooShort,
        OutputTooShort,
        NoEvidence,
        BadSheetNumber,
        SheetRuleBroken,
        BadStep,
        EndsOrdinary,
        Padded,
        Unreached,
        NotJoint,
    ];

    /// 1 to 17.
    pub fn number(self) -> u8 {
        self as u8
    }

    fn words(self) -> &'static str {
        match self {
            EndsTooSoon => "the bytes end too soon",
            NumberTooLong => "a number is spelt too long",
            BadHeader => "a number of the header is out of range",
            BadLocation => "a number of a location is out of range",
            BadEdge => "a number of an edge is out of range, or a low is above its high",
            BytesRemain => "bytes remain at the end",
            ClockUnreset => "a loop of edges leaves a clock unreset",
            ScratchTooShort => "the lent scratch memory is too small for the plan",
            OutputTooShort => "the lent output is too short",
            NoEvidence => "the evidence is neither a sheet nor a trail",
            BadSheetNumber => "a number of the sheet is out of range",
            SheetRuleBroken => "the sheet breaks a rule",
            BadStep => "a step of the trail cannot be taken",
            EndsOrdinary => "the trail ends in an ordinary location",
            Padded => "a number of the evidence is not in shortest form",
            Unreached => "no run with perfect clocks gets to the location, or there is none",
            NotJoint => "a loop of edges has none that resets every clock",
        }
    }
}

/// The words alone; who wants the number asks for it.
impl fmt::Display for Refusal {
    fn fmt(&self, formatter: &mut fmt::Formatter) -> fmt::Result {
        formatter.write_str(self.words())
    }
}

impl Error for Refusal {}

/// A number that is no refusal's.
#[derive(Clone, Copy, Debug, PartialEq, Eq)]
pub struct NoRefusal(pub u8);

impl fmt::Display for NoRefusal {
    fn fmt(&self, formatter: &mut fmt::Formatter) -> fmt::Result {
        let most = Refusal::ALL.len();
        write!(
            formatter,
            "{} is no refusal; they are numbered 1 to {most}",
            self.0
        )
    }
}

impl Error for NoRefusal {}

impl TryFrom<u8> for Refusal {
    type Error = NoRefusal;

    fn try_from(number: u8) -> Result<Refusal, NoRefusal> {
        let of_number = |refusal: &Refusal| refusal.number() == number;
        let found = Refusal::ALL.into_iter().find(of_number);
        found.ok_or(NoRefusal(number))
    }
}

#[cfg(test)]
mod tests {
    use super::*;

    #[test]
    fn numbers_there_and_back() {
        for (at, refusal) in (1..).zip(Refusal::ALL) {
            assert_eq!(refusal.number(), at);
            assert_eq!(Refusal::try_from(at), Ok(refusal));
        }
        for other in [0, 18, 255] {
            assert_eq!(Refusal::try_from(other), Err(NoRefusal(other)));
        }
        assert_eq!(
            NoRefusal(18).to_string(),
            "18 is no refusal; they are numbered 1 to 17"
        );
    }

    /// The header for C callers has the same numbers.
    #[test]
    fn the_header_has_the_same_numbers() {
        let header = include_str!("../../../c/drift.h");
        for refusal in Refusal::ALL {
            let spelt = format!("{refusal:?}");
            let capital = |letter: char| match letter {
                'A'..='Z' => format!("_{letter}"),
                _ => letter.to_ascii_uppercase().to_string(),
            };
            let name: String = spelt.chars().map(capital).collect();
            let line = format!("DRIFT{name} = {}", refusal.number());
            assert!(header.contains(&line), "{line}");
        }
    }
}
