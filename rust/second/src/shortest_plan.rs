//! The shortest form of a plan, request (a) of document 02: each number in the
//! fewest bytes, and a stay field of 0 where a blank means the same limit. With
//! mark 1 that is the ceiling; mark 2 is request (c).

use crate::model::{Field, Model, Reading};
use crate::numbers::push_number;
use std::convert::Infallible;

/// The bytes of a plan's shortest form, in its own mark.
pub fn shortest_plan(reading: &Reading) -> Vec<u8> {
    let mut bytes = Vec::new();
    // The reader asks for the numbers, so that their order stands there alone.
    let read_back = Reading::from_fields(&mut |field, _| {
        let number = number_of(reading, field);
        push_number(&mut bytes, number);
        Ok::<u32, Infallible>(number)
    });
    debug_assert_eq!(read_back.as_ref(), Ok(reading));
    bytes
}

/// The number that stands for a field of a plan.
fn number_of(reading: &Reading, field: Field) -> u32 {
    let Reading { mark, model } = reading;
    match field {
        Field::Mark => *mark,
        Field::Clocks => model.clocks as u32,
        Field::Ceiling => model.ceiling.into(),
        Field::Locations => model.locations.len() as u32,
        Field::Edges => model.edges.len() as u32,
        Field::Start => model.start as u32,
        Field::Kind { location } => model.locations[location].forbidden.into(),
        Field::Stay { location, clock } => stay_field(model, *mark, location, clock),
        Field::From { edge } => model.edges[edge].from as u32,
        Field::To { edge } => model.edges[edge].to as u32,
        Field::Resets { edge } => model.edges[edge].resets.into(),
        Field::Low { edge, clock } => model.edges[edge].low[clock].into(),
        Field::High { edge, clock } => model.edges[edge].high[clock].into(),
    }
}

/// The stay field of a limit: blank if that means it too.
fn stay_field(model: &Model, mark: u32, location: usize, clock: usize) -> u32 {
    let limit = model.locations[location].limit[clock];
    if limit == model.blank_limit(mark, location, clock) {
        0
    } else {
        u32::from(limit) + 1
    }
}

#[cfg(test)]
mod tests {
    use super::*;
    use crate::limits::MAX_CEILING;
    use crate::model::read_plan;

    fn short(bytes: &[u8]) -> Vec<u8> {
        shortest_plan(&read_plan(bytes).unwrap())
    }

    #[test]
    fn stay_fields() {
        for ceiling in 1..=MAX_CEILING {
            for mark in [1, 2] {
                // No edge leaves.
                let short = |stay: u8| short(&[mark, 1, ceiling, 1, 0, 0, 0, stay])[7];
                assert_eq!(short(0), 0);
                (1..=ceiling).for_each(|stay| assert_eq!(short(stay), stay));
                assert_eq!(short(ceiling + 1), 0);
            }
        }
    }

    /// A loop that closes at each value: with mark 2 the field that spells it
    /// out becomes 0, and no other does.
    #[test]
    fn stay_fields_where_an_edge_closes() {
        for ceiling in 1..=MAX_CEILING {
            for high in 0..=ceiling {
                let stay =
                    |mark, stay| short(&[mark, 1, ceiling, 1, 1, 0, 0, stay, 0, 0, 1, 0, high])[7];
                for field in 0..=ceiling + 1 {
                    let blank = |default| field == 0 || field == default + 1;
                    let kept = |is_blank| if is_blank { 0 } else { field };
                    assert_eq!(stay(1, field), kept(blank(ceiling)));
                    assert_eq!(stay(2, field), kept(blank(high)));
                }
            }
        }
    }

    #[test]
    fn the_mark_is_kept() {
        for (first, mark) in [
            (&[1][..], 1),
            (&[129, 0], 1),
            (&[2], 2),
            (&[130, 128, 0], 2),
        ] {
            let short = short(&[first, &[1, 1, 1, 0, 0, 0, 2]].concat());
            assert_eq!(short, [mark, 1, 1, 1, 0, 0, 0, 0]);
        }
    }

    #[test]
    fn padded_numbers() {
        let padded = [
            129, 0, 129, 128, 0, 1, 129, 0, 129, 0, 128, 0, 0, 130, 0, //
            128, 128, 0, 0, 1, 128, 0, 129, 128, 0,
        ];
        assert_eq!(short(&padded), [1, 1, 1, 1, 1, 0, 0, 0, 0, 0, 1, 0, 1]);
    }
}
