//! Spellings, by trial. Of a number: all shorter bytes are tried. Of a plan:
//! bytes are put in the place of a number, or appended one by one, and what
//! reads as the same plan with the same mark is kept.

use super::read::{read, read_with_mark, value_of};
use crate::limits::NUMBER_BYTES;

/// Whether no fewer bytes spell the number that these bytes are.
pub fn is_shortest(number: &[u8]) -> bool {
    let value = value_of(number);
    assert!(value.is_some(), "{number:?} is no number");
    let spells_it = |bytes: &[u8]| value_of(bytes) == value;
    !(1..number.len()).any(|length| {
        let mut all = 0..256u32.pow(length as u32);
        all.any(|bytes| spells_it(&bytes.to_be_bytes()[4 - length..]))
    })
}

/// For each number of an accepted plan, in order, the bytes that may stand in
/// its place: the plan read is the same, and so is the mark. Numbers up to
/// `most` are tried, in every length.
pub fn at_each_place(bytes: &[u8], most: u32) -> Result<Vec<Vec<Vec<u8>>>, u8> {
    let read = read_with_mark(bytes)?;
    let numbers: Vec<&[u8]> = bytes.split_inclusive(|&byte| byte < 128).collect();
    let keeps = |place: usize, other: &[u8]| {
        let (before, after) = (&numbers[..place], &numbers[place + 1..]);
        let changed = [before.concat().as_slice(), other, after.concat().as_slice()].concat();
        read_with_mark(&changed).as_ref() == Ok(&read)
    };
    let tried: Vec<Vec<u8>> = (0..=most).flat_map(in_every_length).collect();
    let kept = |place| {
        let all = tried.iter().filter(|other| keeps(place, other));
        all.cloned().collect()
    };
    Ok((0..numbers.len()).map(kept).collect())
}

/// A number in one to three bytes, as far as it fits.
fn in_every_length(number: u32) -> Vec<Vec<u8>> {
    let digit = |place: usize| (number / 128u32.pow(place as u32) % 128) as u8;
    let spelling = |length: usize| -> Vec<u8> {
        let more = (0..length - 1).map(|place| digit(place) + 128);
        more.chain([digit(length - 1)]).collect()
    };
    let fits = |length: &usize| number < 128u32.pow(*length as u32);
    (1..=NUMBER_BYTES).filter(fits).map(spelling).collect()
}

/// The shortest spelling of an accepted plan and, since a blank stay field and
/// one that is spelt out are equally short, the least of the shortest byte by
/// byte. Each place for itself.
pub fn least(bytes: &[u8], most: u32) -> Result<Vec<u8>, u8> {
    let places = at_each_place(bytes, most)?;
    let least = |kept: Vec<Vec<u8>>| {
        let all = kept.into_iter();
        all.min_by_key(|bytes| (bytes.len(), bytes.clone()))
            .expect("a number as it was")
    };
    Ok(places.into_iter().flat_map(least).collect())
}

/// All spellings of an accepted plan: any choice at each place.
pub fn all(bytes: &[u8], most: u32) -> Result<Vec<Vec<u8>>, u8> {
    let places = at_each_place(bytes, most)?;
    let mut all = vec![Vec::new()];
    for kept in places {
        let longer = |before: &Vec<u8>| -> Vec<Vec<u8>> {
            let then = |number: &Vec<u8>| [&before[..], number].concat();
            kept.iter().map(then).collect()
        };
        all = all.iter().flat_map(longer).collect();
    }
    Ok(all)
}

/// All accepted plans of these bytes alone, up to a length. Only a refusal by 1
/// can change with what follows; after an accepted plan nothing may follow.
pub fn accepted(bytes: &[u8], longest: usize) -> Vec<Vec<u8>> {
    let mut found = Vec::new();
    let mut waiting = vec![Vec::new()];
    while let Some(begun) = waiting.pop() {
        match read(&begun) {
            Ok(_) => found.push(begun),
            Err(1) if begun.len() < longest => {
                waiting.extend(bytes.iter().map(|&byte| [&begun[..], &[byte]].concat()));
            }
            Err(_) => {}
        }
    }
    found
}
