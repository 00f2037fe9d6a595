//! Padded evidence: the same numbers, some of them longer by empty groups. All
//! other bytes stay as they are, those that spell no number too.

use crate::limits::NUMBER_BYTES;
use crate::mutate::Role;
use crate::numbers::{push_padded, spelled_at, Spelled};
use crate::random::Random;
use crate::refusal::NUMBER_TOO_LONG;
use std::collections::BTreeSet;

/// A number where it stands in bytes.
struct Placed {
    start: usize,
    number: Spelled,
}

impl Placed {
    fn length(&self) -> usize {
        self.number.next - self.start
    }

    /// How many empty groups more it may have.
    fn room(&self) -> usize {
        NUMBER_BYTES - self.length()
    }
}

/// The numbers in bytes. Three bytes that all have their top bit set are passed
/// over, so that numbers behind them can be padded too.
fn placed(bytes: &[u8]) -> Vec<Placed> {
    let mut all = Vec::new();
    let mut start = 0;
    loop {
        match spelled_at(bytes, start) {
            Ok(number) => {
                all.push(Placed { start, number });
                start = number.next;
            }
            Err(NUMBER_TOO_LONG) => start += NUMBER_BYTES,
            Err(_) => return all,
        }
    }
}

/// How many numbers there are in bytes.
pub fn count(bytes: &[u8]) -> usize {
    placed(bytes).len()
}

/// The byte with which the number at a place begins.
pub fn start_of(bytes: &[u8], place: usize) -> Option<usize> {
    placed(bytes).get(place).map(|placed| placed.start)
}

/// The first place of a padded number.
pub fn first_padded(bytes: &[u8]) -> Option<usize> {
    placed(bytes).iter().position(|placed| placed.number.padded)
}

/// The number at a place, counted from 0, with so many empty groups more; none
/// if there is no such number or no room.
pub fn pad_at(bytes: &[u8], place: usize, groups: usize) -> Option<Vec<u8>> {
    let all = placed(bytes);
    let placed = all.get(place).filter(|placed| groups <= placed.room())?;
    let mut padded = bytes[..placed.start].to_vec();
    push_padded(&mut padded, placed.number.value, placed.length() + groups);
    padded.extend(&bytes[placed.number.next..]);
    Some(padded)
}

/// The number at a place with one empty group more, or with two, as there is
/// room.
pub fn pad_somehow(random: &mut Random, bytes: &[u8], place: usize) -> Option<Vec<u8>> {
    let room = placed(bytes).get(place)?.room();
    if room == 0 {
        return None;
    }
    pad_at(bytes, place, random.range(1, room))
}

/// The places where a number has room.
fn places_with_room(bytes: &[u8]) -> Vec<usize> {
    let all = placed(bytes);
    let has_room = |&place: &usize| all[place].room() > 0;
    (0..all.len()).filter(has_room).collect()
}

/// One number padded. With the roles of all numbers, each role is as likely,
/// however many numbers have it.
pub fn pad_one(random: &mut Random, bytes: &[u8], roles: Option<&[Role]>) -> Option<Vec<u8>> {
    let mut places = places_with_room(bytes);
    if let Some(roles) = roles {
        let present: BTreeSet<Role> = places.iter().map(|&place| roles[place]).collect();
        let present: Vec<Role> = present.into_iter().collect();
        if !present.is_empty() {
            let role = *random.pick(&present);
            places.retain(|&place| roles[place] == role);
        }
    }
    let place = match random.below(4) {
        0 => *places.first()?,
        1 => *places.last()?,
        _ if places.is_empty() => return None,
        _ => *random.pick(&places),
    };
    pad_somehow(random, bytes, place)
}

/// Many numbers padded or few, but one at least.
pub fn pad_many(random: &mut Random, bytes: &[u8]) -> Option<Vec<u8>> {
    let places = places_with_room(bytes);
    if places.is_empty() {
        return None;
    }
    let sure = *random.pick(&places);
    let seldom = *random.pick(&[1, 2, 8, 32]);
    let mut padded = Vec::new();
    let mut end = 0;
    for (place, placed) in placed(bytes).iter().enumerate() {
        let mut length = placed.length();
        if length < NUMBER_BYTES && (place == sure || random.one_in(seldom)) {
            length = random.range(length + 1, NUMBER_BYTES);
        }
        padded.extend(&bytes[end..placed.start]);
        push_padded(&mut padded, placed.number.value, length);
        end = placed.number.next;
    }
    padded.extend(&bytes[end..]);
    Some(padded)
}

#[cfg(test)]
mod tests {
    use super::*;

    #[test]
    fn a_number_is_padded_where_it_stands() {
        let bytes = [1, 128, 1, 133, 0, 255, 255, 127, 128];
        assert_eq!((count(&bytes), first_padded(&bytes)), (4, Some(2)));
        assert_eq!((start_of(&bytes, 3), start_of(&bytes, 4)), (Some(5), None));
        let starts = |place, groups| pad_at(&bytes, place, groups);
        let ended = |front: &[u8], from: usize| Some([front, &bytes[from..]].concat());
        assert_eq!(starts(0, 1), ended(&[129, 0], 1));
        assert_eq!(starts(0, 2), ended(&[129, 128, 0], 1));
        assert_eq!(starts(0, 3), None);
        assert_eq!(starts(1, 1), ended(&[1, 128, 129, 0], 3));
        assert_eq!(starts(1, 2), None);
        assert_eq!(starts(2, 1), ended(&[1, 128, 1, 133, 128, 0], 5));
        assert_eq!((starts(3, 1), starts(4, 1)), (None, None));
    }

    #[test]
    fn some_number_is_always_padded() {
        for seed in 0..200 {
            let random = &mut Random::new(seed);
            for bytes in [
                &[1][..],
                &[2, 128, 1, 0, 133],
                &[255, 255, 127, 3],
                &[200, 201, 202, 7, 200],
            ] {
                let many = pad_many(random, bytes).unwrap();
                let one = pad_one(random, bytes, None).unwrap();
                assert!(first_padded(&many).is_some() && first_padded(&one).is_some());
                assert_eq!((count(&many), count(&one)), (count(bytes), count(bytes)));
                let kept = |other: &[u8]| other.first() == bytes.first() && other.ends_with(&[200]);
                assert!(bytes[0] != 200 || kept(&many) && kept(&one));
            }
            for bytes in [&[][..], &[128], &[255, 255, 127]] {
                assert_eq!(pad_many(random, bytes), None);
                assert_eq!(pad_one(random, bytes, None), None);
            }
        }
    }
}
