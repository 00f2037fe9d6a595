//! The C boundary, as c/drift.h describes it: each function of the static
//! library on one line, and the fields of the words that they return.

use crate::{Refusal, Scratch, Verdict};
use std::ops::Range;

/// A number of the scratch.
pub type Word = u16;

/// Declares functions of the library and makes a safe function of each. What
/// they take comes in this order: bytes to read, a plain number, scratch, what
/// is written to. A slice goes over as a pointer and a length.
macro_rules! foreign {
    ($(fn $name:ident(
        $(read $read:ident),+
        $(, number $number:ident: $whole:ty)?
        $(, scratch [$($scratch:ident),+])?
        $(, write $write:ident: $element:ty)?
    ) -> $answer:ty;)+) => {$(
        pub fn $name(
            $($read: &[u8],)+
            $($number: $whole,)?
            $([$($scratch),+]: Scratch,)?
            $($write: &mut [$element],)?
        ) -> $answer {
            extern "C" {
                fn $name(
                    $($read: *const u8, _: usize,)+
                    $($number: $whole,)?
                    $($($scratch: *mut Word, _: usize,)+)?
                    $($write: *mut $element, _: usize,)?
                ) -> $answer;
            }
            // SAFETY: c/drift.h declares the function so. Each pointer comes
            // with the length of its own slice, the mutable ones are borrowed
            // apart from each other and from what is read, and a number may
            // be any.
            unsafe {
                $name(
                    $($read.as_ptr(), $read.len(),)+
                    $($number,)?
                    $($($scratch.as_mut_ptr(), $scratch.len(),)+)?
                    $($write.as_mut_ptr(), $write.len(),)?
                )
            }
        }
    )+};
}

foreign! {
    fn drift_room(read model) -> u64;
    fn drift_judge(read model, scratch [a, b, c, d]) -> u64;
    fn drift_marks(read model, scratch [a, b, c, d], write out: u8) -> u64;
    fn drift_judge_joint(read model, scratch [a, b, c, d]) -> u64;
    fn drift_marks_joint(read model, scratch [a, b, c, d], write out: u8) -> u64;
    fn drift_write_joint(read model, scratch [a, b, c, d], write out: u8) -> u64;
    fn drift_check_evidence(read model, read evidence, scratch [a, b, c, d]) -> u64;
    fn drift_write_evidence(read model, scratch [a, b, c, d], write out: u8) -> u64;
    fn drift_write_plan(read model, write out: u8) -> u64;
    fn drift_next_number(read bytes, number at: usize) -> u64;
    fn drift_soonest(read model, number location: u64, scratch [a, b, c, d]) -> u64;
    fn drift_margin(read model) -> u64;
    fn drift_sheet_margin(read model, scratch [a, b, c, d]) -> u64;
    fn drift_harm(read model, scratch [a, b, c, d], write out: u64) -> u64;
}

// The fields of an answer, by their bits.

/// 0, or the refusal, with which all others are 0.
const NUMBER: Range<u32> = 0..8;
/// 1 if unsafe, 0 if safe.
pub const VERDICT: Range<u32> = 8..16;
/// 1 for a sheet, 2 for a trail.
pub const KIND: Range<u32> = 8..16;
/// The number of states (S).
pub const STATES: Range<u32> = 16..40;
/// Marked states if safe, steps of our trail if unsafe.
pub const COUNT: Range<u32> = 40..64;
/// A: every drift below 1/A of a unit is harmless.
pub const MARGIN: Range<u32> = 40..64;
/// The most bytes of a sheet.
pub const SHEET: Range<u32> = 40..64;
/// The least time, in units.
pub const UNITS: Range<u32> = 16..40;
/// The bytes written, of evidence or of a plan.
pub const WRITTEN: Range<u32> = 16..64;
/// The number that was read.
pub const VALUE: Range<u32> = 8..29;
/// 1 if its form was padded, 0 if shortest.
pub const PADDED: Range<u32> = 31..32;
/// The lower 32 bits of the offset after it.
pub const NEXT: Range<u32> = 32..64;

/// What a field of an answer holds.
pub fn field(answer: u64, bits: Range<u32>) -> u64 {
    answer << (u64::BITS - bits.end) >> (u64::BITS - bits.end + bits.start)
}

/// An answer that is no refusal.
pub fn accepted(answer: u64) -> Result<u64, Refusal> {
    match field(answer, NUMBER) {
        0 => Ok(answer),
        number => Err(Refusal::try_from(number as u8).expect("no other is proved possible")),
    }
}

pub fn verdict_of(answer: u64) -> Verdict {
    match field(answer, VERDICT) {
        0 => Verdict::Safe,
        _ => Verdict::Unsafe,
    }
}

pub fn written_of(answer: u64) -> usize {
    field(answer, WRITTEN) as usize
}

pub fn states_of(answer: u64) -> usize {
    field(answer, STATES) as usize
}
