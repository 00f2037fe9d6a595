//! Evidence with padded numbers: at every place of a sheet and of a trail, and
//! with other damage before, at and after it. The plans come up again here.

use super::evidence::{changed, CUBE, LINE, LOOP, LOOP_TRAIL, RING};
use super::Text;
use crate::numbers::shortest;
use crate::padding::{count, pad_at};

pub fn padding(text: &mut Text) {
    line_sheets(text);
    line_order(text);
    line_ends(text);
    line_trails(text);
    point(text);
    eight_lines(text);
    forbidden_line(text);
    ring(text);
    long_counts(text);
    loop_places(text);
    loop_steps(text);
    loop_touches(text);
    loop_walks(text);
    cube(text);
}

/// Evidence as it is, and with each number padded alone, where there is room:
/// by one empty group, and by two.
fn at_each_place(text: &mut Text, what: &str, evidence: &[u8]) {
    text.group(&format!("passes: {what}"), &[evidence]);
    for (groups, words) in [(1, "one empty group"), (2, "two empty groups")] {
        text.note(&format!("{words} at one number after the other"));
        for place in 0..count(evidence) {
            if let Some(padded) = pad_at(evidence, place, groups) {
                text.bytes(&padded);
            }
        }
    }
}

/// The same with one empty group and two by turns.
fn at_each_place_once(text: &mut Text, what: &str, evidence: &[u8]) {
    text.group(&format!("passes: {what}"), &[evidence]);
    text.note("one empty group, or two, at one number after the other");
    for place in 0..count(evidence) {
        text.bytes(&padded(evidence, place, 1 + place % 2));
    }
}

/// Evidence with so many empty groups at a number that has room for them.
fn padded(evidence: &[u8], place: usize, groups: usize) -> Vec<u8> {
    pad_at(evidence, place, groups).expect("a number with room")
}

fn line_sheets(text: &mut Text) {
    let what = "The tiny model; no evidence passes in which a number is padded.";
    text.plan("line, padding", &LINE, what);
    at_each_place(text, "01's sheet", &[1, 5, 3, 1]);
    text.group(
        "a padded first number, before 10 and before what follows: 1, 2, 0, 3, 128, 16383",
        &[
            &[129, 0],
            &[129, 128, 0],
            &[130, 0],
            &[128, 0],
            &[128, 128, 0],
            &[131, 0],
            &[131, 128, 0],
            &[131, 0, 128, 128, 128],
            &[128, 129, 0],
            &[255, 255, 0],
        ],
    );
    text.group(
        "first numbers of two and three bytes in shortest form: 128, 16383, 16384",
        &[&[128, 1], &[255, 127], &[128, 128, 1]],
    );
    text.group(
        "no number yet: broken off, with four bytes",
        &[
            &[129],
            &[129, 128],
            &[129, 128, 128],
            &[129, 128, 128, 0],
            &[1, 133],
            &[1, 133, 128],
            &[1, 133, 128, 128],
            &[1, 5, 3, 129, 128, 128, 0],
        ],
    );
}

/// Which refusal of a sheet comes first.
fn line_order(text: &mut Text) {
    text.group(
        "padded before above 2S-1, for one number: 9, 6, 128; 128 in shortest form",
        &[
            &[1, 137, 0],
            &[1, 137, 128, 0],
            &[1, 5, 134, 0],
            &[1, 128, 129, 0],
            &[1, 128, 1],
        ],
    );
    text.group(
        "an earlier bad number before a padded one",
        &[
            &[1, 9, 131, 0],
            &[1, 128, 1, 131, 0],
            &[3, 133, 0],
            &[0, 128, 0],
        ],
    );
    text.group(
        "a padded number before a later bad one, and before the bytes end",
        &[
            &[1, 133, 0, 9],
            &[1, 133, 0, 128, 128, 128],
            &[1, 133, 0, 131],
            &[1, 133, 0],
            &[129, 0, 9],
        ],
    );
}

/// The end of a sheet, and its rules.
fn line_ends(text: &mut Text) {
    text.group(
        "bytes that remain are not read, padded or not; a last number is",
        &[
            &[1, 5, 3, 1, 128, 0],
            &[1, 5, 3, 1, 128, 128, 0],
            &[1, 0, 0, 0, 128, 0],
            &[1, 5, 3, 129, 0, 0],
        ],
    );
    text.group(
        "padded before a rule broken",
        &[&[1, 132, 0, 2, 0], &[1, 4, 2, 128, 0]],
    );
}

/// Which refusal of a trail comes first, with one clock.
fn line_trails(text: &mut Text) {
    text.group(
        "the step count of a trail, before 14: 0; 128; 128 in shortest form; bytes that remain",
        &[
            &[2, 128, 0],
            &[2, 128, 128, 0],
            &[2, 128, 129, 0],
            &[2, 128, 1],
            &[2, 0, 128, 0],
        ],
    );
    text.group(
        "a kind: time, past the ceiling; jump; 4; after a bad one",
        &[
            &[2, 1, 128, 0],
            &[2, 3, 0, 0, 128, 0],
            &[2, 1, 129, 0],
            &[2, 1, 132, 0],
            &[2, 1, 132, 128, 0],
            &[2, 1, 4, 131, 0],
        ],
    );
    text.group(
        "an edge that is none; a bad region: first number, last, both, after it",
        &[
            &[2, 1, 1, 128, 0],
            &[2, 1, 2, 137, 0],
            &[2, 1, 2, 9, 137, 0],
            &[2, 1, 2, 137, 0, 137, 0],
            &[2, 1, 2, 9, 9, 131, 0],
        ],
    );
}

fn point(text: &mut Text) {
    let what = "The tiny model with a stay limit of 0.";
    text.plan("point, padding", &changed(LINE, 7, 1), what);
    at_each_place(text, "0 where it is not allowed", &[1, 1, 0, 0]);
    text.group(
        "not 0 where it is not allowed: padded, before a padded number",
        &[
            &[1, 1, 129, 0, 0],
            &[1, 1, 0, 130, 128, 0],
            &[1, 1, 1, 128, 0],
        ],
    );
}

/// Sheet numbers of two bytes.
fn eight_lines(text: &mut Text) {
    let plan = [&[1, 1, 4, 8, 0, 0][..], &[0; 16]].concat();
    let what = "One clock, ceiling 4, eight locations without an edge: 72 states.";
    text.plan("eight lines, padding", &plan, what);
    let sheet = |start: u32| {
        let mut numbers = vec![0; 73];
        numbers[..10].fill(1);
        (numbers[1], numbers[10]) = (start, 128);
        shortest(&numbers)
    };
    let (most, above) = (sheet(143), sheet(144));
    text.group(
        "143 and 128 in two bytes, and each in three",
        &[&most, &padded(&most, 1, 1), &padded(&most, 10, 1)],
    );
    text.group("the last number", &[&padded(&most, 72, 2)]);
    text.group(
        "144 in two bytes and in three",
        &[&above, &padded(&above, 1, 1)],
    );
}

fn forbidden_line(text: &mut Text) {
    let what = "The tiny model with its location forbidden.";
    text.plan("forbidden line, padding", &changed(LINE, 6, 1), what);
    at_each_place(text, "01's trail", &[2, 0]);
    at_each_place(text, "with a step", &[2, 1, 0]);
}

fn ring(text: &mut Text) {
    let what = "One forbidden location and an edge that resets its clock.";
    text.plan("ring, padding", &RING, what);
    let touch = [2, 3, 0, 0, 3, 0, 1, 3, 0, 1, 0, 0];
    at_each_place(text, "with a touch", &touch);
    at_each_place(text, "with a face and a jump", &[2, 3, 0, 2, 0, 0, 1, 0]);
}

/// Counts of two bytes: a jump 128 times, as a trail and as a walk.
fn long_counts(text: &mut Text) {
    let jumps = [1, 0].repeat(128);
    let trail = [&[2, 128, 1][..], &jumps].concat();
    text.group(
        "128 steps, the count in two bytes and in three",
        &[&trail, &padded(&trail, 1, 1)],
    );
    let walk = [&[2, 1, 3, 0, 0, 128, 1][..], &jumps].concat();
    text.group("a walk of 128 steps alike", &[&walk, &padded(&walk, 5, 1)]);
}

fn loop_places(text: &mut Text) {
    text.plan("loop, padding", &LOOP, "01's loop plan.");
    at_each_place_once(text, "01's trail", &LOOP_TRAIL);
    let but_last = |last: &[u8]| [&LOOP_TRAIL[..33], last].concat();
    text.group(
        "its last number: 2, for 14; broken off; with four bytes; before and after bytes remain",
        &[
            &but_last(&[130, 0]),
            &but_last(&[131]),
            &but_last(&[131, 128]),
            &but_last(&[131, 128, 128]),
            &but_last(&[131, 0, 0]),
            &but_last(&[3, 128, 0]),
        ],
    );
}

/// The loop plan: edges and faces.
fn loop_steps(text: &mut Text) {
    text.group(
        "edges: shut, 4, 256; the number after a bad edge; a broken off edge",
        &[
            &[2, 1, 1, 128, 0],
            &[2, 3, 0, 0, 1, 132, 0],
            &[2, 3, 0, 0, 1, 128, 130, 0],
            &[2, 1, 1, 0, 128, 0],
            &[2, 3, 0, 0, 1, 4, 128, 0],
            &[2, 3, 0, 0, 1, 128, 128],
        ],
    );
    text.group(
        "faces: none, at the last number; the number after it",
        &[
            &[2, 2, 0, 2, 1, 0, 0, 128, 0],
            &[2, 2, 0, 2, 1, 0, 0, 0, 128, 0],
        ],
    );
    text.group(
        "no region: before the bytes end, before four bytes; broken off; after four bytes",
        &[
            &[2, 2, 0, 2, 9, 137, 0],
            &[2, 2, 0, 2, 137, 0, 9, 128, 128, 128],
            &[2, 2, 0, 2, 9, 9, 9, 128],
            &[2, 2, 0, 2, 9, 9, 128, 128, 128, 128, 0],
        ],
    );
}

/// The loop plan: touches.
fn loop_touches(text: &mut Text) {
    let at_touch = |rest: &[u8]| [&LOOP_TRAIL[..9], rest].concat();
    text.group(
        "touches: no shared corner, at the last number and the one before; the count after it",
        &[
            &at_touch(&[3, 1, 2, 1, 128, 0]),
            &at_touch(&[3, 1, 2, 129, 0, 0]),
            &at_touch(&[3, 1, 2, 1, 0, 138, 0]),
        ],
    );
}

/// The loop plan: the walk of a touch.
fn loop_walks(text: &mut Text) {
    let at_walk = |rest: &[u8]| [&LOOP_TRAIL[..14], rest].concat();
    text.group(
        "the count of a walk: 0; broken off; the kind after a count of 0",
        &[
            &at_walk(&[128, 0]),
            &at_walk(&[138]),
            &at_walk(&[0, 128, 0]),
        ],
    );
    text.group(
        "in a walk: a face, edge 9, a shut edge",
        &[
            &at_walk(&[9, 130, 0]),
            &at_walk(&[9, 1, 137, 0]),
            &at_walk(&[9, 1, 128, 0]),
        ],
    );
    text.group(
        "after them; before one",
        &[
            &at_walk(&[9, 2, 128, 0]),
            &at_walk(&[9, 1, 9, 128, 0]),
            &at_walk(&[9, 1, 0, 128, 0]),
            &at_walk(&[9, 129, 0, 9]),
        ],
    );
    text.group(
        "a walk that does not close: its last number, the number after it",
        &[&at_walk(&[1, 128, 0]), &at_walk(&[1, 0, 128, 0])],
    );
}

fn cube(text: &mut Text) {
    text.plan("cube, padding", &CUBE, "Three clocks.");
    let touch = [2, 4, 0, 3, 0, 0, 0, 1, 1, 1, 3, 0, 1, 0, 0, 0, 1, 1];
    at_each_place_once(text, "with a touch", &touch);
}
