//! Plans with a joint reset: the quicker judge, marks and writer beside the full
//! ones, and beside the second checker's, on the same plans in one run.

use crate::{states_of, time, Buffers, Size, MODELS, REPEATS, SIZES};
use second::generate::{generate_sized, Class};
use std::hint::black_box;
use std::time::Duration;

/// Smaller plans than elsewhere too, down to one location with one clock.
const SMALL: [Size; 4] = [(1, 1, 1), (1, 4, 2), (2, 1, 2), (2, 2, 2)];

const CALLS: [&str; 3] = ["judge", "marks", "evidence"];

/// Ours, the full call's of ours, and the second checker's quicker one, for
/// each call.
type Times = [[Duration; 3]; CALLS.len()];

pub fn print_joint() {
    println!();
    println!("plans with a joint reset: microseconds of the quicker call; as a part of the full");
    println!("one's, the mean and the most of all plans; and of the second checker's quicker one");
    let columns =
        CALLS.map(|call| format!(" | {call:>9} {:>6} {:>6} {:>6}", "full", "most", "second"));
    println!(
        "{:>7} {:>6} {:>3}{}",
        "states",
        "class",
        "",
        columns.concat()
    );
    for size in SMALL.into_iter().chain(SIZES) {
        let plans: Vec<_> = (0..4 * MODELS).map(|seed| plan(size, seed)).collect();
        for is_unsafe in [false, true] {
            let of_class = plans.iter().filter(|plan| plan.1 == is_unsafe);
            let models: Vec<_> = of_class
                .map(|plan| &plan.0[..])
                .take(MODELS as usize)
                .collect();
            if !models.is_empty() {
                print_line(size, is_unsafe, &models);
            }
        }
    }
}

/// A generated plan with joint resets, and whether it is unsafe.
fn plan(size: Size, seed: u64) -> (Vec<u8>, bool) {
    let (clocks, ceiling, locations) = size;
    let class = [Class::Safe, Class::Plain][seed as usize % 2];
    let model = match (locations, class) {
        (1, class) => alone(size, matches!(class, Class::Plain)),
        (_, class) => jointly(
            &generate_sized(seed, clocks, ceiling.into(), locations, class),
            size,
        ),
    };
    let states = states_of(size);
    let judged = second::judge_joint(&model, [states; 4]).expect("a joint reset");
    (model, judged.is_unsafe)
}

/// One location without an edge.
fn alone((clocks, ceiling, _): Size, forbidden: bool) -> Vec<u8> {
    let header = [1, clocks as u8, ceiling, 1, 0, 0, u8::from(forbidden)];
    [&header[..], &vec![0; clocks]].concat()
}

/// The plan with every edge that does not lead to a later location resetting
/// all clocks: each closed walk has one. No number of such a plan is padded.
fn jointly(model: &[u8], (clocks, _, locations): Size) -> Vec<u8> {
    let mut model = model.to_vec();
    let edges = 6 + locations * (1 + clocks);
    for edge in model[edges..].chunks_exact_mut(3 + 2 * clocks) {
        if edge[1] <= edge[0] {
            edge[2] = (1 << clocks) - 1;
        }
    }
    model
}

fn print_line(size: Size, is_unsafe: bool, models: &[&[u8]]) {
    let states = states_of(size);
    let mut buffers = Buffers::new(states);
    let times: Vec<Times> = models
        .iter()
        .map(|model| times(&mut buffers, model, states))
        .collect();
    let columns = [0, 1, 2].map(|call| {
        let micros = |at: usize| {
            times
                .iter()
                .map(move |times| times[call][at].as_secs_f64() * 1e6)
        };
        let [ours, full, second] = [0, 1, 2].map(|at| micros(at).sum::<f64>());
        let parts = micros(0).zip(micros(1)).map(|(ours, full)| ours / full);
        let most = parts.fold(0.0, f64::max);
        format!(
            " | {:>9.2} {:>6.2} {most:>6.2} {:>6.2}",
            ours / models.len() as f64,
            ours / full,
            ours / second
        )
    });
    let class = if is_unsafe { "unsafe" } else { "safe" };
    println!(
        "{states:>7} {class:>6} {:>3}{}",
        models.len(),
        columns.concat()
    );
}

fn times(buffers: &mut Buffers, model: &[u8], states: usize) -> Times {
    let lengths = [states; 4];
    let mut output = vec![0; second::program::OUTPUT];
    [
        turns(
            buffers,
            |buffers| used(buffers.judge_joint(model)),
            |buffers| used(buffers.judge(model)),
            || used(second::judge_joint(model, lengths)),
        ),
        turns(
            buffers,
            |buffers| used(buffers.marks_joint(model)),
            |buffers| used(buffers.marks(model)),
            || used(second::marks_joint(model, lengths, &mut output)),
        ),
        turns(
            buffers,
            |buffers| used(buffers.evidence_joint(model)),
            |buffers| used(buffers.evidence(model)),
            || used(second::write_joint(model, lengths, &mut output)),
        ),
    ]
}

/// An answer that the compiler must not leave out.
fn used<T>(answer: T) {
    black_box(answer);
}

/// The fastest time of each of three runs, taken in turns.
fn turns(
    buffers: &mut Buffers,
    joint: impl Fn(&mut Buffers),
    full: impl Fn(&mut Buffers),
    mut second: impl FnMut(),
) -> [Duration; 3] {
    let mut fastest = [Duration::MAX; 3];
    for _ in 0..REPEATS {
        fastest[0] = fastest[0].min(time(|| joint(buffers)));
        fastest[1] = fastest[1].min(time(|| full(buffers)));
        fastest[2] = fastest[2].min(time(&mut second));
    }
    fastest
}
