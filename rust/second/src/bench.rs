//! Timings of judge, evidence and check at several sizes.

use crate::calls::{check_evidence, judge, write_evidence};
use crate::generate::{generate_sized, Class};
use crate::limits::MAX_STATES;
use crate::program::OUTPUT;
use crate::regions::Regions;
use std::time::{Duration, Instant};

const SCRATCH: [usize; 4] = [MAX_STATES; 4];
const MODELS: u64 = 5;
const REPEATS: usize = 5;

/// Clocks, ceiling, locations.
const SIZES: [(usize, u32, usize); 6] = [
    (1, 4, 8),
    (2, 2, 4),
    (2, 4, 8),
    (3, 3, 4),
    (3, 4, 2),
    (3, 4, 8),
];

/// The shortest of some runs.
fn fastest<T>(mut run: impl FnMut() -> T) -> Duration {
    let time = |_| {
        let begin = Instant::now();
        std::hint::black_box(run());
        begin.elapsed()
    };
    (0..REPEATS).map(time).min().unwrap_or_default()
}

/// One line per size and class, with the slowest of some models.
pub fn bench(mut line: impl FnMut(String)) {
    let begin = Instant::now();
    Regions::all().for_each(drop);
    line(format!(
        "all region tables, once per process: {} us",
        begin.elapsed().as_micros()
    ));
    line(format!(
        "slowest of {MODELS} models, each the fastest of {REPEATS} runs, in us:"
    ));
    line("states clocks ceiling locations class evidence-bytes judge evidence check".into());
    for (clocks, ceiling, locations) in SIZES {
        let classes: &[Class] = match (clocks, locations) {
            (1, _) | (_, 2) => &[Class::Safe, Class::Plain],
            _ => &[Class::Safe, Class::Drift, Class::Plain],
        };
        for &class in classes {
            let mut states = 0;
            let mut longest = 0;
            let mut slowest = [Duration::ZERO; 3];
            for seed in 0..MODELS {
                let model = generate_sized(seed, clocks, ceiling, locations, class);
                let mut out = vec![0; OUTPUT];
                let (_, written) = write_evidence(&model, SCRATCH, &mut out).expect("it fits");
                let evidence = out[..written].to_vec();
                states = judge(&model, SCRATCH).expect("an accepted model").states;
                longest = longest.max(written);
                let times = [
                    fastest(|| judge(&model, SCRATCH)),
                    fastest(|| write_evidence(&model, SCRATCH, &mut out)),
                    fastest(|| check_evidence(&model, &evidence, SCRATCH)),
                ];
                for (slow, time) in slowest.iter_mut().zip(times) {
                    *slow = time.max(*slow);
                }
            }
            let [judge, evidence, check] = slowest.map(|time| time.as_micros());
            let class = format!("{class:?}").to_lowercase();
            line(format!(
                "{states} {clocks} {ceiling} {locations} {class} {longest} {judge} {evidence} {check}"
            ));
        }
    }
}
