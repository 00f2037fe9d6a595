//! The proved library and the second checker timed in one run: for each size
//! and class the time of a call, turn by turn, the fastest of some repeats,
//! added up over some models. The second checker's tables of regions are
//! built once beforehand. With a folder as its argument it also draws the times
//! there: safe.svg and unsafe.svg.

mod joint;
mod plot;

use second::generate::{generate_sized, Class};
use second::regions::Regions;
use std::hint::black_box;
use std::path::Path;
use std::time::{Duration, Instant};

const MODELS: u64 = 8;
const REPEATS: usize = 15;

/// The calls that are timed, in the order of the columns.
const CALLS: [&str; 6] = ["judge", "margin", "harm", "marks", "evidence", "check"];

/// Ours, then the second checker's, for each call.
type Times = [[Duration; 2]; CALLS.len()];

/// Mean microseconds, ours and the second checker's, for each call.
type Means = [[f64; 2]; CALLS.len()];

/// Clocks, ceiling, locations.
type Size = (usize, u8, usize);

const SIZES: [Size; 7] = [
    (2, 2, 4),
    (2, 4, 4),
    (3, 2, 4),
    (3, 3, 4),
    (3, 4, 2),
    (3, 4, 4),
    (3, 4, 8),
];

/// One clock, one location.
const SMALLEST: Size = (1, 1, 1);

fn time<T>(run: impl FnOnce() -> T) -> Duration {
    let begin = Instant::now();
    black_box(run());
    begin.elapsed()
}

/// The fastest time of each of two runs, taken in turns.
fn both<T, U>(mut ours: impl FnMut() -> T, mut theirs: impl FnMut() -> U) -> [Duration; 2] {
    let mut fastest = [Duration::MAX; 2];
    for _ in 0..REPEATS {
        fastest[0] = fastest[0].min(time(&mut ours));
        fastest[1] = fastest[1].min(time(&mut theirs));
    }
    fastest
}

struct Buffers {
    scratch: drift::Buffers,
    output: Vec<u8>,
}

impl Buffers {
    fn new(states: usize) -> Buffers {
        Buffers {
            scratch: drift::Buffers::new(states),
            output: vec![0; second::program::OUTPUT],
        }
    }

    fn judge(&mut self, model: &[u8]) -> drift::Judgement {
        drift::judge(model, self.scratch.lend()).expect("an accepted model")
    }

    fn margin(&mut self, model: &[u8]) -> drift::SheetMargin {
        drift::sheet_margin(model, self.scratch.lend()).expect("an accepted model")
    }

    fn harm(&mut self, model: &[u8]) -> drift::Harm {
        drift::harm(model, self.scratch.lend()).expect("an accepted model")
    }

    fn soonest(&mut self, model: &[u8], location: u64) -> Result<u64, drift::Refusal> {
        drift::soonest(model, location, self.scratch.lend())
    }

    fn marks(&mut self, model: &[u8]) -> usize {
        drift::marks(model, self.scratch.lend(), &mut self.output).expect("an accepted model")
    }

    fn evidence(&mut self, model: &[u8]) -> drift::Written {
        drift::write_evidence(model, self.scratch.lend(), &mut self.output).expect("it fits")
    }

    fn judge_joint(&mut self, model: &[u8]) -> drift::Judgement {
        drift::judge_joint(model, self.scratch.lend()).expect("a joint reset")
    }

    fn marks_joint(&mut self, model: &[u8]) -> usize {
        drift::marks_joint(model, self.scratch.lend(), &mut self.output).expect("a joint reset")
    }

    fn evidence_joint(&mut self, model: &[u8]) -> drift::Written {
        drift::write_joint(model, self.scratch.lend(), &mut self.output).expect("it fits")
    }

    fn check(&mut self, model: &[u8], evidence: &[u8]) -> drift::Kind {
        drift::check_evidence(model, evidence, self.scratch.lend()).expect("passing evidence")
    }
}

fn main() {
    Regions::all().for_each(drop);
    println!(
        "microseconds of a call, mean of {MODELS} models, each the fastest of {REPEATS} turns"
    );
    println!(
        "a check is of the sheet where safe, else of the trail, as the second checker writes it"
    );
    let columns = CALLS.map(|call| format!(" | {call:>9} {:>9} {:>6}", "second", "ratio"));
    println!("{:>7} {:>6}{}", "states", "class", columns.concat());
    let means = SIZES.map(|size| classes(size).map(|class| line(size, class)));
    print_ratios(&means);
    print_growth(&means);
    print_plans();
    print_times();
    joint::print_joint();
    if let Some(folder) = std::env::args().nth(1) {
        draw(Path::new(&folder), &means);
    }
}

/// The two pictures into a folder.
fn draw(folder: &Path, means: &[[Means; 2]; SIZES.len()]) {
    for (class, name) in ["safe", "unsafe"].into_iter().enumerate() {
        let points: Vec<_> = SIZES
            .iter()
            .zip(means)
            .map(|(size, means)| (states_of(*size), means[class]))
            .collect();
        let file = folder.join(format!("{name}.svg"));
        std::fs::write(&file, plot::svg(&format!("{name} plans"), &points))
            .unwrap_or_else(|why| panic!("{}: {why}", file.display()));
    }
}

/// The class that is safe and one that is not.
fn classes((_, _, locations): Size) -> [Class; 2] {
    // A loop that only drift can leave needs three locations.
    let other = if locations > 2 {
        Class::Drift
    } else {
        Class::Plain
    };
    [Class::Safe, other]
}

/// All ratios, a line for each size.
fn print_ratios(means: &[[Means; 2]; SIZES.len()]) {
    println!();
    println!("ratios: evidence and check are of a sheet where safe, else of a trail");
    let columns = CALLS.map(|call| format!(" | {call:>9} {:>6}", ""));
    println!("{:>7}{}", "", columns.concat());
    let columns = CALLS.map(|_| format!(" | {:>9} {:>6}", "safe", "unsafe"));
    println!("{:>7}{}", "states", columns.concat());
    let ratio = |[ours, theirs]: &[f64; 2]| ours / theirs;
    for (size, [safe, other]) in SIZES.iter().zip(means) {
        let columns: String = safe
            .iter()
            .zip(other)
            .map(|(safe, other)| format!(" | {:>9.2} {:>6.2}", ratio(safe), ratio(other)))
            .collect();
        println!("{:>7}{columns}", states_of(*size));
    }
}

/// Our time for each thousand states: even where the time grows with the
/// states, less where what a call always does weighs less.
fn print_growth(means: &[[Means; 2]; SIZES.len()]) {
    println!();
    println!("growth: our microseconds for each thousand states");
    let columns = CALLS.map(|call| format!(" | {call:>9} {:>6}", "unsafe"));
    println!("{:>7}{}", "states", columns.concat());
    for (size, [safe, other]) in SIZES.iter().zip(means) {
        let thousands = states_of(*size) as f64 / 1000.0;
        let columns: String = safe
            .iter()
            .zip(other)
            .map(|(safe, other)| {
                let (safe, other) = (safe[0] / thousands, other[0] / thousands);
                format!(" | {safe:>9.0} {other:>6.0}")
            })
            .collect();
        println!("{:>7}{columns}", states_of(*size));
    }
}

/// Plans in shortest form, and their room: calls that know no states, so by the
/// bytes of a plan.
fn print_plans() {
    println!();
    println!("plans in shortest form, and the room of a plan: microseconds by its bytes");
    let columns = ["shortest", "room"].map(|call| format!(" | {call:>9} {:>9} ratio", "second"));
    println!("{:>7}{}", "bytes", columns.concat());
    for (clocks, ceiling, locations) in [SMALLEST].into_iter().chain(SIZES) {
        let model = generate_sized(0, clocks, ceiling.into(), locations, Class::Safe);
        let [mut ours, mut theirs] = [(); 2].map(|()| vec![0; model.len()]);
        let shortest = both(
            || drift::write_plan(&model, &mut ours),
            || second::write_plan(&model, &mut theirs),
        );
        let room = both(|| drift::room(&model), || second::room(&model));
        let columns = [shortest, room].map(|times| {
            let [ours, theirs] = times.map(|time| time.as_secs_f64() * 1e6);
            format!(" | {ours:>9.2} {theirs:>9.2} {:>5.2}", ours / theirs)
        });
        println!("{:>7}{}", model.len(), columns.concat());
    }
}

/// The least time to every location of a plan, by the states: the mean of a
/// call and the slowest one.
fn print_times() {
    println!();
    println!("least times: microseconds of a call to each location, the mean and the slowest");
    println!(
        "{:>7} {:>6} {:>9} {:>9} {:>6} {:>9} {:>9}",
        "states", "class", "ours", "second", "ratio", "slowest", "second"
    );
    for size in SIZES {
        let (clocks, ceiling, locations) = size;
        for class in classes(size) {
            let model = |seed| generate_sized(seed, clocks, u32::from(ceiling), locations, class);
            let models: Vec<_> = (0..MODELS).map(model).collect();
            let class = format!("{class:?}").to_lowercase();
            print_time(size, &class, &models);
        }
    }
    print_time(SIZES[SIZES.len() - 1], "open", &[open()]);
}

/// A plan of the largest size with as many whole points in reach as can be:
/// eight locations in a ring, three edges that are always open from each to the
/// next, each resetting one clock, the last ones all.
fn open() -> Vec<u8> {
    let mut model = vec![1, 3, 4, 8, 24, 0];
    model.extend([0; 4 * 8]);
    for from in 0..8 {
        for mask in [1, 2, 4] {
            let mask = if from == 7 { 7 } else { mask };
            model.extend([from, (from + 1) % 8, mask, 0, 4, 0, 4, 0, 4]);
        }
    }
    model
}

fn print_time(size: Size, class: &str, models: &[Vec<u8>]) {
    let states = states_of(size);
    let mut buffers = Buffers::new(states);
    let mut calls = Vec::new();
    for model in models {
        for location in 0..size.2 as u64 {
            let times = both(
                || buffers.soonest(model, location),
                || second::soonest(model, location, [states; 4]),
            );
            calls.push(times.map(|time| time.as_secs_f64() * 1e6));
        }
    }
    let of = |at: usize| calls.iter().map(move |times| times[at]);
    let [ours, theirs] = [0, 1].map(|at| of(at).sum::<f64>() / calls.len() as f64);
    let [slow, slow_theirs] = [0, 1].map(|at| of(at).fold(0.0, f64::max));
    let ratio = ours / theirs;
    println!(
        "{states:>7} {class:>6} {ours:>9.1} {theirs:>9.1} {ratio:>6.2} {slow:>9.1} {slow_theirs:>9.1}"
    );
}

fn states_of((clocks, ceiling, locations): Size) -> usize {
    locations * Regions::of(clocks, ceiling).count()
}

/// The evidence that the second checker writes.
fn evidence_of(model: &[u8], lengths: [usize; 4]) -> Vec<u8> {
    let mut out = vec![0; second::program::OUTPUT];
    let (_, written) = second::write_evidence(model, lengths, &mut out).expect("it fits");
    out.truncate(written);
    out
}

/// All calls on a model.
fn times(buffers: &mut Buffers, model: &[u8], states: usize) -> Times {
    let lengths = [states; 4];
    let evidence = evidence_of(model, lengths);
    let mut output = vec![0; second::program::OUTPUT];
    [
        both(|| buffers.judge(model), || second::judge(model, lengths)),
        both(
            || buffers.margin(model),
            || second::sheet_margin(model, lengths),
        ),
        both(|| buffers.harm(model), || second::harm(model, lengths)),
        both(
            || buffers.marks(model),
            || second::marks(model, lengths, &mut output),
        ),
        both(
            || buffers.evidence(model),
            || second::write_evidence(model, lengths, &mut output),
        ),
        both(
            || buffers.check(model, &evidence),
            || second::check_evidence(model, &evidence, lengths),
        ),
    ]
}

/// The times of a size and class on one line.
fn line(size: Size, class: Class) -> Means {
    let (clocks, ceiling, locations) = size;
    let states = states_of(size);
    let mut buffers = Buffers::new(states);
    let mut sums = Times::default();
    for seed in 0..MODELS {
        let model = generate_sized(seed, clocks, u32::from(ceiling), locations, class);
        for (sum, times) in sums.iter_mut().zip(times(&mut buffers, &model, states)) {
            sum[0] += times[0];
            sum[1] += times[1];
        }
    }
    let means = sums.map(|both| both.map(|time| time.as_secs_f64() * 1e6 / MODELS as f64));
    let columns: String = means
        .iter()
        .map(|[ours, theirs]| {
            let ratio = ours / theirs;
            format!(" | {ours:>9.1} {theirs:>9.1} {ratio:>6.2}")
        })
        .collect();
    let class = format!("{class:?}").to_lowercase();
    println!("{states:>7} {class:>6}{columns}");
    means
}
