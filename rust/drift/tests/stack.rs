//! A refusal takes little of the stack: the tables of a plan stand there only in
//! calls that fill them. A thread that runs out of its stack ends the test.

use drift::{Buffers, Refusal};
use std::thread;

const LOOP: &str = include_str!("../../../plans/loop.plan");

/// Less than a quarter of what the tables take.
const STACK: usize = 1 << 16;

/// The bytes of a list of numbers.
fn model() -> Vec<u8> {
    let lines = LOOP.lines().filter(|line| !line.starts_with('#'));
    lines
        .flat_map(|line| line.split([',', ';', ' ']))
        .filter(|word| !word.is_empty())
        .map(|word| word.parse().expect("a byte"))
        .collect()
}

fn on_little_stack(run: impl FnOnce() + Send + 'static) {
    let thread = thread::Builder::new().stack_size(STACK);
    thread
        .spawn(run)
        .expect("a thread")
        .join()
        .expect("no panic");
}

#[test]
fn no_joint_reset() {
    let model = model();
    let mut buffers = Buffers::new(drift::room(&model).expect("a plan").scratch);
    let mut out = vec![0; 1 << 10];
    on_little_stack(move || {
        let refusal = Some(Refusal::NotJoint);
        assert_eq!(drift::judge_joint(&model, buffers.lend()).err(), refusal);
        let marks = drift::marks_joint(&model, buffers.lend(), &mut out);
        assert_eq!(marks.err(), refusal);
        let written = drift::write_joint(&model, buffers.lend(), &mut out);
        assert_eq!(written.err(), refusal);
    });
}

#[test]
fn too_little_scratch() {
    let model = model();
    let mut buffers = Buffers::new(drift::room(&model).expect("a plan").scratch - 1);
    let mut out = vec![0; 1 << 10];
    on_little_stack(move || {
        let refusal = Some(Refusal::ScratchTooShort);
        assert_eq!(drift::judge(&model, buffers.lend()).err(), refusal);
        let marks = drift::marks(&model, buffers.lend(), &mut out);
        assert_eq!(marks.err(), refusal);
        let written = drift::write_evidence(&model, buffers.lend(), &mut out);
        assert_eq!(written.err(), refusal);
        let checked = drift::check_evidence(&model, &out, buffers.lend());
        assert_eq!(checked.err(), refusal);
    });
}
