//! Asks what room the loop plan of document 01 needs and makes it, judges the plan,
//! asks the quicker judge, writes the plan's evidence, checks that, reads it number
//! by number, and asks how soon drift does harm and how soon perfect clocks get to
//! each location. c/example.c does the same in C.

use drift::{Buffers, Harm, Numbers, Refusal, Room, Verdict};

/// Clean with perfect clocks, unsafe under drift.
const PLAN: [u8; 46] = [
    1, 2, 2, 4, 4, 0, // mark, clocks, ceiling, locations, edges, start
    0, 0, 0, 0, 0, 0, 0, 0, 0, 1, 0, 0, // kind and stay fields of each location
    0, 1, 2, 1, 1, 1, 1, // from, to, reset mask, low and high of each clock
    1, 2, 1, 0, 2, 0, 2, //
    2, 1, 2, 0, 2, 2, 2, //
    2, 3, 0, 0, 0, 2, 2,
];

const LOCATIONS: u64 = 4;

fn main() {
    match report() {
        Ok(lines) => print!("{lines}"),
        Err(refusal) => {
            println!("refused {}: {refusal}", refusal.number());
            std::process::exit(1);
        }
    }
}

/// What is found of the plan, a line for each call.
pub fn report() -> Result<String, Refusal> {
    let room = drift::room(&PLAN)?;
    let mut buffers = Buffers::new(room.scratch);
    let judgement = drift::judge(&PLAN, buffers.lend())?;
    let is_joint = drift::judge_joint(&PLAN, buffers.lend()) != Err(Refusal::NotJoint);
    // A trail could be longer than any sheet; that of this plan is not.
    let mut out = vec![0; room.sheet];
    let written = drift::write_evidence(&PLAN, buffers.lend(), &mut out)?;
    let evidence = &out[..written.bytes];
    let kind = drift::check_evidence(&PLAN, evidence, buffers.lend())?;
    let harm = drift::harm(&PLAN, buffers.lend())?;
    Ok([
        room_lines(&room),
        format!("verdict {}\n", judgement.verdict),
        format!("states {}\n", judgement.states),
        format!("{} {}\n", counted(judgement.verdict), judgement.count),
        format!("joint reset {}\n", if is_joint { "yes" } else { "no" }),
        format!("bytes {}\n", written.bytes),
        format!("passes {kind}\n"),
        format!("numbers{}\n", numbers(evidence)?),
        harm_line(harm),
        format!("soonest{}\n", times(&mut buffers)?),
    ]
    .concat())
}

fn room_lines(room: &Room) -> String {
    let Room {
        scratch,
        sheet,
        steps,
        ..
    } = room;
    format!(
        "room for {scratch} numbers of scratch, four times\n\
         room for {sheet} bytes of a sheet, {steps} steps of a trail\n"
    )
}

/// What the count of a judgement counts.
fn counted(verdict: Verdict) -> &'static str {
    match verdict {
        Verdict::Safe => "in",
        Verdict::Unsafe => "steps",
    }
}

fn harm_line(harm: Harm) -> String {
    match harm {
        Harm::Safe { .. } => String::new(),
        Harm::Within { base, rate, .. } => {
            format!("harm within {base} + {rate}q jumps\n")
        }
    }
}

/// The least time to each location, each after a blank; the forbidden one, the
/// last, has none.
fn times(buffers: &mut Buffers) -> Result<String, Refusal> {
    let time = |location| match drift::soonest(&PLAN, location, buffers.lend()) {
        Ok(units) => Ok(format!(" {units}")),
        Err(Refusal::Unreached) => Ok(" never".to_string()),
        Err(refusal) => Err(refusal),
    };
    (0..LOCATIONS).map(time).collect()
}

/// The numbers that bytes spell, each after a blank.
fn numbers(bytes: &[u8]) -> Result<String, Refusal> {
    let mut numbers = Numbers::new(bytes);
    let mut words = String::new();
    while !numbers.at_end() {
        words += &format!(" {}", numbers.number()?);
    }
    Ok(words)
}
