//! How often each answer came up.

use second::dead_links::{has_dead_edge, is_refused_by_all_edges};
use second::model::Model;
use second::refusal::{LAST, NEVER_THERE, NO_JOINT_RESET, OUTPUT_TOO_SHORT, SCRATCH_TOO_SHORT};
use second::{Harm, Judgement, Room, SheetMargin};
use std::collections::BTreeMap;
use std::fmt;

/// What was written of one kind.
#[derive(Default)]
struct Written {
    count: u64,
    /// With a number of more than one byte.
    wide: u64,
    /// The most bytes.
    longest: usize,
}

impl Written {
    fn add(&mut self, bytes: &[u8]) {
        self.count += 1;
        self.wide += u64::from(bytes.iter().any(|&byte| byte >= 0x80));
        self.longest = bytes.len().max(self.longest);
    }
}

impl fmt::Display for Written {
    fn fmt(&self, f: &mut fmt::Formatter) -> fmt::Result {
        write!(
            f,
            "{}, {} with a number of more than one byte, longest {} bytes",
            self.count, self.wide, self.longest
        )
    }
}

/// Plans put in shortest form, and how many bytes fewer that took.
#[derive(Default)]
struct Plans {
    count: u64,
    /// With fewer bytes than they had.
    shorter: u64,
    /// With as many, but other bytes.
    other: u64,
    saved: usize,
    refused: [u64; OUTPUT_TOO_SHORT as usize + 1],
}

impl fmt::Display for Plans {
    fn fmt(&self, f: &mut fmt::Formatter) -> fmt::Result {
        write!(
            f,
            "{}, {} of them shorter by {} bytes in all, {} changed alone, refused 1 to 9 {:?}",
            self.count,
            self.shorter,
            self.saved,
            self.other,
            &self.refused[1..]
        )
    }
}

/// The margins told, and the greatest.
#[derive(Default)]
struct Margins {
    count: u64,
    greatest: u32,
}

/// The harms told, and the greatest base and rate.
#[derive(Default)]
struct Harms {
    count: u64,
    base: u64,
    rate: u64,
}

/// The least times told, the greatest, and the calls that told none.
#[derive(Default)]
struct Times {
    count: u64,
    greatest: u64,
    unreached: u64,
    refused: u64,
}

/// Accepted plans of a mark, and how many get another verdict in the other or
/// are refused there.
#[derive(Default)]
struct Marked {
    count: u64,
    turned: u64,
    refused: u64,
}

/// Plans that the quicker judge takes, safe and unsafe, those of them whose
/// trail without touch is longer than the full judge's, and those refused by 17.
#[derive(Default)]
struct Joint {
    taken: [u64; 2],
    longer: u64,
    refused: u64,
}

/// Accepted plans with edges that can never open, and how many of them
/// document 01's test on all edges would refuse.
#[derive(Default)]
struct Shut {
    count: u64,
    judged_now: u64,
}

impl fmt::Display for Times {
    fn fmt(&self, f: &mut fmt::Formatter) -> fmt::Result {
        write!(
            f,
            "times: {}, greatest {}, none {}, refused 1 to 8 {}",
            self.count, self.greatest, self.unreached, self.refused
        )
    }
}

/// Rooms told, by the number of states, and refused; sheets that pass, those of
/// them that are as long as the limit, and of these those whose numbers take more
/// than a byte.
#[derive(Default)]
struct Rooms {
    states: BTreeMap<usize, u64>,
    refused: [u64; SCRATCH_TOO_SHORT as usize],
    sheets: u64,
    at_limit: u64,
    at_wide_limit: u64,
}

impl fmt::Display for Rooms {
    fn fmt(&self, f: &mut fmt::Formatter) -> fmt::Result {
        write!(
            f,
            "rooms: {} for {} numbers of states up to {}, refused 1 to 7 {:?}; of {} \
             sheets that pass {} are as long as the limit, {} of them with two or three bytes a \
             number",
            self.states.values().sum::<u64>(),
            self.states.len(),
            self.states.keys().last().unwrap_or(&0),
            &self.refused[1..],
            self.sheets,
            self.at_limit,
            self.at_wide_limit
        )
    }
}

#[derive(Default)]
pub struct Tally {
    /// Safe and unsafe models.
    judged: [u64; 2],
    /// Models by the refusal.
    unjudged: [u64; SCRATCH_TOO_SHORT as usize + 1],
    /// By the mark.
    marked: BTreeMap<u32, Marked>,
    shut: Shut,
    joint: Joint,
    rooms: Rooms,
    plans: Plans,
    margins: Margins,
    harms: Harms,
    times: Times,
    /// Sheets and trails written.
    written: [Written; 2],
    /// Calls of the writer by the refusal.
    unwritten: [u64; OUTPUT_TOO_SHORT as usize + 1],
    /// Passing sheets and trails, at 1 and 2.
    passed: [u64; 3],
    /// By the refusal.
    refused: [u64; LAST as usize + 1],
    /// By the kind of evidence: pairs, and how many passed.
    kinds: BTreeMap<&'static str, (u64, u64)>,
}

impl Tally {
    pub fn judged(&mut self, answer: &Result<Judgement, u8>) {
        match answer {
            Ok(judgement) => self.judged[usize::from(judgement.is_unsafe)] += 1,
            Err(refusal) => self.unjudged[usize::from(*refusal)] += 1,
        }
    }

    /// By what is said of unsafe in the plan's own mark and in the other.
    pub fn remarked(&mut self, mark: u32, own: Result<bool, u8>, other: Result<bool, u8>) {
        let marked = self.marked.entry(mark).or_default();
        marked.count += 1;
        marked.turned += u64::from(other.is_ok() && own != other);
        marked.refused += u64::from(other.is_err());
    }

    /// By what the quicker judge and the full one say.
    pub fn joint(&mut self, answer: &Result<Judgement, u8>, full: &Result<Judgement, u8>) {
        match (answer, full) {
            (Ok(judged), Ok(full)) => {
                self.joint.taken[usize::from(judged.is_unsafe)] += 1;
                self.joint.longer += u64::from(judged.is_unsafe && full.count < judged.count);
            }
            (Err(NO_JOINT_RESET), _) => self.joint.refused += 1,
            _ => {}
        }
    }

    pub fn room(&mut self, answer: &Result<Room, u8>) {
        match answer {
            Ok(room) => *self.rooms.states.entry(room.states).or_default() += 1,
            Err(refusal) => self.rooms.refused[usize::from(*refusal)] += 1,
        }
    }

    /// A sheet that passes, of so many bytes, by the limit that was told.
    pub fn limit(&mut self, room: &Room, bytes: usize) {
        let at_limit = bytes == room.sheet;
        self.rooms.sheets += 1;
        self.rooms.at_limit += u64::from(at_limit);
        self.rooms.at_wide_limit += u64::from(at_limit && bytes > room.states + 1);
    }

    /// An accepted model by its edges.
    pub fn edges(&mut self, model: &Model) {
        if has_dead_edge(model) {
            self.shut.count += 1;
            self.shut.judged_now += u64::from(is_refused_by_all_edges(model));
        }
    }

    pub fn shortened(&mut self, model: &[u8], answer: &Result<Vec<u8>, u8>) {
        let plans = &mut self.plans;
        match answer {
            Ok(bytes) => {
                plans.count += 1;
                plans.shorter += u64::from(bytes.len() < model.len());
                plans.other += u64::from(bytes.len() == model.len() && bytes != model);
                plans.saved += model.len() - bytes.len();
            }
            Err(refusal) => plans.refused[usize::from(*refusal)] += 1,
        }
    }

    pub fn margin(&mut self, answer: &Result<SheetMargin, u8>) {
        if let Ok(SheetMargin::Safe { margin, .. }) = answer {
            self.margins.count += 1;
            self.margins.greatest = self.margins.greatest.max(*margin);
        }
    }

    pub fn harm(&mut self, answer: &Result<Harm, u8>) {
        if let Ok(Harm::Within { bound, .. }) = answer {
            self.harms.count += 1;
            self.harms.base = self.harms.base.max(bound.base);
            self.harms.rate = self.harms.rate.max(bound.rate);
        }
    }

    pub fn soonest(&mut self, answer: &Result<u64, u8>) {
        let times = &mut self.times;
        match answer {
            Ok(time) => {
                times.count += 1;
                times.greatest = times.greatest.max(*time);
            }
            Err(NEVER_THERE) => times.unreached += 1,
            Err(_) => times.refused += 1,
        }
    }

    pub fn written(&mut self, answer: &Result<(bool, Vec<u8>), u8>) {
        match answer {
            Ok((is_unsafe, bytes)) => self.written[usize::from(*is_unsafe)].add(bytes),
            Err(refusal) => self.unwritten[usize::from(*refusal)] += 1,
        }
    }

    pub fn checked(&mut self, kind: &'static str, answer: Result<u32, u8>) {
        let (pairs, passed) = self.kinds.entry(kind).or_default();
        *pairs += 1;
        match answer {
            Ok(what) => {
                self.passed[what as usize] += 1;
                *passed += 1;
            }
            Err(refusal) => self.refused[usize::from(refusal)] += 1,
        }
    }

    /// The pairs of a model and evidence.
    pub fn pairs(&self) -> u64 {
        self.kinds.values().map(|(pairs, _)| pairs).sum()
    }
}

impl fmt::Display for Tally {
    fn fmt(&self, f: &mut fmt::Formatter) -> fmt::Result {
        let [safe, is_unsafe] = &self.judged;
        let refused = &self.unjudged[1..];
        writeln!(
            f,
            "models: safe {safe}, unsafe {is_unsafe}, refused 1 to 8 {refused:?}"
        )?;
        for (mark, marked) in &self.marked {
            writeln!(
                f,
                "  of mark {mark}: {}, of which the other mark turns the verdict of {} and refuses {}",
                marked.count, marked.turned, marked.refused
            )?;
        }
        writeln!(
            f,
            "  with edges that can never open: {}, of which a test on all edges would refuse {}",
            self.shut.count, self.shut.judged_now
        )?;
        let Joint {
            taken: [safe, is_unsafe],
            longer,
            refused,
        } = &self.joint;
        writeln!(
            f,
            "  with joint resets: safe {safe}, unsafe {is_unsafe}, of which {longer} have a longer \
             trail without touch; refused 17: {refused}"
        )?;
        writeln!(f, "{}", self.rooms)?;
        writeln!(f, "plans in shortest form: {}", self.plans)?;
        let Margins { count, greatest } = &self.margins;
        writeln!(f, "margins: {count}, greatest {greatest}")?;
        let Harms { count, base, rate } = &self.harms;
        writeln!(
            f,
            "harms: {count}, greatest base {base}, greatest rate {rate}"
        )?;
        writeln!(f, "{}", self.times)?;
        let [sheets, trails] = &self.written;
        writeln!(f, "sheets written: {sheets}")?;
        writeln!(f, "trails written: {trails}")?;
        let unwritten = &self.unwritten[1..];
        writeln!(f, "not written, refused 1 to 9 {unwritten:?}")?;
        writeln!(
            f,
            "pairs: sheets passed {}, trails passed {}",
            self.passed[1], self.passed[2]
        )?;
        for (refusal, count) in self.refused.iter().enumerate().skip(1) {
            if ![OUTPUT_TOO_SHORT, NEVER_THERE, NO_JOINT_RESET]
                .map(usize::from)
                .contains(&refusal)
            {
                writeln!(f, "  refused {refusal}: {count}")?;
            }
        }
        for (kind, (pairs, passed)) in &self.kinds {
            writeln!(f, "  {kind}: {pairs}, passed {passed}")?;
        }
        Ok(())
    }
}
