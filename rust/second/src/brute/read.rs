//! Reading a model: all numbers are spelled out first, then each is held
//! against the range that the numbers before it give. Blank stay fields are
//! looked up in the drawing, from the ceiling down. An edge can open if some
//! point of the clocks passes it; closed walks are gone one by one.

use crate::limits::{MAX_CEILING, MAX_CLOCKS, MAX_EDGES, MAX_LOCATIONS, NUMBER_BYTES};

#[derive(Debug, PartialEq, Eq, PartialOrd, Ord)]
pub struct Plan {
    pub clocks: usize,
    pub ceiling: u32,
    pub start: usize,
    pub forbidden: Vec<bool>,
    pub limits: Vec<Vec<u32>>,
    pub edges: Vec<PlanEdge>,
}

#[derive(Debug, PartialEq, Eq, PartialOrd, Ord)]
pub struct PlanEdge {
    pub from: usize,
    pub to: usize,
    pub resets: Vec<bool>,
    pub guard: Vec<(u32, u32)>,
}

/// The numbers that bytes spell, each also as its bytes, and the refusal that
/// stands after the last of them if the bytes do not end there.
pub struct Spelled<'a> {
    pub numbers: Vec<u32>,
    pub forms: Vec<&'a [u8]>,
    pub broken: Option<u8>,
}

/// The value of bytes that are one number and nothing more.
pub fn value_of(bytes: &[u8]) -> Option<u32> {
    let ends = |at: usize| bytes[at] < 128;
    let whole = (1..=NUMBER_BYTES).contains(&bytes.len())
        && (0..bytes.len()).all(|at| ends(at) == (at + 1 == bytes.len()));
    let digits = bytes.iter().rev().map(|&byte| u32::from(byte % 128));
    whole.then(|| digits.fold(0, |value, digit| value * 128 + digit))
}

pub fn spelled(bytes: &[u8]) -> Spelled<'_> {
    let (mut numbers, mut forms) = (Vec::new(), Vec::new());
    let mut broken = None;
    let mut rest = bytes;
    while !rest.is_empty() {
        let mut starts = (1..=rest.len().min(NUMBER_BYTES)).map(|length| rest.split_at(length));
        let whole = |(form, after)| value_of(form).map(|value| (value, form, after));
        let Some((value, form, after)) = starts.find_map(whole) else {
            broken = Some(if rest.len() < NUMBER_BYTES { 1 } else { 2 });
            break;
        };
        numbers.push(value);
        forms.push(form);
        rest = after;
    }
    Spelled {
        numbers,
        forms,
        broken,
    }
}

impl Spelled<'_> {
    pub fn get(&self, index: usize) -> Result<u32, u8> {
        self.numbers
            .get(index)
            .copied()
            .ok_or(self.broken.unwrap_or(1))
    }

    pub fn ends_at(&self, index: usize) -> bool {
        self.numbers.len() == index && self.broken.is_none()
    }
}

/// Least and greatest value of the number after these, and the refusal for
/// one outside; none after the last number of a model.
fn expected(before: &[u32]) -> Option<(u32, u32, u8)> {
    let header = [
        (1, 2),
        (1, MAX_CLOCKS as u32),
        (1, MAX_CEILING.into()),
        (1, MAX_LOCATIONS as u32),
        (0, MAX_EDGES as u32),
    ];
    let at = before.len();
    if let Some(&(least, greatest)) = header.get(at) {
        return Some((least, greatest, 3));
    }
    let (clocks, ceiling, locations, edges) =
        (before[1] as usize, before[2], before[3], before[4] as usize);
    if at == 5 {
        return Some((0, locations - 1, 3));
    }
    let at = at - 6;
    let all_locations = locations as usize * (1 + clocks);
    if at < all_locations {
        let most = if at.is_multiple_of(1 + clocks) {
            1
        } else {
            ceiling + 1
        };
        return Some((0, most, 4));
    }
    let at = at - all_locations;
    if at == edges * (3 + 2 * clocks) {
        return None;
    }
    Some(match at % (3 + 2 * clocks) {
        0 | 1 => (0, locations - 1, 5),
        2 => (0, 2u32.pow(clocks as u32) - 1, 5),
        low if low % 2 == 1 => (0, ceiling, 5),
        _ => (before[before.len() - 1], ceiling, 5),
    })
}

pub fn read(bytes: &[u8]) -> Result<Plan, u8> {
    read_with_mark(bytes).map(|(_, plan)| plan)
}

pub fn read_with_mark(bytes: &[u8]) -> Result<(u32, Plan), u8> {
    let spelled = spelled(bytes);
    let mut length = 0;
    while let Some((least, greatest, refusal)) = expected(&spelled.numbers[..length]) {
        let number = spelled.get(length)?;
        if number < least || number > greatest {
            return Err(refusal);
        }
        length += 1;
    }
    if !spelled.ends_at(length) {
        return Err(6);
    }
    let plan = plan_of(&spelled.numbers);
    if plan.walks_without_reset() {
        return Err(7);
    }
    Ok((spelled.numbers[0], plan))
}

fn plan_of(numbers: &[u32]) -> Plan {
    let (clocks, ceiling, locations) = (numbers[1] as usize, numbers[2], numbers[3] as usize);
    let (drawn, edges) = numbers[6..].split_at(locations * (1 + clocks));
    let mut plan = Plan {
        clocks,
        ceiling,
        start: numbers[5] as usize,
        forbidden: drawn
            .chunks(1 + clocks)
            .map(|location| location[0] == 1)
            .collect(),
        limits: Vec::new(),
        edges: edges
            .chunks(3 + 2 * clocks)
            .map(|edge| PlanEdge {
                from: edge[0] as usize,
                to: edge[1] as usize,
                resets: (0..clocks)
                    .map(|clock| edge[2] / 2u32.pow(clock as u32) % 2 == 1)
                    .collect(),
                guard: edge[3..].chunks(2).map(|pair| (pair[0], pair[1])).collect(),
            })
            .collect(),
    };
    let limit = |location: usize, clock: usize| match drawn[location * (1 + clocks) + 1 + clock] {
        0 => plan.default_limit(numbers[0], location, clock),
        stay => stay - 1,
    };
    let limits = |location| (0..clocks).map(|clock| limit(location, clock)).collect();
    plan.limits = (0..locations).map(limits).collect();
    plan
}

impl Plan {
    /// What a blank stay field means with a mark. With mark 2 values are tried
    /// from the ceiling down, until an edge from the location has the value as
    /// its high; if none has any, and with mark 1, it is the ceiling.
    pub fn default_limit(&self, mark: u32, location: usize, clock: usize) -> u32 {
        let closes_at =
            |edge: &PlanEdge, value: u32| edge.from == location && edge.guard[clock].1 == value;
        (0..=self.ceiling)
            .rev()
            .filter(|_| mark == 2)
            .find(|&value| self.edges.iter().any(|edge| closes_at(edge, value)))
            .unwrap_or(self.ceiling)
    }

    /// Whether some whole point is within the guard and the limits of the
    /// location that the edge leaves and, after the resets, within those of the
    /// one that it enters.
    pub fn lets_a_point_pass(&self, edge: &PlanEdge) -> bool {
        let values = self.ceiling + 1;
        let within = |at: usize, point: &[u32]| {
            let mut pairs = point.iter().zip(&self.limits[at]);
            pairs.all(|(value, limit)| value <= limit)
        };
        (0..values.pow(self.clocks as u32)).any(|number| {
            let digit = |clock: usize| number / values.pow(clock as u32) % values;
            let before: Vec<u32> = (0..self.clocks).map(digit).collect();
            let mut pairs = before.iter().zip(&edge.guard);
            let open = pairs.all(|(value, (low, high))| (low..=high).contains(&value));
            let kept = edge.resets.iter().map(|&reset| u32::from(!reset));
            let after: Vec<u32> = before.iter().zip(kept).map(|(v, kept)| v * kept).collect();
            open && within(edge.from, &before) && within(edge.to, &after)
        })
    }

    /// Whether some closed walk of edges that let a point pass leaves a clock
    /// unreset. One that passes no location twice does, if any does.
    fn walks_without_reset(&self) -> bool {
        let all = self.edges.iter();
        let edges: Vec<&PlanEdge> = all.filter(|edge| self.lets_a_point_pass(edge)).collect();
        let clocks: Vec<usize> = (0..self.clocks).collect();
        (0..self.forbidden.len()).any(|home| closes(&edges, &[home], &clocks))
    }
}

/// Whether a way on from the last of these locations, none of which it passes,
/// leads back to the first and keeps one of these clocks throughout.
fn closes(edges: &[&PlanEdge], places: &[usize], clocks: &[usize]) -> bool {
    let mut on = edges.iter().filter(|edge| places.ends_with(&[edge.from]));
    on.any(|edge| {
        let kept = clocks.iter().copied().filter(|&clock| !edge.resets[clock]);
        let kept: Vec<usize> = kept.collect();
        let longer = [places, &[edge.to]].concat();
        let goes_on = || !places.contains(&edge.to) && closes(edges, &longer, &kept);
        !kept.is_empty() && (edge.to == places[0] || goes_on())
    })
}
