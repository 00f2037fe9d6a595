//! Regions from the definition: all lists of whole parts and ranks are tried,
//! and each lawful one is met through one valuation that lies in it.

use crate::limits::{MAX_CEILING, MAX_CLOCKS};
use std::collections::BTreeSet;
use std::sync::OnceLock;

/// Valuations count in eighths, so that a fraction for each clock fits (2, 4
/// and 6) and there is room between them and after them.
pub const UNIT: u32 = 2 * (MAX_CLOCKS as u32 + 1);

pub type Valuation = Vec<u32>;

pub type Corners = BTreeSet<Vec<u32>>;

pub struct NaiveRegions {
    /// Whole parts and ranks, ascending.
    pub list: Vec<(Vec<u32>, Vec<u32>)>,
    pub corners: Vec<Corners>,
    /// is_face[i][j]: j is a face of i.
    pub is_face: Vec<Vec<bool>>,
    /// shares[i][j]: i and j share a corner.
    pub shares: Vec<Vec<bool>>,
}

/// All lists of the given length with entries 0..=most.
fn all_lists(length: usize, most: u32) -> Vec<Vec<u32>> {
    if length == 0 {
        return vec![Vec::new()];
    }
    let shorter = all_lists(length - 1, most);
    (0..=most)
        .flat_map(|first| {
            shorter
                .iter()
                .map(move |rest| [&[first], rest.as_slice()].concat())
        })
        .collect()
}

fn is_region(whole: &[u32], rank: &[u32], ceiling: u32) -> bool {
    let fractions: BTreeSet<u32> = rank.iter().copied().filter(|&r| r > 0).collect();
    let just: BTreeSet<u32> = (1..=fractions.len() as u32).collect();
    fractions == just && whole.iter().zip(rank).all(|(&w, &r)| w < ceiling || r == 0)
}

/// All regions as whole parts and ranks, ascending.
pub fn all_regions(clocks: usize, ceiling: u32) -> Vec<(Vec<u32>, Vec<u32>)> {
    let mut list = Vec::new();
    for rank in all_lists(clocks, clocks as u32) {
        for whole in all_lists(clocks, ceiling) {
            if is_region(&whole, &rank, ceiling) {
                list.push((whole, rank.clone()));
            }
        }
    }
    list.sort();
    list
}

/// The whole points of the closure of a region: no clock leaves its unit,
/// and fractions keep their order, though not strictly.
fn whole_points(whole: &[u32], rank: &[u32], ceiling: u32) -> Corners {
    let clocks = whole.len();
    let in_closure = |point: &Vec<u32>| {
        (0..clocks).all(|i| {
            let raised = point[i] as i64 - whole[i] as i64;
            let within = if rank[i] == 0 {
                raised == 0
            } else {
                raised == 0 || raised == 1
            };
            within
                && (0..clocks).all(|j| {
                    let other = point[j] as i64 - whole[j] as i64;
                    rank[i] == 0 || rank[j] == 0 || rank[i] > rank[j] || raised <= other
                })
        })
    };
    all_lists(clocks, ceiling)
        .into_iter()
        .filter(in_closure)
        .collect()
}

impl NaiveRegions {
    pub fn of(clocks: usize, ceiling: u32) -> &'static NaiveRegions {
        static TABLES: [[OnceLock<NaiveRegions>; MAX_CEILING as usize]; MAX_CLOCKS] =
            [const { [const { OnceLock::new() }; MAX_CEILING as usize] }; MAX_CLOCKS];
        TABLES[clocks - 1][ceiling as usize - 1].get_or_init(|| NaiveRegions::new(clocks, ceiling))
    }

    fn new(clocks: usize, ceiling: u32) -> NaiveRegions {
        let list = all_regions(clocks, ceiling);
        let corners: Vec<Corners> = list
            .iter()
            .map(|(whole, rank)| whole_points(whole, rank, ceiling))
            .collect();
        let pairs = |related: fn(&Corners, &Corners) -> bool| -> Vec<Vec<bool>> {
            corners
                .iter()
                .map(|own| corners.iter().map(|its| related(own, its)).collect())
                .collect()
        };
        NaiveRegions {
            is_face: pairs(|own, its| its.is_subset(own) && its != own),
            shares: pairs(|own, its| !own.is_disjoint(its)),
            corners,
            list,
        }
    }

    /// A valuation inside the region.
    pub fn sample(&self, region: usize) -> Valuation {
        let (whole, rank) = &self.list[region];
        whole
            .iter()
            .zip(rank)
            .map(|(w, r)| w * UNIT + 2 * r)
            .collect()
    }

    /// The region in which a valuation lies.
    pub fn region_of(&self, valuation: &[u32]) -> usize {
        let whole: Vec<u32> = valuation.iter().map(|v| v / UNIT).collect();
        let fractions: BTreeSet<u32> = valuation
            .iter()
            .map(|v| v % UNIT)
            .filter(|&f| f > 0)
            .collect();
        let rank: Vec<u32> = valuation
            .iter()
            .map(|v| fractions.range(..=v % UNIT).count() as u32)
            .collect();
        self.find(&whole, &rank)
            .expect("a valuation up to the ceiling lies in a region")
    }

    pub fn find(&self, whole: &[u32], rank: &[u32]) -> Option<usize> {
        self.list.iter().position(|(w, r)| w == whole && r == rank)
    }

    /// Lets time pass from the sample, an eighth at a time, until the region
    /// changes; none if a clock passes the ceiling.
    pub fn after_time(&self, region: usize, ceiling: u32) -> Option<usize> {
        let mut valuation = self.sample(region);
        loop {
            for clock in &mut valuation {
                *clock += 1;
            }
            if valuation.iter().any(|&clock| clock > ceiling * UNIT) {
                return None;
            }
            let now = self.region_of(&valuation);
            if now != region {
                return Some(now);
            }
        }
    }
}
