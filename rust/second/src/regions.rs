//! Regions: whole parts and ranks of fractions, their order, corners, faces
//! and time successors, and a table of all of them per clocks and ceiling.

use crate::limits::{MAX_CEILING, MAX_CLOCKS};
use crate::model::{Edge, Location};
use std::sync::OnceLock;

/// A whole point of the clocks.
pub type Point = [u8; MAX_CLOCKS];

/// How many values a whole part and a rank can have: the bases in which points
/// and regions are numbered.
const WHOLES: usize = MAX_CEILING as usize + 1;
const RANKS: usize = MAX_CLOCKS + 1;

pub const POINTS: usize = WHOLES.pow(MAX_CLOCKS as u32);

pub fn point_number(point: &Point) -> usize {
    point
        .iter()
        .fold(0, |number, &digit| number * WHOLES + digit as usize)
}

/// A region gives each clock a whole part and the rank of its fraction: rank
/// 0 for no fraction, else 1..g with equal ranks for equal fractions. Clocks
/// that the model does not have stay at 0, 0. The derived order is that of
/// document 01: whole parts, then ranks, read as a list.
#[derive(Clone, Copy, Debug, PartialEq, Eq, PartialOrd, Ord)]
pub struct Region {
    pub whole: [u8; MAX_CLOCKS],
    pub rank: [u8; MAX_CLOCKS],
}

impl Region {
    /// All clocks 0.
    pub const ZERO: Region = Region {
        whole: [0; MAX_CLOCKS],
        rank: [0; MAX_CLOCKS],
    };

    /// The largest rank present (g).
    pub fn top_rank(&self) -> u8 {
        self.rank.into_iter().max().unwrap_or(0)
    }

    /// The least whole number that the clock does not exceed in this region.
    fn ceiling_of(&self, clock: usize) -> u8 {
        self.whole[clock] + u8::from(self.rank[clock] > 0)
    }

    /// Whether the numbers are those of a region at this ceiling.
    fn is_lawful(&self, clocks: usize, ceiling: u8) -> bool {
        let present = |rank| self.rank[..clocks].contains(&rank);
        (0..clocks).all(|clock| {
            self.whole[clock] <= ceiling && (self.whole[clock] < ceiling || self.rank[clock] == 0)
        }) && (1..=self.top_rank()).all(present)
    }

    /// The region that follows when time passes; none past the ceiling.
    pub fn time_successor(mut self, clocks: usize, ceiling: u8) -> Option<Region> {
        if self.rank[..clocks].contains(&0) {
            // The clocks without a fraction get the smallest one.
            for clock in 0..clocks {
                if self.rank[clock] == 0 && self.whole[clock] == ceiling {
                    return None;
                }
                self.rank[clock] += 1;
            }
        } else {
            // The largest fractions become whole.
            let top = self.top_rank();
            for clock in 0..clocks {
                if self.rank[clock] == top {
                    self.whole[clock] += 1;
                    self.rank[clock] = 0;
                }
            }
        }
        Some(self)
    }

    /// Sets the clocks of the mask to 0 and closes up the remaining ranks.
    pub fn reset(mut self, mask: u8) -> Region {
        for clock in 0..MAX_CLOCKS {
            if mask >> clock & 1 == 1 {
                self.whole[clock] = 0;
                self.rank[clock] = 0;
            }
        }
        let before = self.rank;
        for rank in &mut self.rank {
            // The new rank is the number of ranks present in 1..=rank.
            *rank = (1..=*rank).filter(|lower| before.contains(lower)).count() as u8;
        }
        self
    }

    /// The corners: the whole parts as they are, then, for t = 1..g, raised
    /// by one at the clocks with rank t or more.
    pub fn corners(&self) -> Vec<Point> {
        let raised = |t: u8| {
            let mut point = self.whole;
            for clock in 0..MAX_CLOCKS {
                point[clock] += u8::from(self.rank[clock] >= t);
            }
            point
        };
        std::iter::once(self.whole)
            .chain((1..=self.top_rank()).map(raised))
            .collect()
    }

    /// The faces: one region for each choice of some, not all, corners. The
    /// corners of a region form a chain; a choice of them is again the chain
    /// of a region, whose ranks count the points that lie above the lowest.
    fn faces(&self) -> Vec<Region> {
        let mut chain = self.corners();
        chain.sort();
        (1..(1usize << chain.len()) - 1)
            .map(|choice| {
                let chosen: Vec<&Point> = (0..chain.len())
                    .filter(|i| choice >> i & 1 == 1)
                    .map(|i| &chain[i])
                    .collect();
                let whole = *chosen[0];
                let mut rank = [0; MAX_CLOCKS];
                for (clock, rank) in rank.iter_mut().enumerate() {
                    *rank = chosen
                        .iter()
                        .filter(|point| point[clock] > whole[clock])
                        .count() as u8;
                }
                Region { whole, rank }
            })
            .collect()
    }

    /// Whether the invariant of the location holds throughout the region.
    pub fn is_allowed_in(&self, location: &Location, clocks: usize) -> bool {
        (0..clocks).all(|clock| self.ceiling_of(clock) <= location.limit[clock])
    }

    /// Whether the guard of the edge holds throughout the region.
    pub fn meets_guard(&self, edge: &Edge, clocks: usize) -> bool {
        (0..clocks).all(|clock| {
            self.whole[clock] >= edge.low[clock] && self.ceiling_of(clock) <= edge.high[clock]
        })
    }
}

/// All regions for a number of clocks and a ceiling, in order, with what
/// does not depend on the rest of a model.
pub struct Regions {
    pub clocks: usize,
    pub ceiling: u8,
    pub list: Vec<Region>,
    /// Position in the list by packed numbers.
    position: Vec<Option<u16>>,
    pub successor: Vec<Option<usize>>,
    pub corners: Vec<Vec<Point>>,
    /// Faces of a region, ascending.
    pub faces: Vec<Vec<usize>>,
    /// Regions that have this one as a face, ascending.
    pub cofaces: Vec<Vec<usize>>,
    /// By point number: the regions with this corner, ascending.
    pub at_corner: Vec<Vec<usize>>,
}

/// The number of a region: its whole parts as digits, then its ranks.
fn packed(region: &Region) -> usize {
    region
        .rank
        .iter()
        .fold(point_number(&region.whole), |number, &rank| {
            number * RANKS + rank as usize
        })
}

impl Regions {
    /// The table, built at its first use.
    pub fn of(clocks: usize, ceiling: u8) -> &'static Regions {
        static TABLES: [[OnceLock<Regions>; MAX_CEILING as usize]; MAX_CLOCKS] =
            [const { [const { OnceLock::new() }; MAX_CEILING as usize] }; MAX_CLOCKS];
        TABLES[clocks - 1][usize::from(ceiling) - 1].get_or_init(|| Regions::build(clocks, ceiling))
    }

    /// The tables for all clocks and ceilings, in this order.
    pub fn all() -> impl Iterator<Item = &'static Regions> {
        (1..=MAX_CLOCKS)
            .flat_map(|clocks| (1..=MAX_CEILING).map(move |ceiling| Regions::of(clocks, ceiling)))
    }

    fn build(clocks: usize, ceiling: u8) -> Regions {
        let mut list = Vec::new();
        for whole in lists(clocks, ceiling) {
            for rank in lists(clocks, clocks as u8) {
                let region = Region { whole, rank };
                if region.is_lawful(clocks, ceiling) {
                    list.push(region);
                }
            }
        }
        let mut position = vec![None; POINTS * RANKS.pow(MAX_CLOCKS as u32)];
        for (index, region) in list.iter().enumerate() {
            position[packed(region)] = Some(index as u16);
        }
        let mut table = Regions {
            clocks,
            ceiling,
            position,
            successor: Vec::new(),
            corners: list.iter().map(Region::corners).collect(),
            faces: Vec::new(),
            cofaces: vec![Vec::new(); list.len()],
            at_corner: vec![Vec::new(); POINTS],
            list,
        };
        for index in 0..table.list.len() {
            let region = table.list[index];
            let successor = region.time_successor(clocks, ceiling);
            table
                .successor
                .push(successor.map(|region| table.index(&region)));
            let mut faces: Vec<usize> = region
                .faces()
                .iter()
                .map(|face| table.index(face))
                .collect();
            faces.sort_unstable();
            for &face in &faces {
                table.cofaces[face].push(index);
            }
            table.faces.push(faces);
            for corner in &table.corners[index] {
                table.at_corner[point_number(corner)].push(index);
            }
        }
        table
    }

    pub fn count(&self) -> usize {
        self.list.len()
    }

    /// The position of a region that is known to be in the list.
    pub fn index(&self, region: &Region) -> usize {
        self.position[packed(region)].expect("a region of the table") as usize
    }

    /// The position of the region that these numbers spell, if they do.
    pub fn find(&self, whole: &[u32], rank: &[u32]) -> Option<usize> {
        let mut region = Region::ZERO;
        for clock in 0..self.clocks {
            if whole[clock] > u32::from(self.ceiling) || rank[clock] > self.clocks as u32 {
                return None;
            }
            region.whole[clock] = whole[clock] as u8;
            region.rank[clock] = rank[clock] as u8;
        }
        self.position[packed(&region)].map(usize::from)
    }

    pub fn share_a_corner(&self, one: usize, other: usize) -> bool {
        self.corners[one]
            .iter()
            .any(|corner| self.corners[other].contains(corner))
    }

    /// The regions that share a corner with this one (itself too), ascending.
    pub fn near(&self, index: usize) -> Vec<usize> {
        let mut near: Vec<usize> = self.corners[index]
            .iter()
            .flat_map(|corner| self.at_corner[point_number(corner)].iter().copied())
            .collect();
        near.sort_unstable();
        near.dedup();
        near
    }
}

/// All lists of numbers 0..=most for the clocks, ascending; the entries of
/// clocks that are not there stay 0.
fn lists(clocks: usize, most: u8) -> Vec<[u8; MAX_CLOCKS]> {
    let mut all = vec![[0; MAX_CLOCKS]];
    for clock in 0..clocks {
        let mut longer = Vec::new();
        for list in &all {
            for value in 0..=most {
                let mut list = *list;
                list[clock] = value;
                longer.push(list);
            }
        }
        all = longer;
    }
    all
}

#[cfg(test)]
mod tests {
    use super::*;
    use crate::limits::region_count;

    #[test]
    fn counts_by_formula_and_order() {
        for table in Regions::all() {
            assert_eq!(table.count(), region_count(table.clocks, table.ceiling));
            assert!(table.list.windows(2).all(|pair| pair[0] < pair[1]));
        }
    }

    #[test]
    fn ranks_close_up() {
        let region = Region {
            whole: [1, 2, 3],
            rank: [1, 2, 3],
        };
        assert_eq!(
            region.reset(2),
            Region {
                whole: [1, 0, 3],
                rank: [1, 0, 2]
            }
        );
        assert_eq!(
            region.reset(1),
            Region {
                whole: [0, 2, 3],
                rank: [0, 1, 2]
            }
        );
        assert_eq!(region.reset(7), Region::ZERO);
        assert_eq!(region.reset(0), region);
    }

    #[test]
    fn faces_are_proper_subsets_of_corners() {
        for clocks in 1..=MAX_CLOCKS {
            let table = Regions::of(clocks, 2);
            for one in 0..table.count() {
                for other in 0..table.count() {
                    let (own, its) = (&table.corners[one], &table.corners[other]);
                    let proper =
                        its.len() < own.len() && its.iter().all(|corner| own.contains(corner));
                    assert_eq!(table.faces[one].contains(&other), proper);
                    assert_eq!(table.cofaces[other].contains(&one), proper);
                    assert_eq!(
                        table.near(one).contains(&other),
                        table.share_a_corner(one, other)
                    );
                }
            }
        }
    }

    #[test]
    fn numbers_that_spell_no_region() {
        let table = Regions::of(2, 2);
        assert_eq!(table.find(&[0, 0], &[0, 0]), Some(0));
        assert_eq!(table.find(&[0, 0], &[2, 0]), None); // rank 1 is missing
        assert_eq!(table.find(&[2, 0], &[1, 0]), None); // a fraction at the ceiling
        assert_eq!(table.find(&[3, 0], &[0, 0]), None);
        assert_eq!(table.find(&[0, 0], &[0, 3]), None);
        assert_eq!(table.find(&[0, 1 << 20], &[0, 0]), None);
    }
}
