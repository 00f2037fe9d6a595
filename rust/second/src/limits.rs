//! The limits of document 01 and what follows from them. They stand here and
//! nowhere else.

/// The most clocks. Arrays over clocks have this length, and the entries past
/// the model's own clocks are 0.
pub const MAX_CLOCKS: usize = 3;
pub const MAX_CEILING: u8 = 4;
pub const MAX_LOCATIONS: usize = 8;
pub const MAX_EDGES: usize = 24;

/// The most bytes of a number, with seven bits in each.
pub const NUMBER_BYTES: usize = 3;

/// The number of regions, by document 01's count.
pub const fn region_count(clocks: usize, ceiling: u8) -> usize {
    let m = ceiling as usize;
    match clocks {
        1 => 2 * m + 1,
        2 => 6 * m * m + 4 * m + 1,
        3 => (m + 1).pow(3) + 3 * m * (m + 1).pow(2) + 9 * m * m * (m + 1) + 13 * m.pow(3),
        _ => panic!("document 01 counts regions of one to three clocks"),
    }
}

pub const MAX_REGIONS: usize = region_count(MAX_CLOCKS, MAX_CEILING);
pub const MAX_STATES: usize = MAX_LOCATIONS * MAX_REGIONS;

#[cfg(test)]
mod tests {
    use super::*;

    /// The numbers that document 01 names, and the header for C callers.
    #[test]
    fn the_largest() {
        assert_eq!((MAX_REGIONS, MAX_STATES), (1_977, 15_816));
        let header = include_str!("../../../c/drift.h");
        assert!(header.contains(&format!("#define DRIFT_MOST_STATES {MAX_STATES}\n")));
    }
}
