//! The room sentence: when every probe of a sound table is sure of a place.

use crate::shape::{heights, longest_period, rows};

/// Busy ticks in one longest period: the sum of p * h.
pub fn busy_ticks(periods: &[u32], lengths: &[u32]) -> u64 {
    heights(periods)
        .iter()
        .zip(lengths)
        .map(|(h, p)| u64::from(*h) * u64::from(*p))
        .sum()
}

/// The longest read; 0 for the empty table.
pub fn longest_read(lengths: &[u32]) -> u32 {
    lengths.iter().copied().max().unwrap_or(0)
}

/// Busy ticks, plus the longest read once for each shortest period in M, come to at most M.
pub fn has_room(periods: &[u32], lengths: &[u32]) -> bool {
    let spare = u64::from(longest_read(lengths)) * u64::from(rows(periods));
    busy_ticks(periods, lengths) + spare <= u64::from(longest_period(periods))
}
