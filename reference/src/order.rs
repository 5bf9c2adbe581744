//! Planning order: shorter period, then longer read, then lower number.

use std::cmp::Reverse;

/// The probes' numbers in planning order.
pub fn planning_order(periods: &[u32], lengths: &[u32]) -> Vec<usize> {
    let mut probes: Vec<usize> = (0..periods.len()).collect();
    probes.sort_by_key(|i| (periods[*i], Reverse(lengths[*i]), *i));
    probes
}
