//! The packing verdict: the list moved to o, then rectangles that neither poke out nor overlap.

use crate::corners::corner_of_start;
use crate::order::planning_order;
use crate::shape::{height, least_period};

/// Each start moved: the remainder of s - o by T, with o the start of the first
/// probe in planning order.
pub fn moved_to_first(periods: &[u32], lengths: &[u32], starts: &[u32]) -> Vec<u32> {
    let Some(first) = planning_order(periods, lengths).first().copied() else {
        return Vec::new();
    };
    let o = i64::from(starts[first]);
    (0..periods.len())
        .map(|i| (i64::from(starts[i]) - o).rem_euclid(i64::from(periods[i])) as u32)
        .collect()
}

/// Whether all x + p <= w and no two rectangles overlap, for starts as they stand.
pub fn rectangles_fit(periods: &[u32], lengths: &[u32], starts: &[u32]) -> bool {
    let w = least_period(periods);
    let corners: Vec<(u32, u32)> = (0..periods.len())
        .map(|i| corner_of_start(periods, i, starts[i]))
        .collect();
    for i in 0..periods.len() {
        let (x, y) = corners[i];
        if x + lengths[i] > w {
            return false;
        }
        for j in 0..i {
            let (u, v) = corners[j];
            let side = x < u + lengths[j] && u < x + lengths[i];
            let over = y < v + height(periods, j) && v < y + height(periods, i);
            if side && over {
                return false;
            }
        }
    }
    true
}

/// The packing verdict of a sound table and list.
pub fn packing_verdict(periods: &[u32], lengths: &[u32], starts: &[u32]) -> bool {
    rectangles_fit(periods, lengths, &moved_to_first(periods, lengths, starts))
}
