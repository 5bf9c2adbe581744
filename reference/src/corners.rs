//! Starts to rectangle corners and back. Nothing is moved, and no clean list is asked for.

use crate::answer::{answer_of, Answer};
use crate::flip::{flip, unflip};
use crate::shape::{height, least_period, ratios_up_to, rows};
use crate::table::{columns_agree, sound, starts_in_range};

/// The corner (x, y) of one probe of a sound table.
pub fn corner_of_start(periods: &[u32], probe: usize, start: u32) -> (u32, u32) {
    let w = least_period(periods);
    let ratios = ratios_up_to(periods, periods[probe]);
    (start % w, height(periods, probe) * flip(&ratios, start / w))
}

/// The start of one probe of a sound table, for a corner that 18 does not refuse.
pub fn start_of_corner(periods: &[u32], probe: usize, x: u32, y: u32) -> u32 {
    let w = least_period(periods);
    let ratios = ratios_up_to(periods, periods[probe]);
    unflip(&ratios, y / height(periods, probe)) * w + x
}

/// Number 7: a result column with no room for n entries.
fn room_for(n: usize, columns: &[usize]) -> Result<(), Answer> {
    if columns.iter().any(|length| *length < n) {
        return Err(Answer::plain(7));
    }
    Ok(())
}

/// Number 18: a corner has x >= w, y not a multiple of h, or y >= H.
fn corners_in_range(periods: &[u32], xs: &[u32], ys: &[u32]) -> Result<(), Answer> {
    let w = least_period(periods);
    let rows = rows(periods);
    for i in 0..periods.len() {
        let on_sub_bin = ys[i].is_multiple_of(height(periods, i));
        if xs[i] >= w || !on_sub_bin || ys[i] >= rows {
            return Err(Answer::at(18, i));
        }
    }
    Ok(())
}

/// Corners from starts. Numbers 1 to 6, 7, 9.
pub fn corners_from_starts(
    periods: &[u32],
    lengths: &[u32],
    starts: &[u32],
    xs: &mut [u32],
    ys: &mut [u32],
) -> Answer {
    let n = periods.len();
    let judged = columns_agree(&[n, lengths.len(), starts.len()])
        .and_then(|()| sound(periods, lengths))
        .and_then(|()| room_for(n, &[xs.len(), ys.len()]))
        .and_then(|()| starts_in_range(periods, starts));
    if judged.is_ok() {
        for i in 0..n {
            (xs[i], ys[i]) = corner_of_start(periods, i, starts[i]);
        }
    }
    answer_of(judged)
}

/// Starts from corners. Numbers 1 to 6, 7, 18.
pub fn starts_from_corners(
    periods: &[u32],
    lengths: &[u32],
    xs: &[u32],
    ys: &[u32],
    starts: &mut [u32],
) -> Answer {
    let n = periods.len();
    let judged = columns_agree(&[n, lengths.len(), xs.len(), ys.len()])
        .and_then(|()| sound(periods, lengths))
        .and_then(|()| room_for(n, &[starts.len()]))
        .and_then(|()| corners_in_range(periods, xs, ys));
    if judged.is_ok() {
        for i in 0..n {
            starts[i] = start_of_corner(periods, i, xs[i], ys[i]);
        }
    }
    answer_of(judged)
}
