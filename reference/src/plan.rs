//! First fit in planning order.

use crate::answer::Answer;
use crate::corners::start_of_corner;
use crate::limits::MARK;
use crate::order::planning_order;
use crate::shape::{height, least_period, rows};
use crate::table::judge_table;

/// What first fit makes of a sound table: the answer, n starts and H fills.
pub struct Planned {
    pub answer: Answer,
    pub starts: Vec<u32>,
    pub fills: Vec<u32>,
}

/// First fit over a sound table.
pub fn first_fit(periods: &[u32], lengths: &[u32]) -> Planned {
    let w = least_period(periods);
    let mut starts = vec![MARK; periods.len()];
    let mut fills = vec![0; rows(periods) as usize];
    for probe in planning_order(periods, lengths) {
        let h = height(periods, probe);
        let sub_bins = periods[probe] / w;
        let p = lengths[probe];
        let Some(j) = (0..sub_bins).find(|j| fills[(j * h) as usize] + p <= w) else {
            return Planned {
                answer: Answer::at(8, probe),
                starts,
                fills,
            };
        };
        let y = j * h;
        let x = fills[y as usize];
        starts[probe] = start_of_corner(periods, probe, x, y);
        for row in y..y + h {
            fills[row as usize] += p;
        }
    }
    Planned {
        answer: Answer::DONE,
        starts,
        fills,
    }
}

/// The planner. Numbers 1 to 6, 7, 8; n starts and H fills are written on 0 and on 8.
pub fn plan(periods: &[u32], lengths: &[u32], starts: &mut [u32], fills: &mut [u32]) -> Answer {
    let judged = judge_table(periods, lengths);
    if !judged.is_done() {
        return judged;
    }
    if starts.len() < periods.len() || fills.len() < rows(periods) as usize {
        return Answer::plain(7);
    }
    let planned = first_fit(periods, lengths);
    starts[..planned.starts.len()].copy_from_slice(&planned.starts);
    fills[..planned.fills.len()].copy_from_slice(&planned.fills);
    planned.answer
}
