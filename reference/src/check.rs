//! The checker: 1 to 6, 9, then the first pair that meets and its first shared tick.

use std::collections::BTreeMap;

use crate::answer::Answer;
use crate::pair::{first_shared_by_reads, meet, Probe};
use crate::shape::longest_period;
use crate::table::judge_list;
use crate::ticks::holders_of_ticks;

fn met(i: usize, j: usize, tick: u64) -> Answer {
    Answer {
        number: 10,
        index: i as u32,
        second: j as u32,
        tick,
    }
}

/// The checker by ticks. From the latest start on the wire repeats by M, so 2M ticks show all.
pub fn check_by_ticks(periods: &[u32], lengths: &[u32], starts: &[u32]) -> Answer {
    let judged = judge_list(periods, lengths, starts);
    if !judged.is_done() {
        return judged;
    }
    let ticks = 2 * longest_period(periods) as usize;
    let mut first_ticks = BTreeMap::new();
    for (tick, holders) in holders_of_ticks(periods, lengths, starts, ticks)
        .iter()
        .enumerate()
    {
        for (k, i) in holders.iter().enumerate() {
            for j in &holders[k + 1..] {
                first_ticks.entry((*i, *j)).or_insert(tick as u64);
            }
        }
    }
    match first_ticks.first_key_value() {
        None => Answer::DONE,
        Some(((i, j), tick)) => met(*i, *j, *tick),
    }
}

/// The checker by the condition on pairs, for tables of any size.
pub fn check_by_pairs(periods: &[u32], lengths: &[u32], starts: &[u32]) -> Answer {
    let judged = judge_list(periods, lengths, starts);
    if !judged.is_done() {
        return judged;
    }
    for i in 0..periods.len() {
        let first = Probe::of(periods, lengths, starts, i);
        for j in i + 1..periods.len() {
            let second = Probe::of(periods, lengths, starts, j);
            if meet(first, second) {
                let tick = first_shared_by_reads(first, second);
                return met(i, j, tick.expect("a pair that meets shares a tick"));
            }
        }
    }
    Answer::DONE
}
