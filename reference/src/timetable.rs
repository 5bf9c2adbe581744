//! Who holds a tick, and the next start from a tick on. Numbers 1 to 6, 9, 11.

use crate::answer::Answer;
use crate::limits::NO_PROBE;
use crate::shape::longest_period;
use crate::table::{sound_list, tick_in_range};
use crate::ticks::{holders_of_ticks, holds, starters_of_ticks, starts_a_read};

fn judge(periods: &[u32], lengths: &[u32], starts: &[u32], tick: u64) -> Result<(), Answer> {
    sound_list(periods, lengths, starts)?;
    tick_in_range(tick)
}

/// The lowest-numbered probe that holds the tick, or idle.
pub fn holder(periods: &[u32], lengths: &[u32], starts: &[u32], tick: u64) -> Answer {
    if let Err(refusal) = judge(periods, lengths, starts, tick) {
        return refusal;
    }
    for i in 0..periods.len() {
        if holds(periods[i], lengths[i], starts[i], tick) {
            return Answer::at(0, i);
        }
    }
    Answer::done_with(NO_PROBE)
}

/// The holder by painting every tick from 0; for ticks that are not late.
pub fn holder_by_walk(periods: &[u32], lengths: &[u32], starts: &[u32], tick: u64) -> Answer {
    if let Err(refusal) = judge(periods, lengths, starts, tick) {
        return refusal;
    }
    let ticks = tick as usize + 1;
    match holders_of_ticks(periods, lengths, starts, ticks)[tick as usize].first() {
        Some(i) => Answer::at(0, *i),
        None => Answer::done_with(NO_PROBE),
    }
}

/// The first start of a probe's reads at or after a tick.
fn start_from(period: u64, start: u64, tick: u64) -> u64 {
    if tick <= start {
        return start;
    }
    start + (tick - start).div_ceil(period) * period
}

/// The least tick from the given one on at which some probe starts a read,
/// with the lowest such probe.
pub fn next_start(periods: &[u32], lengths: &[u32], starts: &[u32], tick: u64) -> Answer {
    if let Err(refusal) = judge(periods, lengths, starts, tick) {
        return refusal;
    }
    let next = (0..periods.len())
        .map(|i| {
            (
                start_from(u64::from(periods[i]), u64::from(starts[i]), tick),
                i,
            )
        })
        .min();
    match next {
        Some((tick, i)) => Answer {
            tick,
            ..Answer::at(0, i)
        },
        None => Answer::done_with(NO_PROBE),
    }
}

/// The next start by walking from the tick on. Within M ticks from tick 0 every probe
/// has started, and from any later tick every probe starts again within M.
pub fn next_start_by_walk(periods: &[u32], lengths: &[u32], starts: &[u32], tick: u64) -> Answer {
    if let Err(refusal) = judge(periods, lengths, starts, tick) {
        return refusal;
    }
    for t in tick..tick + u64::from(longest_period(periods)) {
        for i in 0..periods.len() {
            if starts_a_read(periods[i], starts[i], t) {
                return Answer {
                    tick: t,
                    ..Answer::at(0, i)
                };
            }
        }
    }
    Answer::done_with(NO_PROBE)
}

/// The next start by painting every start from tick 0; for ticks that are not late.
pub fn next_start_by_paint(periods: &[u32], lengths: &[u32], starts: &[u32], tick: u64) -> Answer {
    if let Err(refusal) = judge(periods, lengths, starts, tick) {
        return refusal;
    }
    let ticks = tick as usize + longest_period(periods) as usize;
    let starters = starters_of_ticks(periods, starts, ticks);
    for (t, starting) in starters.iter().enumerate().skip(tick as usize) {
        if let Some(i) = starting.first() {
            return Answer {
                tick: t as u64,
                ..Answer::at(0, *i)
            };
        }
    }
    Answer::done_with(NO_PROBE)
}
