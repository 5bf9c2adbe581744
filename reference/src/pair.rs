//! Two probes on the wire: whether they meet, and their first shared tick.

use crate::ticks::{holds, starts_a_read};

/// One probe with its start, as 64-bit numbers.
#[derive(Clone, Copy, Debug, PartialEq, Eq)]
pub struct Probe {
    pub period: u64,
    pub length: u64,
    pub start: u64,
}

impl Probe {
    /// Probe i of a table with a start list.
    pub fn of(periods: &[u32], lengths: &[u32], starts: &[u32], i: usize) -> Probe {
        Probe {
            period: u64::from(periods[i]),
            length: u64::from(lengths[i]),
            start: u64::from(starts[i]),
        }
    }

    pub fn holds(self, t: u64) -> bool {
        holds(self.period as u32, self.length as u32, self.start as u32, t)
    }

    pub fn starts_a_read(self, t: u64) -> bool {
        starts_a_read(self.period as u32, self.start as u32, t)
    }
}

/// The two in order of period, shorter first.
pub fn by_period(a: Probe, b: Probe) -> (Probe, Probe) {
    if a.period <= b.period {
        (a, b)
    } else {
        (b, a)
    }
}

/// The condition: with T_i <= T_j and d the remainder of s_j - s_i by T_i,
/// the two never meet exactly when p_i <= d <= T_i - p_j.
pub fn meet(a: Probe, b: Probe) -> bool {
    let (i, j) = by_period(a, b);
    let d = (j.start as i64 - i.start as i64).rem_euclid(i.period as i64) as u64;
    !(i.length <= d && d + j.length <= i.period)
}

/// The first shared tick, by walking every tick up to the later start plus the longer period.
pub fn first_shared_by_ticks(a: Probe, b: Probe) -> Option<u64> {
    let end = a.start.max(b.start) + a.period.max(b.period);
    (0..end).find(|t| a.holds(*t) && b.holds(*t))
}

/// The first shared tick, by walking the starts of reads only: at the first shared
/// tick one of the two starts a read, and the picture repeats by the longer period.
pub fn first_shared_by_reads(a: Probe, b: Probe) -> Option<u64> {
    let end = a.start.max(b.start) + a.period.max(b.period);
    let mut first = None;
    for probe in [a, b] {
        let mut t = probe.start;
        while t < end && first.is_none_or(|best| t < best) {
            if a.holds(t) && b.holds(t) {
                first = Some(t);
            }
            t += probe.period;
        }
    }
    first
}

/// Where the first shared tick of a pair lies.
#[derive(Clone, Copy, Debug, PartialEq, Eq, PartialOrd, Ord)]
pub enum FirstTick {
    /// The first start of the probe of longer period.
    LongerFirstStart,
    /// The first start of the shorter, inside the longer's first read.
    ShorterFirstStart,
    /// A later start of the shorter, inside the longer's first read.
    ShorterLaterStart,
    /// The second start of the longer.
    LongerSecondStart,
}

impl FirstTick {
    pub const ALL: [FirstTick; 4] = [
        FirstTick::LongerFirstStart,
        FirstTick::ShorterFirstStart,
        FirstTick::ShorterLaterStart,
        FirstTick::LongerSecondStart,
    ];
}

/// The case of a pair that meets first at tick t; None when t is no such tick.
pub fn first_tick_case(a: Probe, b: Probe, t: u64) -> Option<FirstTick> {
    let (i, j) = by_period(a, b);
    if t == j.start {
        Some(FirstTick::LongerFirstStart)
    } else if t == i.start && t < j.start + j.length {
        Some(FirstTick::ShorterFirstStart)
    } else if i.starts_a_read(t) && t < j.start + j.length {
        Some(FirstTick::ShorterLaterStart)
    } else if t == j.start + j.period {
        Some(FirstTick::LongerSecondStart)
    } else {
        None
    }
}
