//! Ticks worth asking about.

use crate::limits::LATEST_TICK;
use crate::line::Line;
use crate::random::Random;

/// Ticks at the ends of what is permitted.
pub const EDGES: [u64; 7] = [
    0,
    1,
    LATEST_TICK - 1,
    LATEST_TICK,
    LATEST_TICK + 1,
    u64::MAX - 1,
    u64::MAX,
];

/// The edges, ticks around starts and ends of reads near and far, and a few of any size.
pub fn moments(random: &mut Random, line: &Line) -> Vec<u64> {
    let mut ticks = EDGES.to_vec();
    let n = line.n().min(line.lengths.len()).min(line.starts.len());
    if n > 0 {
        for _ in 0..3 {
            let i = random.below(n as u64) as usize;
            let period = u64::from(line.periods[i].max(1));
            let near = random.below(4);
            let far = random.below(LATEST_TICK / period + 2);
            for reads in [0, near, far] {
                let start = u64::from(line.starts[i]) + reads * period;
                let end = start + u64::from(line.lengths[i]);
                ticks.extend([start.saturating_sub(1), start, start + 1]);
                ticks.extend([end.saturating_sub(1), end, end + 1]);
            }
        }
    }
    ticks.push(random.below(LATEST_TICK + 1));
    ticks.push(random.below(1 << 12));
    ticks.push(random.bits());
    ticks
}
