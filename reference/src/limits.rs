//! The permitted quantities.

pub const MOST_PROBES: usize = 256;
pub const LONGEST_PERIOD: u32 = 1_048_576;
pub const MOST_ROWS: u32 = 4_096;
pub const LATEST_TICK: u64 = 1_099_511_627_776;

/// Stands in place of a start for a probe that has none.
pub const MARK: u32 = 4_294_967_295;

/// The index of an idle wire, or of no start.
pub const NO_PROBE: u32 = 4_294_967_295;
