//! The wire tick by tick.

/// A probe holds tick t when t >= s and the remainder of t - s by T is below p.
pub fn holds(period: u32, length: u32, start: u32, t: u64) -> bool {
    t >= u64::from(start) && (t - u64::from(start)) % u64::from(period) < u64::from(length)
}

/// A probe starts a read at s, s + T, s + 2T, ..
pub fn starts_a_read(period: u32, start: u32, t: u64) -> bool {
    t >= u64::from(start) && (t - u64::from(start)).is_multiple_of(u64::from(period))
}

/// The probes that hold each of the ticks 0 to `ticks` - 1, in ascending order,
/// painted read by read.
pub fn holders_of_ticks(
    periods: &[u32],
    lengths: &[u32],
    starts: &[u32],
    ticks: usize,
) -> Vec<Vec<usize>> {
    let mut holders = vec![Vec::new(); ticks];
    for i in 0..periods.len() {
        let mut read = starts[i] as usize;
        while read < ticks {
            let end = (read + lengths[i] as usize).min(ticks);
            for tick in &mut holders[read..end] {
                tick.push(i);
            }
            read += periods[i] as usize;
        }
    }
    holders
}

/// The probes that start a read at each of the ticks 0 to `ticks` - 1, in ascending order.
pub fn starters_of_ticks(periods: &[u32], starts: &[u32], ticks: usize) -> Vec<Vec<usize>> {
    let mut starters = vec![Vec::new(); ticks];
    for i in 0..periods.len() {
        let mut read = starts[i] as usize;
        while read < ticks {
            starters[read].push(i);
            read += periods[i] as usize;
        }
    }
    starters
}
