//! w, M, H, heights and the different periods of a table.

/// w, the least period; 0 for the empty table.
pub fn least_period(periods: &[u32]) -> u32 {
    periods.iter().copied().min().unwrap_or(0)
}

/// M, the longest period; 0 for the empty table.
pub fn longest_period(periods: &[u32]) -> u32 {
    periods.iter().copied().max().unwrap_or(0)
}

/// H = M/w, the number of rows; 0 for the empty table.
pub fn rows(periods: &[u32]) -> u32 {
    if periods.is_empty() {
        return 0;
    }
    longest_period(periods) / least_period(periods)
}

/// h = M/T of one probe.
pub fn height(periods: &[u32], probe: usize) -> u32 {
    longest_period(periods) / periods[probe]
}

/// h of every probe.
pub fn heights(periods: &[u32]) -> Vec<u32> {
    (0..periods.len()).map(|i| height(periods, i)).collect()
}

/// T_0 = w < T_1 < .., the different periods.
pub fn different_periods(periods: &[u32]) -> Vec<u32> {
    let mut different = periods.to_vec();
    different.sort_unstable();
    different.dedup();
    different
}

/// b_1, .., b_k for a period T_k of the table, with b_k = T_k / T_(k-1).
pub fn ratios_up_to(periods: &[u32], period: u32) -> Vec<u32> {
    let mut ratios = Vec::new();
    let different = different_periods(periods);
    for k in 1..different.len() {
        if different[k] <= period {
            ratios.push(different[k] / different[k - 1]);
        }
    }
    ratios
}
