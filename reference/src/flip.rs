//! The flip of a slot and its inverse, from the digits.
//!
//! Ratios are b_1, .., b_k; a slot is below their product.

/// d_1, .., d_k with v = d_1 + d_2 b_1 + d_3 b_1 b_2 + ..
pub fn digits(ratios: &[u32], v: u32) -> Vec<u32> {
    let mut left = v;
    let mut digits = Vec::new();
    for ratio in ratios {
        digits.push(left % ratio);
        left /= ratio;
    }
    digits
}

/// d_1 + d_2 b_1 + d_3 b_1 b_2 + ..
pub fn slot_of_digits(ratios: &[u32], digits: &[u32]) -> u32 {
    let mut slot = 0;
    let mut weight = 1;
    for i in 0..ratios.len() {
        slot += digits[i] * weight;
        weight *= ratios[i];
    }
    slot
}

/// j = d_k + d_(k-1) b_k + .. + d_1 (b_2 .. b_k)
pub fn flip(ratios: &[u32], v: u32) -> u32 {
    let digits = digits(ratios, v);
    let mut sub_bin = 0;
    let mut weight = 1;
    for i in (0..ratios.len()).rev() {
        sub_bin += digits[i] * weight;
        weight *= ratios[i];
    }
    sub_bin
}

/// The slot whose flip is j: the digits of j stand with d_k first.
pub fn unflip(ratios: &[u32], j: u32) -> u32 {
    let mut left = j;
    let mut digits = vec![0; ratios.len()];
    for i in (0..ratios.len()).rev() {
        digits[i] = left % ratios[i];
        left /= ratios[i];
    }
    slot_of_digits(ratios, &digits)
}

/// The slot whose flip is j, found by trying all slots.
pub fn unflip_by_search(ratios: &[u32], j: u32) -> Option<u32> {
    let slots: u32 = ratios.iter().product();
    (0..slots).find(|v| flip(ratios, *v) == j)
}
