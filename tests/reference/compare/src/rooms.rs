//! Lent columns: too short, exact, or longer, with a guard in every entry.

use reference::random::Random;

/// A length for a lent column that must hold `needed`: short once in eight times.
pub fn room(random: &mut Random, needed: usize) -> usize {
    match random.below(8) {
        0 => needed.saturating_sub(1 + random.below(3) as usize),
        1..=4 => needed,
        5 => needed + 1,
        6 => needed + random.below(20) as usize,
        _ => needed + 100,
    }
}

/// A column of guards: no two neighbours are equal, and none is a small number.
pub fn guards(length: usize) -> Vec<u32> {
    (0..length as u32).map(|i| 0xC0DE_0000 ^ i).collect()
}

/// Guards of a byte each.
pub fn guard_bytes(length: usize) -> Vec<u8> {
    (0..length).map(|i| 0xA5 ^ (i as u8)).collect()
}
