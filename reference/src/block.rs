//! The form of one block of a book: fields, records and sums.

pub const BLOCK: usize = 512;
pub const MOST_BLOCKS: usize = 7;
pub const LARGEST_BOOK: usize = BLOCK * MOST_BLOCKS;
pub const RECORDS: usize = 41;
pub const RECORD: usize = 12;
pub const FIRST_RECORD: usize = 12;
pub const SUM_AT: usize = 504;
pub const WEIGHTED_SUM_AT: usize = 508;

/// Two bytes, least first.
pub fn get16(bytes: &[u8], at: usize) -> u32 {
    u32::from(bytes[at]) + 256 * u32::from(bytes[at + 1])
}

/// Four bytes, least first.
pub fn get32(bytes: &[u8], at: usize) -> u32 {
    get16(bytes, at) + 65_536 * get16(bytes, at + 2)
}

pub fn put16(bytes: &mut [u8], at: usize, value: u32) {
    bytes[at] = (value % 256) as u8;
    bytes[at + 1] = (value / 256 % 256) as u8;
}

pub fn put32(bytes: &mut [u8], at: usize, value: u32) {
    put16(bytes, at, value % 65_536);
    put16(bytes, at + 2, value / 65_536);
}

/// The sum of bytes 0 to 503.
pub fn sum(block: &[u8]) -> u32 {
    block[..SUM_AT].iter().map(|byte| u32::from(*byte)).sum()
}

/// The sum of (place + 1) times byte over bytes 0 to 503.
pub fn weighted_sum(block: &[u8]) -> u32 {
    (0..SUM_AT)
        .map(|place| (place as u32 + 1) * u32::from(block[place]))
        .sum()
}

/// Writes both sums of a block.
pub fn put_sums(block: &mut [u8]) {
    let (plain, weighted) = (sum(block), weighted_sum(block));
    put32(block, SUM_AT, plain);
    put32(block, WEIGHTED_SUM_AT, weighted);
}

pub fn sums_stand(block: &[u8]) -> bool {
    get32(block, SUM_AT) == sum(block) && get32(block, WEIGHTED_SUM_AT) == weighted_sum(block)
}

/// The blocks of a book of n probes: n divided by 41, rounded up, and one for n = 0.
pub fn blocks_for(n: usize) -> usize {
    n.div_ceil(RECORDS).max(1)
}

/// The records in a block of a book of n probes: all are full but the last.
pub fn records_in(n: usize, block_number: usize) -> usize {
    (n - (block_number * RECORDS).min(n)).min(RECORDS)
}

/// Bytes 0 to 11 as the rules require them.
pub fn header(n: usize, block_number: usize) -> [u8; 12] {
    let mut bytes = [0; 12];
    put16(&mut bytes, 0, block_number as u32);
    put16(&mut bytes, 2, blocks_for(n) as u32);
    put16(&mut bytes, 4, records_in(n, block_number) as u32);
    put16(&mut bytes, 6, n as u32);
    bytes
}
