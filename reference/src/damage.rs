//! Books with damage.

use crate::block::{put16, put_sums, BLOCK, FIRST_RECORD, LARGEST_BOOK, SUM_AT};
use crate::random::Random;

/// What is done to a book in good form.
#[derive(Clone, Copy, Debug, PartialEq, Eq, PartialOrd, Ord)]
pub enum Damage {
    /// One byte changed.
    Byte,
    /// Two bytes changed in opposite ways: the plain sum stands.
    TwoBytes,
    /// One byte of the sums changed.
    Sum,
    /// Cut short.
    Cut,
    /// Bytes added.
    Longer,
    /// No byte left.
    Nothing,
    /// A byte of bytes 0 to 11 changed, sums mended.
    Field,
    /// The field n changed in every block, sums mended.
    Count,
    /// A byte of the records changed, sums mended.
    Record,
    /// The last byte before the sums changed, sums mended.
    LastByte,
    /// Two blocks changed places.
    Swapped,
    /// The last block left out.
    LostBlock,
    /// The last block twice.
    DoubledBlock,
    /// Damage in two blocks of different kinds.
    Twice,
    /// Any bytes, sums mended.
    Noise,
}

impl Damage {
    pub const ALL: [Damage; 15] = [
        Damage::Byte,
        Damage::TwoBytes,
        Damage::Sum,
        Damage::Cut,
        Damage::Longer,
        Damage::Nothing,
        Damage::Field,
        Damage::Count,
        Damage::Record,
        Damage::LastByte,
        Damage::Swapped,
        Damage::LostBlock,
        Damage::DoubledBlock,
        Damage::Twice,
        Damage::Noise,
    ];
}

/// Both sums of every whole block made right.
pub fn mend(book: &mut [u8]) {
    for block in book.chunks_exact_mut(BLOCK) {
        put_sums(block);
    }
}

fn change(random: &mut Random, byte: &mut u8) {
    let any = random.between(1, 255) as u8;
    let step = random.choose(&[1, 2, 128, 255, any]);
    *byte = byte.wrapping_add(step);
}

fn change_in(random: &mut Random, book: &mut [u8], low: usize, high: usize) {
    let block = random.below((book.len() / BLOCK) as u64) as usize;
    let place = low + random.below((high - low) as u64) as usize;
    change(random, &mut book[block * BLOCK + place]);
}

/// The book with the damage. The book has at least one block.
pub fn damaged(random: &mut Random, book: &[u8], damage: Damage) -> Vec<u8> {
    let mut book = book.to_vec();
    let blocks = book.len() / BLOCK;
    match damage {
        Damage::Byte => change_in(random, &mut book, 0, SUM_AT),
        Damage::TwoBytes => {
            let block = random.below(blocks as u64) as usize * BLOCK;
            let first = block + random.below(SUM_AT as u64 - 1) as usize;
            book.swap(first, first + 1);
        }
        Damage::Sum => change_in(random, &mut book, SUM_AT, BLOCK),
        Damage::Cut => {
            let cut = random.choose(&[1, 256, 511, 513]);
            book.truncate(book.len().saturating_sub(cut));
        }
        Damage::Longer => {
            let zeros = random.choose(&[1, 511, 512, 1_024, LARGEST_BOOK, LARGEST_BOOK + 512]);
            book.resize(book.len() + zeros, 0);
        }
        Damage::Nothing => book.clear(),
        Damage::Field => {
            change_in(random, &mut book, 0, FIRST_RECORD);
            mend(&mut book);
        }
        Damage::Count => {
            let n = random.choose(&[0, 1, 41, 42, 246, 247, 255, 256, 257, 287, 288, 512, 65_535]);
            for block in book.chunks_exact_mut(BLOCK) {
                put16(block, 6, n);
            }
            mend(&mut book);
        }
        Damage::Record => {
            change_in(random, &mut book, FIRST_RECORD, SUM_AT);
            mend(&mut book);
        }
        Damage::LastByte => {
            let last = book.len() - BLOCK + SUM_AT - 1;
            change(random, &mut book[last]);
            mend(&mut book);
        }
        Damage::Swapped => {
            let (a, b) = (random.below(blocks as u64), random.below(blocks as u64));
            let (a, b) = (a.min(b) as usize * BLOCK, a.max(b) as usize * BLOCK);
            if a < b {
                let (front, back) = book.split_at_mut(b);
                front[a..a + BLOCK].swap_with_slice(&mut back[..BLOCK]);
            }
        }
        Damage::LostBlock => book.truncate(book.len() - BLOCK),
        Damage::DoubledBlock => {
            let last = book[book.len() - BLOCK..].to_vec();
            book.extend(last);
        }
        Damage::Twice => {
            change_in(random, &mut book, FIRST_RECORD, SUM_AT);
            mend(&mut book);
            change_in(random, &mut book, 0, FIRST_RECORD);
            if random.once_in(2) {
                mend(&mut book);
            }
            if random.once_in(3) {
                change_in(random, &mut book, 0, BLOCK);
            }
        }
        Damage::Noise => {
            for byte in book.iter_mut() {
                *byte = random.bits() as u8;
            }
            if random.once_in(2) {
                mend(&mut book);
            }
        }
    }
    book
}
