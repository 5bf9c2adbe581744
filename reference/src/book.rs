//! Reading and writing a book.

use crate::answer::Answer;
use crate::block::*;
use crate::limits::MOST_PROBES;
use crate::table::{columns_agree, few_enough};

/// Number 20: size 0, no multiple of 512, or above 3,584.
fn size_stands(size: usize) -> Result<(), Answer> {
    if size == 0 || !size.is_multiple_of(BLOCK) || size > LARGEST_BOOK {
        return Err(Answer::plain(20));
    }
    Ok(())
}

/// Numbers 21, 22 and 23 of one block, of a book whose first block says n.
fn block_stands(bytes: &[u8], number: usize, n: usize) -> Result<(), Answer> {
    let block = &bytes[number * BLOCK..(number + 1) * BLOCK];
    if !sums_stand(block) {
        return Err(Answer::at(21, number));
    }
    let blocks = bytes.len() / BLOCK;
    if n > MOST_PROBES || blocks_for(n) != blocks || block[..FIRST_RECORD] != header(n, number) {
        return Err(Answer::at(22, number));
    }
    let used = FIRST_RECORD + RECORD * records_in(n, number);
    if block[used..SUM_AT].iter().any(|byte| *byte != 0) {
        return Err(Answer::at(23, number));
    }
    Ok(())
}

/// Numbers 20 to 23; the n of a book in good form.
pub fn judge_book(bytes: &[u8]) -> Result<usize, Answer> {
    size_stands(bytes.len())?;
    let n = get16(bytes, 6) as usize;
    for number in 0..bytes.len() / BLOCK {
        block_stands(bytes, number, n)?;
    }
    Ok(n)
}

/// Where record i of a book stands.
fn record_at(i: usize) -> usize {
    i / RECORDS * BLOCK + FIRST_RECORD + i % RECORDS * RECORD
}

/// Reads a book into three lent columns. Numbers 20 to 24; done has n as its index.
pub fn read_book(
    bytes: &[u8],
    periods: &mut [u32],
    lengths: &mut [u32],
    starts: &mut [u32],
) -> Answer {
    let n = match judge_book(bytes) {
        Ok(n) => n,
        Err(refusal) => return refusal,
    };
    if periods.len() < n || lengths.len() < n || starts.len() < n {
        return Answer::plain(24);
    }
    for i in 0..n {
        periods[i] = get32(bytes, record_at(i));
        lengths[i] = get32(bytes, record_at(i) + 4);
        starts[i] = get32(bytes, record_at(i) + 8);
    }
    Answer::done_with(n as u32)
}

/// Writes a book into lent bytes. Numbers 1, 2, 7; done has the bytes written as its index.
pub fn write_book(periods: &[u32], lengths: &[u32], starts: &[u32], bytes: &mut [u8]) -> Answer {
    let n = periods.len();
    let judged = columns_agree(&[n, lengths.len(), starts.len()]).and_then(|()| few_enough(n));
    if let Err(refusal) = judged {
        return refusal;
    }
    let size = blocks_for(n) * BLOCK;
    if bytes.len() < size {
        return Answer::plain(7);
    }
    bytes[..size].fill(0);
    for i in 0..n {
        put32(bytes, record_at(i), periods[i]);
        put32(bytes, record_at(i) + 4, lengths[i]);
        put32(bytes, record_at(i) + 8, starts[i]);
    }
    for number in 0..blocks_for(n) {
        let block = &mut bytes[number * BLOCK..(number + 1) * BLOCK];
        block[..FIRST_RECORD].copy_from_slice(&header(n, number));
        put_sums(block);
    }
    Answer::done_with(size as u32)
}
