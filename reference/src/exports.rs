//! The exports for masters: a book's bytes, a tick, and 20 lent bytes.

use crate::answer::Answer;
use crate::block::put32;
use crate::line::Line;
use crate::pages::check_answer;
use crate::timetable::{holder, next_start};

pub const ANSWER_BYTES: usize = 20;

/// Number, index and second index in 4 bytes each and the tick in 8, least byte first.
pub fn answer_bytes(answer: Answer) -> [u8; ANSWER_BYTES] {
    let mut bytes = [0; ANSWER_BYTES];
    put32(&mut bytes, 0, answer.number);
    put32(&mut bytes, 4, answer.index);
    put32(&mut bytes, 8, answer.second);
    put32(&mut bytes, 12, (answer.tick % (1 << 32)) as u32);
    put32(&mut bytes, 16, (answer.tick >> 32) as u32);
    bytes
}

/// Returns 7 and writes nothing with fewer than 20 bytes; else writes and returns the number.
fn told(lent: &mut [u8], answer: impl FnOnce() -> Answer) -> u32 {
    if lent.len() < ANSWER_BYTES {
        return 7;
    }
    let answer = answer();
    lent[..ANSWER_BYTES].copy_from_slice(&answer_bytes(answer));
    answer.number
}

type Asked = fn(&[u32], &[u32], &[u32], u64) -> Answer;

fn asked(book: &[u8], tick: u64, call: Asked) -> Answer {
    match Line::of_book(book) {
        Ok(line) => call(&line.periods, &line.lengths, &line.starts, tick),
        Err(refusal) => refusal,
    }
}

/// The checker's export.
pub fn export_check(book: &[u8], lent: &mut [u8]) -> u32 {
    told(lent, || check_answer(book))
}

/// The holder's export.
pub fn export_holder(book: &[u8], tick: u64, lent: &mut [u8]) -> u32 {
    told(lent, || asked(book, tick, holder))
}

/// The next start's export.
pub fn export_next_start(book: &[u8], tick: u64, lent: &mut [u8]) -> u32 {
    told(lent, || asked(book, tick, next_start))
}
