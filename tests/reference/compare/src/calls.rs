//! The exports of `trial_c`, `trial_book` and `masters` as safe functions: each slice crosses as its address and its length.

use reference::answer::Answer;

mod raw {
    extern "C" {
        pub fn trial_validate(
            periods: *const u32,
            periods_len: usize,
            lengths: *const u32,
            lengths_len: usize,
            out: *mut u32,
            out_len: usize,
        );
        pub fn trial_to_corners(
            periods: *const u32,
            periods_len: usize,
            lengths: *const u32,
            lengths_len: usize,
            starts: *const u32,
            starts_len: usize,
            xs: *mut u32,
            xs_len: usize,
            ys: *mut u32,
            ys_len: usize,
            out: *mut u32,
            out_len: usize,
        );
        pub fn trial_to_starts(
            periods: *const u32,
            periods_len: usize,
            lengths: *const u32,
            lengths_len: usize,
            xs: *const u32,
            xs_len: usize,
            ys: *const u32,
            ys_len: usize,
            starts: *mut u32,
            starts_len: usize,
            out: *mut u32,
            out_len: usize,
        );
        pub fn trial_plan(
            periods: *const u32,
            periods_len: usize,
            lengths: *const u32,
            lengths_len: usize,
            starts: *mut u32,
            starts_len: usize,
            fills: *mut u32,
            fills_len: usize,
            out: *mut u32,
            out_len: usize,
        );
        pub fn trial_check(
            periods: *const u32,
            periods_len: usize,
            lengths: *const u32,
            lengths_len: usize,
            starts: *const u32,
            starts_len: usize,
            out: *mut u32,
            out_len: usize,
        );
        pub fn trial_holder(
            periods: *const u32,
            periods_len: usize,
            lengths: *const u32,
            lengths_len: usize,
            starts: *const u32,
            starts_len: usize,
            tick: u64,
            out: *mut u32,
            out_len: usize,
        );
        pub fn trial_next_start(
            periods: *const u32,
            periods_len: usize,
            lengths: *const u32,
            lengths_len: usize,
            starts: *const u32,
            starts_len: usize,
            tick: u64,
            out: *mut u32,
            out_len: usize,
        );
        pub fn trial_read(
            bytes: *const u8,
            bytes_len: usize,
            periods: *mut u32,
            periods_len: usize,
            lengths: *mut u32,
            lengths_len: usize,
            starts: *mut u32,
            starts_len: usize,
            out: *mut u32,
            out_len: usize,
        );
        pub fn trial_write(
            periods: *const u32,
            periods_len: usize,
            lengths: *const u32,
            lengths_len: usize,
            starts: *const u32,
            starts_len: usize,
            bytes: *mut u8,
            bytes_len: usize,
            out: *mut u32,
            out_len: usize,
        );
        pub fn trial_plan_page(
            book: *const u8,
            book_len: usize,
            page: *mut u8,
            page_len: usize,
            out: *mut u32,
            out_len: usize,
        );
        pub fn trial_check_page(
            book: *const u8,
            book_len: usize,
            page: *mut u8,
            page_len: usize,
            out: *mut u32,
            out_len: usize,
        );
        pub fn line_check(
            book: *const u8,
            book_len: usize,
            answer: *mut u8,
            answer_len: usize,
        ) -> u32;
        pub fn line_holder(
            book: *const u8,
            book_len: usize,
            tick: u64,
            answer: *mut u8,
            answer_len: usize,
        ) -> u32;
        pub fn line_next_start(
            book: *const u8,
            book_len: usize,
            tick: u64,
            answer: *mut u8,
            answer_len: usize,
        ) -> u32;
    }
}

/// What an entry of `out` has before a call: an answer that is not written shows.
const UNTOLD: u32 = 0xA5A5_A5A5;

/// The answer in the five numbers of `out`.
fn answer(out: [u32; 5]) -> Answer {
    Answer {
        number: out[0],
        index: out[1],
        second: out[2],
        tick: u64::from(out[3]) + (u64::from(out[4]) << 32),
    }
}

/// A call of an export, with a slice's address and length for each slice.
macro_rules! call {
    ($name:ident; $($slice:expr),*; $($tick:expr)?; $($lent:expr),*) => {{
        let mut out = [UNTOLD; 5];
        // The addresses and lengths are those of slices that live through the call; lent ones are lent to it alone.
        unsafe {
            raw::$name(
                $($slice.as_ptr(), $slice.len(),)*
                $($tick,)?
                $($lent.as_mut_ptr(), $lent.len(),)*
                out.as_mut_ptr(),
                out.len(),
            );
        }
        answer(out)
    }};
}

pub fn validate(periods: &[u32], lengths: &[u32]) -> Answer {
    call!(trial_validate; periods, lengths;;)
}

pub fn to_corners(
    periods: &[u32],
    lengths: &[u32],
    starts: &[u32],
    xs: &mut [u32],
    ys: &mut [u32],
) -> Answer {
    call!(trial_to_corners; periods, lengths, starts;; xs, ys)
}

pub fn to_starts(
    periods: &[u32],
    lengths: &[u32],
    xs: &[u32],
    ys: &[u32],
    starts: &mut [u32],
) -> Answer {
    call!(trial_to_starts; periods, lengths, xs, ys;; starts)
}

pub fn plan(periods: &[u32], lengths: &[u32], starts: &mut [u32], fills: &mut [u32]) -> Answer {
    call!(trial_plan; periods, lengths;; starts, fills)
}

pub fn check(periods: &[u32], lengths: &[u32], starts: &[u32]) -> Answer {
    call!(trial_check; periods, lengths, starts;;)
}

pub fn holder(periods: &[u32], lengths: &[u32], starts: &[u32], tick: u64) -> Answer {
    call!(trial_holder; periods, lengths, starts; tick;)
}

pub fn next_start(periods: &[u32], lengths: &[u32], starts: &[u32], tick: u64) -> Answer {
    call!(trial_next_start; periods, lengths, starts; tick;)
}

pub fn read(bytes: &[u8], periods: &mut [u32], lengths: &mut [u32], starts: &mut [u32]) -> Answer {
    call!(trial_read; bytes;; periods, lengths, starts)
}

pub fn write(periods: &[u32], lengths: &[u32], starts: &[u32], bytes: &mut [u8]) -> Answer {
    call!(trial_write; periods, lengths, starts;; bytes)
}

pub fn plan_page(book: &[u8], page: &mut [u8]) -> Answer {
    call!(trial_plan_page; book;; page)
}

pub fn check_page(book: &[u8], page: &mut [u8]) -> Answer {
    call!(trial_check_page; book;; page)
}

/// The checker's export; the tick is not asked for.
pub fn line_check(book: &[u8], _tick: u64, lent: &mut [u8]) -> u32 {
    // As above.
    unsafe { raw::line_check(book.as_ptr(), book.len(), lent.as_mut_ptr(), lent.len()) }
}

pub fn line_holder(book: &[u8], tick: u64, lent: &mut [u8]) -> u32 {
    let (address, length) = (lent.as_mut_ptr(), lent.len());
    // As above.
    unsafe { raw::line_holder(book.as_ptr(), book.len(), tick, address, length) }
}

pub fn line_next_start(book: &[u8], tick: u64, lent: &mut [u8]) -> u32 {
    let (address, length) = (lent.as_mut_ptr(), lent.len());
    // As above.
    unsafe { raw::line_next_start(book.as_ptr(), book.len(), tick, address, length) }
}

/// Whether a call with fewer than five lent numbers leaves them as they are.
pub fn short_answers_stay() -> bool {
    let mut out = [UNTOLD; 4];
    let one = [1u32];
    // As above.
    unsafe {
        raw::trial_validate(
            one.as_ptr(),
            1,
            one.as_ptr(),
            1,
            out.as_mut_ptr(),
            out.len(),
        );
    }
    out == [UNTOLD; 4]
}
