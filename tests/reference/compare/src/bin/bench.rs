//! Measures the verified calls beside plain Rust on full lines: medians, and their ratio.

use std::hint::black_box;

use compare::{calls, fast};
use reference::answer::Answer;
use reference::line::Line;

const W: u32 = 256;

/// 256 probes over 4,096 rows, 13 periods, reads of one tick: each finds room in its first sub-bin.
fn easy() -> Line {
    let periods: Vec<u32> = (0..256).map(|i| W << (i % 13)).collect();
    Line::at_zero(periods, vec![1; 256])
}

/// 256 probes of one period, so one row: what is left is the judging and the planning order.
fn one_row() -> Line {
    Line::at_zero(vec![W; 256], vec![1; 256])
}

/// 12 probes fill all rows but the last two; 244 of the longest period then look through nearly every sub-bin.
fn scanning() -> Line {
    let mut line = Line::default();
    for k in 0..12 {
        line.push(W << k, W / 2, 0);
    }
    while line.n() < 256 {
        line.push(W << 12, 1, 0);
    }
    line
}

/// Rounds of a measurement. In each round both sides run, one after the other, so that whatever else the machine does falls on both.
const ROUNDS: usize = 1_001;

/// The processor time of this thread, in nanoseconds: what other programs take is not in it.
fn now() -> i64 {
    extern "C" {
        fn clock_gettime(clock: i32, time: *mut [i64; 2]) -> i32;
    }
    const OF_THIS_THREAD: i32 = 3;
    let mut time = [0; 2];
    // Two 64-bit numbers, seconds and nanoseconds, are what Linux on x86-64 writes.
    let status = unsafe { clock_gettime(OF_THIS_THREAD, &mut time) };
    assert_eq!(status, 0, "there is no clock of this thread");
    time[0] * 1_000_000_000 + time[1]
}

/// The time of one call in nanoseconds, over `many` calls.
fn time(many: u32, call: &mut dyn FnMut()) -> f64 {
    let begin = now();
    for _ in 0..many {
        call();
    }
    (now() - begin) as f64 / f64::from(many)
}

fn median(mut times: Vec<f64>) -> f64 {
    times.sort_by(f64::total_cmp);
    times[times.len() / 2]
}

/// Measures both sides, the buffers warm, and prints medians in microseconds with their ratio.
fn measure(what: &str, many: u32, verified: &mut dyn FnMut(), plain: &mut dyn FnMut()) {
    time(many, verified);
    time(many, plain);
    let (mut ours, mut others) = (Vec::new(), Vec::new());
    for _ in 0..ROUNDS {
        ours.push(time(many, verified));
        others.push(time(many, plain));
    }
    let (ours, others) = (median(ours) / 1e3, median(others) / 1e3);
    println!(
        "| {what} | {ours:.2} | {others:.2} | {:.2} |",
        ours / others
    );
}

type Plan = fn(&[u32], &[u32], &mut [u32], &mut [u32]) -> Answer;

/// Measures a plan, and gives the starts that both sides wrote.
fn bench_plan(what: &str, line: &Line) -> Vec<u32> {
    let columns = || (vec![0; 256], vec![0; 4_096]);
    let (mut ours, mut others) = (columns(), columns());
    let call = |plan: Plan, (starts, fills): &mut (Vec<u32>, Vec<u32>)| {
        let (periods, lengths) = (black_box(&line.periods), black_box(&line.lengths));
        black_box(plan(periods, lengths, starts, fills));
    };
    let verified = &mut || call(calls::plan, &mut ours);
    let plain = &mut || call(fast::plan, &mut others);
    measure(what, 1, verified, plain);
    assert_eq!(ours, others, "{what}");
    assert!(
        ours.0.iter().zip(&line.periods).all(|(s, t)| s < t),
        "{what}"
    );
    ours.0
}

/// Measures a call that writes nothing, after both sides gave the same answer.
macro_rules! bench {
    ($what:expr, $many:expr, $name:ident, $($argument:expr),*) => {{
        assert_eq!(calls::$name($($argument),*), fast::$name($($argument),*), "{}", $what);
        let verified = &mut || { black_box(calls::$name($(black_box($argument)),*)); };
        let plain = &mut || { black_box(fast::$name($(black_box($argument)),*)); };
        measure($what, $many, verified, plain);
    }};
}

fn main() {
    println!("| call | verified, µs | plain Rust, µs | ratio |\n|---|---|---|---|");
    let line = easy();
    let starts = &bench_plan("plan, each probe in its first sub-bin", &line);
    bench_plan("plan, nearly every sub-bin looked at", &scanning());
    bench_plan("plan, one row", &one_row());
    let (periods, lengths) = (&line.periods, &line.lengths);
    bench!("validate, 256 probes", 20, validate, periods, lengths);
    bench!(
        "check, 256 clean probes",
        1,
        check,
        periods,
        lengths,
        starts
    );
    // An idle tick far off: every probe is asked.
    let tick = (1 << 40) - 1;
    let idle = fast::holder(periods, lengths, starts, tick);
    assert_eq!(idle.index, u32::MAX);
    bench!(
        "holder, idle tick",
        20,
        holder,
        periods,
        lengths,
        starts,
        tick
    );
    bench!("next start", 20, next_start, periods, lengths, starts, tick);
}
