//! Random tables that are not sound, by the number that they are made for.
//!
//! A later fault may stand in the same table; an earlier number may win where a fault
//! brings it along. The number itself is for the calls to find.

use crate::limits::{LONGEST_PERIOD, MARK};
use crate::line::Line;
use crate::lines::{line_of, Class};
use crate::random::Random;
use crate::shape::{least_period, longest_period};

/// The fault put into a sound table.
#[derive(Clone, Copy, Debug, PartialEq, Eq, PartialOrd, Ord)]
pub enum Fault {
    /// Number 1.
    ColumnsDiffer,
    /// Number 2.
    TooMany,
    /// Number 3.
    Period,
    /// Number 4.
    Length,
    /// Number 5.
    NoDivisor,
    /// Number 6.
    TooManyRows,
    /// Several of them.
    Several,
    /// Any 32-bit numbers.
    Anything,
}

impl Fault {
    pub const ALL: [Fault; 8] = [
        Fault::ColumnsDiffer,
        Fault::TooMany,
        Fault::Period,
        Fault::Length,
        Fault::NoDivisor,
        Fault::TooManyRows,
        Fault::Several,
        Fault::Anything,
    ];
}

fn place(random: &mut Random, line: &Line) -> usize {
    random.below(line.n() as u64) as usize
}

fn differ(random: &mut Random, line: &mut Line) {
    let column = match random.below(3) {
        0 => &mut line.periods,
        1 => &mut line.lengths,
        _ => &mut line.starts,
    };
    if random.once_in(2) && !column.is_empty() {
        column.pop();
    } else {
        column.push(1);
    }
}

fn lengthen(random: &mut Random, line: &mut Line) {
    let n = random.choose(&[257, 258, 287, 288, 300, 1_000]);
    while line.n() < n {
        let i = place(random, line);
        line.push(line.periods[i], line.lengths[i], line.starts[i]);
    }
}

fn break_period(random: &mut Random, line: &mut Line) {
    let i = place(random, line);
    let any = random.between(LONGEST_PERIOD + 1, MARK);
    line.periods[i] = random.choose(&[0, 0, LONGEST_PERIOD + 1, 2 * LONGEST_PERIOD, MARK, any]);
}

fn break_length(random: &mut Random, line: &mut Line) {
    let i = place(random, line);
    let w = least_period(&line.periods);
    let any = random.between(w.saturating_add(1), MARK);
    line.lengths[i] = random.choose(&[0, 0, w.saturating_add(1), MARK, any]);
}

fn break_division(random: &mut Random, line: &mut Line) {
    let i = place(random, line);
    let period = line.periods[i];
    let by = random.choose(&[3, 5, 7, 11]);
    let other = match random.below(3) {
        0 => (period / 2).saturating_mul(by),
        1 => period.saturating_add(1),
        _ => random.between_by_size(1, LONGEST_PERIOD),
    };
    line.periods[i] = other.clamp(1, LONGEST_PERIOD);
    let w = least_period(&line.periods);
    for length in &mut line.lengths {
        *length = (*length).min(w);
    }
}

fn break_rows(random: &mut Random, line: &mut Line) {
    let rows = random.choose(&[4_097, 4_098, 4_100, 6_144, 8_192, 12_288, 1 << 16]);
    let w = random.between(1, LONGEST_PERIOD / rows);
    let middle = random.choose(&[1, 2, rows / 2]);
    let middle = if rows.is_multiple_of(middle) {
        middle
    } else {
        1
    };
    let n = line.n();
    for i in 0..n {
        line.periods[i] = random.choose(&[w, w * middle, w * rows]);
        line.lengths[i] = random.between(1, w);
        line.starts[i] = 0;
    }
    line.push(w * rows, 1, 0);
    line.push(w, 1, 0);
    if line.n() > 256 {
        line.periods.drain(..2);
        line.lengths.drain(..2);
        line.starts.drain(..2);
    }
}

fn spoil(random: &mut Random, line: &mut Line, fault: Fault) {
    match fault {
        Fault::ColumnsDiffer => differ(random, line),
        Fault::TooMany => lengthen(random, line),
        Fault::Period => break_period(random, line),
        Fault::Length => break_length(random, line),
        Fault::NoDivisor => break_division(random, line),
        Fault::TooManyRows => break_rows(random, line),
        Fault::Several => {
            let columns_differ = random.once_in(4);
            for _ in 0..random.between(2, 4) {
                let faults = &Fault::ALL[1..6];
                let fault = random.choose(faults);
                spoil(random, line, fault);
            }
            if columns_differ {
                differ(random, line);
            }
        }
        Fault::Anything => {
            for i in 0..line.n() {
                line.periods[i] = random.between_by_size(0, MARK);
                line.lengths[i] = random.between_by_size(0, MARK);
                line.starts[i] = random.between_by_size(0, MARK);
            }
        }
    }
}

/// A table with the fault; at least one probe.
pub fn broken_line(random: &mut Random, fault: Fault) -> Line {
    loop {
        let class = random.choose(&Class::ALL);
        let mut line = line_of(random, class);
        if line.n() > 0 && longest_period(&line.periods) > 1 {
            spoil(random, &mut line, fault);
            return line;
        }
    }
}
