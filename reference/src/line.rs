//! A table with its start list, as three owned columns.

use crate::book::{read_book, write_book};
use crate::limits::MOST_PROBES;

/// Periods, lengths and starts. Broken lines may have columns that differ in length.
#[derive(Clone, Debug, Default, PartialEq, Eq)]
pub struct Line {
    pub periods: Vec<u32>,
    pub lengths: Vec<u32>,
    pub starts: Vec<u32>,
}

impl Line {
    /// A table with every start 0.
    pub fn at_zero(periods: Vec<u32>, lengths: Vec<u32>) -> Line {
        let starts = vec![0; periods.len()];
        Line {
            periods,
            lengths,
            starts,
        }
    }

    pub fn new(periods: &[u32], lengths: &[u32], starts: &[u32]) -> Line {
        Line {
            periods: periods.to_vec(),
            lengths: lengths.to_vec(),
            starts: starts.to_vec(),
        }
    }

    pub fn push(&mut self, period: u32, length: u32, start: u32) {
        self.periods.push(period);
        self.lengths.push(length);
        self.starts.push(start);
    }

    /// The number of probes, by the periods.
    pub fn n(&self) -> usize {
        self.periods.len()
    }

    /// The book of this line, or the number that refuses it.
    pub fn to_book(&self) -> Result<Vec<u8>, u32> {
        let mut bytes = vec![0; crate::block::LARGEST_BOOK];
        let answer = write_book(&self.periods, &self.lengths, &self.starts, &mut bytes);
        if !answer.is_done() {
            return Err(answer.number);
        }
        bytes.truncate(answer.index as usize);
        Ok(bytes)
    }

    /// The line of a book, or the refusal.
    pub fn of_book(bytes: &[u8]) -> Result<Line, crate::answer::Answer> {
        let mut line = Line::at_zero(vec![0; MOST_PROBES], vec![0; MOST_PROBES]);
        let answer = read_book(
            bytes,
            &mut line.periods,
            &mut line.lengths,
            &mut line.starts,
        );
        if !answer.is_done() {
            return Err(answer);
        }
        let n = answer.index as usize;
        line.periods.truncate(n);
        line.lengths.truncate(n);
        line.starts.truncate(n);
        Ok(line)
    }
}
