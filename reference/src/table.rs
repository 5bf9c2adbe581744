//! Numbers 1 to 6 and 9, each over the whole table, lowest place first.

use crate::answer::{answer_of, Answer};
use crate::limits::{LATEST_TICK, LONGEST_PERIOD, MOST_PROBES, MOST_ROWS};
use crate::shape::least_period;

/// Number 1: columns differ in length.
pub fn columns_agree(column_lengths: &[usize]) -> Result<(), Answer> {
    for length in column_lengths {
        if *length != column_lengths[0] {
            return Err(Answer::plain(1));
        }
    }
    Ok(())
}

/// Number 2: more than 256 probes.
pub fn few_enough(n: usize) -> Result<(), Answer> {
    if n > MOST_PROBES {
        return Err(Answer::plain(2));
    }
    Ok(())
}

/// Number 3: a period is out of range.
pub fn periods_in_range(periods: &[u32]) -> Result<(), Answer> {
    for (i, period) in periods.iter().enumerate() {
        if *period < 1 || *period > LONGEST_PERIOD {
            return Err(Answer::at(3, i));
        }
    }
    Ok(())
}

/// Number 4: a length is 0 or above w.
pub fn lengths_in_range(periods: &[u32], lengths: &[u32]) -> Result<(), Answer> {
    let w = least_period(periods);
    for (i, length) in lengths.iter().enumerate() {
        if *length == 0 || *length > w {
            return Err(Answer::at(4, i));
        }
    }
    Ok(())
}

/// Number 5: a period neither divides nor is divided by that of some earlier probe.
pub fn periods_divide(periods: &[u32]) -> Result<(), Answer> {
    for (i, period) in periods.iter().enumerate() {
        for earlier in &periods[..i] {
            if period % earlier != 0 && earlier % period != 0 {
                return Err(Answer::at(5, i));
            }
        }
    }
    Ok(())
}

/// Number 6: H is above 4,096.
pub fn rows_in_range(periods: &[u32]) -> Result<(), Answer> {
    if crate::shape::rows(periods) > MOST_ROWS {
        return Err(Answer::plain(6));
    }
    Ok(())
}

/// Number 9: a start is T or more.
pub fn starts_in_range(periods: &[u32], starts: &[u32]) -> Result<(), Answer> {
    for (i, start) in starts.iter().enumerate() {
        if *start >= periods[i] {
            return Err(Answer::at(9, i));
        }
    }
    Ok(())
}

/// Number 11: a tick asked about is too late.
pub fn tick_in_range(tick: u64) -> Result<(), Answer> {
    if tick > LATEST_TICK {
        return Err(Answer::plain(11));
    }
    Ok(())
}

/// Numbers 2 to 6, for columns known to agree in length.
pub fn sound(periods: &[u32], lengths: &[u32]) -> Result<(), Answer> {
    few_enough(periods.len())?;
    periods_in_range(periods)?;
    lengths_in_range(periods, lengths)?;
    periods_divide(periods)?;
    rows_in_range(periods)
}

/// Numbers 1 to 6 and 9 of a table with a start list.
pub fn sound_list(periods: &[u32], lengths: &[u32], starts: &[u32]) -> Result<(), Answer> {
    columns_agree(&[periods.len(), lengths.len(), starts.len()])?;
    sound(periods, lengths)?;
    starts_in_range(periods, starts)
}

/// Table validation: numbers 1 to 6, or 0.
pub fn judge_table(periods: &[u32], lengths: &[u32]) -> Answer {
    answer_of(columns_agree(&[periods.len(), lengths.len()]).and_then(|()| sound(periods, lengths)))
}

/// A table and its start list: numbers 1 to 6 and 9, or 0.
pub fn judge_list(periods: &[u32], lengths: &[u32], starts: &[u32]) -> Answer {
    answer_of(sound_list(periods, lengths, starts))
}
