//! How many inputs of each class a run had.

use std::collections::BTreeMap;
use std::fmt;

use crate::answer::Answer;
use crate::line::Line;
use crate::pair::{first_tick_case, FirstTick, Probe};
use crate::shape::{different_periods, longest_period, rows};
use crate::table::judge_table;

/// Counts by name.
#[derive(Clone, Debug, Default)]
pub struct Census {
    counts: BTreeMap<String, u64>,
}

impl Census {
    pub fn note(&mut self, name: &str) {
        *self.counts.entry(name.to_string()).or_insert(0) += 1;
    }

    pub fn count(&self, name: &str) -> u64 {
        self.counts.get(name).copied().unwrap_or(0)
    }

    /// Notes what a sound table has of its own.
    pub fn note_table(&mut self, line: &Line) {
        if !judge_table(&line.periods, &line.lengths).is_done() {
            return;
        }
        if longest_period(&line.periods) >= 1 << 19 {
            self.note("M of 2^19 or more");
        }
        if different_periods(&line.periods).len() == 13 {
            self.note("13 different periods");
        }
        if rows(&line.periods) == 4_096 {
            self.note("H = 4,096");
        }
    }

    /// Notes the number of an answer of a call.
    pub fn note_number(&mut self, call: &str, answer: Answer) {
        self.note(&format!("{call}: number {}", answer.number));
    }

    /// Notes the case of the first shared tick of an answer 10.
    pub fn note_first_tick(&mut self, line: &Line, answer: Answer) {
        if answer.number == 10 {
            let of = |i| Probe::of(&line.periods, &line.lengths, &line.starts, i);
            let (a, b) = (of(answer.index as usize), of(answer.second as usize));
            match first_tick_case(a, b, answer.tick) {
                Some(case) => self.note(&Census::case_name(case)),
                None => self.note("first tick: no case"),
            }
        }
    }

    pub fn case_name(case: FirstTick) -> String {
        format!("first tick: {case:?}")
    }

    /// The names with fewer than `least` inputs.
    pub fn lacking(&self, names: &[String], least: u64) -> Vec<String> {
        names
            .iter()
            .filter(|name| self.count(name) < least)
            .cloned()
            .collect()
    }
}

impl fmt::Display for Census {
    fn fmt(&self, out: &mut fmt::Formatter) -> fmt::Result {
        for (name, count) in &self.counts {
            writeln!(out, "{count:>8}  {name}")?;
        }
        Ok(())
    }
}
