//! The text that the programs `plan` and `check` print for the bytes of a book.

use crate::answer::Answer;
use crate::check::check_by_pairs;
use crate::limits::MARK;
use crate::line::Line;
use crate::plan::first_fit;
use crate::shape::rows;
use crate::table::judge_table;

fn refusal_line(refusal: Answer) -> String {
    format!("{} {}\n", refusal.number, refusal.index)
}

/// The page of `plan`: number, n, H, then a line for each probe. The starts are ignored.
pub fn plan_page(bytes: &[u8]) -> String {
    let line = match Line::of_book(bytes) {
        Ok(line) => line,
        Err(refusal) => return refusal_line(refusal),
    };
    let judged = judge_table(&line.periods, &line.lengths);
    if !judged.is_done() {
        return refusal_line(judged);
    }
    let planned = first_fit(&line.periods, &line.lengths);
    let mut page = format!(
        "{} {} {}\n",
        planned.answer.number,
        line.n(),
        rows(&line.periods)
    );
    for i in 0..line.n() {
        let start = match planned.starts[i] {
            MARK => "-".to_string(),
            start => start.to_string(),
        };
        page += &format!("{} {} {} {}\n", i, line.periods[i], line.lengths[i], start);
    }
    page
}

/// The checker's answer for the bytes of a book.
pub fn check_answer(bytes: &[u8]) -> Answer {
    match Line::of_book(bytes) {
        Ok(line) => check_by_pairs(&line.periods, &line.lengths, &line.starts),
        Err(refusal) => refusal,
    }
}

/// The page of `check`: number, both indexes and tick.
pub fn check_page(bytes: &[u8]) -> String {
    let answer = check_answer(bytes);
    format!(
        "{} {} {} {}\n",
        answer.number, answer.index, answer.second, answer.tick
    )
}
