//! The example line: its book and pages, made from its text table.

use std::path::Path;

use crate::pages::{check_page, plan_page};
use crate::plan::first_fit;
use crate::table::judge_table;
use crate::text_table::line_of_text;

/// A file's name and its bytes.
pub type Made = (String, Vec<u8>);

/// The files made from `pasteuriser.txt` in the folder: its book, the page of `plan`,
/// the book with the planned starts, and the page of `check` for that one.
pub fn made_files(folder: &Path) -> Result<Vec<Made>, String> {
    let text = std::fs::read(folder.join("pasteuriser.txt")).map_err(|error| error.to_string())?;
    let mut line = line_of_text(&text).map_err(|error| error.to_string())?;
    let book = line
        .to_book()
        .map_err(|number| format!("no book: number {number}"))?;
    let judged = judge_table(&line.periods, &line.lengths);
    if !judged.is_done() {
        return Err(format!("the table is refused: {judged:?}"));
    }
    let plan = plan_page(&book);
    line.starts = first_fit(&line.periods, &line.lengths).starts;
    let planned = line
        .to_book()
        .map_err(|number| format!("no book: number {number}"))?;
    let check = check_page(&planned);
    Ok(vec![
        ("pasteuriser.book".to_string(), book),
        ("pasteuriser.plan".to_string(), plan.into_bytes()),
        ("pasteuriser-planned.book".to_string(), planned),
        ("pasteuriser-planned.check".to_string(), check.into_bytes()),
    ])
}
