//! A text table: one probe a line, `period length start` or `period length`.
//!
//! A `#` begins a comment up to the line's end; blank lines count for nothing.

use std::fmt;

use crate::limits::MOST_PROBES;
use crate::line::Line;

/// What is wrong with a text table, and on which line, from 1.
#[derive(Clone, Debug, PartialEq, Eq)]
pub struct TextError {
    pub line: usize,
    pub what: String,
}

impl fmt::Display for TextError {
    fn fmt(&self, out: &mut fmt::Formatter) -> fmt::Result {
        write!(out, "line {}: {}", self.line, self.what)
    }
}

fn number(word: &str) -> Result<u32, String> {
    if !word.bytes().all(|byte| byte.is_ascii_digit()) {
        return Err(format!("`{word}` is not a whole number"));
    }
    word.parse()
        .map_err(|_| format!("{word} is above 4294967295"))
}

/// The numbers of one line of text; none for a blank line or a comment.
fn numbers(text: &[u8]) -> Result<Vec<u32>, String> {
    let text = std::str::from_utf8(text).map_err(|_| "not text".to_string())?;
    let before_comment = text.split('#').next().unwrap_or("");
    before_comment.split_whitespace().map(number).collect()
}

/// The line of a text table.
pub fn line_of_text(text: &[u8]) -> Result<Line, TextError> {
    let mut line = Line::default();
    for (place, text) in text.split(|byte| *byte == b'\n').enumerate() {
        let wrong = |what| TextError {
            line: place + 1,
            what,
        };
        match numbers(text).map_err(wrong)?[..] {
            [] => continue,
            [period, length] => line.push(period, length, 0),
            [period, length, start] => line.push(period, length, start),
            _ => return Err(wrong("two or three numbers belong here".to_string())),
        }
        if line.n() > MOST_PROBES {
            return Err(wrong(format!("more than {MOST_PROBES} probes")));
        }
    }
    Ok(line)
}

/// The text table of a line, with every start.
pub fn text_of_line(line: &Line) -> String {
    let mut text = String::new();
    for i in 0..line.n() {
        text += &format!(
            "{} {} {}\n",
            line.periods[i], line.lengths[i], line.starts[i]
        );
    }
    text
}
