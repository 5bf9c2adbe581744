//! Turns a text table into a book and a book into a text table.
//!
//! book from-text < table.txt > table.book
//! book to-text < table.book

use std::io::{self, Read, Write};
use std::process::ExitCode;

use reference::block::LARGEST_BOOK;
use reference::line::Line;
use reference::text_table::{line_of_text, text_of_line};

fn from_text() -> Result<Vec<u8>, String> {
    let mut text = Vec::new();
    io::stdin()
        .read_to_end(&mut text)
        .map_err(|error| error.to_string())?;
    let line = line_of_text(&text).map_err(|error| error.to_string())?;
    line.to_book()
        .map_err(|number| format!("the book is refused by number {number}"))
}

fn to_text() -> Result<Vec<u8>, String> {
    let mut bytes = Vec::new();
    let input = io::stdin()
        .take(LARGEST_BOOK as u64 + 1)
        .read_to_end(&mut bytes);
    input.map_err(|error| error.to_string())?;
    let line = Line::of_book(&bytes).map_err(|refusal| {
        format!(
            "the book is refused by number {}, block {}",
            refusal.number, refusal.index
        )
    })?;
    Ok(text_of_line(&line).into_bytes())
}

fn main() -> ExitCode {
    let words: Vec<String> = std::env::args().skip(1).collect();
    let result = match words.iter().map(String::as_str).collect::<Vec<_>>()[..] {
        ["from-text"] => from_text(),
        ["to-text"] => to_text(),
        _ => Err("usage: book from-text | book to-text".to_string()),
    };
    let written = result.and_then(|bytes| {
        io::stdout()
            .write_all(&bytes)
            .map_err(|error| error.to_string())
    });
    match written {
        Ok(()) => ExitCode::SUCCESS,
        Err(what) => {
            eprintln!("book: {what}");
            ExitCode::from(1)
        }
    }
}
