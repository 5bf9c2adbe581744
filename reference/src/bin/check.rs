//! Prints the page of `check` for the book on standard input.

use std::io::{self, Read, Write};

use reference::block::LARGEST_BOOK;
use reference::pages::check_page;

fn main() -> io::Result<()> {
    let mut bytes = Vec::new();
    io::stdin()
        .take(LARGEST_BOOK as u64 + 1)
        .read_to_end(&mut bytes)?;
    io::stdout().write_all(check_page(&bytes).as_bytes())
}
