//! Text tables and the programs as processes.

use std::io::Write;
use std::process::{Command, Output, Stdio};

use reference::line::Line;
use reference::lines::any_line;
use reference::random::{Random, SEED};
use reference::starts::any_starts;
use reference::text_table::{line_of_text, text_of_line};

fn run(program: &str, words: &[&str], input: &[u8]) -> Output {
    let mut child = Command::new(program)
        .args(words)
        .stdin(Stdio::piped())
        .stdout(Stdio::piped())
        .stderr(Stdio::piped())
        .spawn()
        .unwrap();
    // A program may stop reading before the input's end.
    let _ = child.stdin.take().unwrap().write_all(input);
    child.wait_with_output().unwrap()
}

const BOOK: &str = env!("CARGO_BIN_EXE_book");
const PLAN: &str = env!("CARGO_BIN_EXE_plan");
const CHECK: &str = env!("CARGO_BIN_EXE_check");

#[test]
fn comments_blank_lines_and_missing_starts() {
    let text = b"# a line\n\n10 3\n  20\t4 13 # level\r\n#30 1\n20 5 4294967295";
    let line = line_of_text(text).unwrap();
    assert_eq!(
        line,
        Line::new(&[10, 20, 20], &[3, 4, 5], &[0, 13, u32::MAX])
    );
    assert_eq!(text_of_line(&line), "10 3 0\n20 4 13\n20 5 4294967295\n");
    assert_eq!(line_of_text(b"").unwrap(), Line::default());
}

#[test]
fn errors_name_the_line() {
    let wrong: [(&[u8], usize); 7] = [
        (b"10", 1),
        (b"10 3\n10 3 0 0", 2),
        (b"\n\n10 x", 3),
        (b"10 -3", 1),
        (b"10 +3", 1),
        (b"# c\n10 4294967296", 2),
        (b"10 3\n\xFF", 2),
    ];
    for (text, line) in wrong {
        assert_eq!(line_of_text(text).unwrap_err().line, line);
    }
    let many = "4 1\n".repeat(257);
    assert_eq!(line_of_text(many.as_bytes()).unwrap_err().line, 257);
    assert_eq!(line_of_text(&many.as_bytes()[..1_024]).unwrap().n(), 256);
}

#[test]
fn any_line_comes_back_from_its_text() {
    let mut random = Random::announced(SEED + 60, "text tables");
    for _ in 0..500 {
        let (_, line) = any_line(&mut random);
        let (_, line) = any_starts(&mut random, &line);
        assert_eq!(line_of_text(text_of_line(&line).as_bytes()).unwrap(), line);
    }
}

#[test]
fn the_converter_goes_there_and_back() {
    let text = "10 3 0\n20 4 13\n20 5 3\n";
    let made = run(BOOK, &["from-text"], text.as_bytes());
    assert!(made.status.success());
    assert_eq!(
        made.stdout,
        line_of_text(text.as_bytes()).unwrap().to_book().unwrap()
    );
    let back = run(BOOK, &["to-text"], &made.stdout);
    assert!(back.status.success());
    assert_eq!(back.stdout, text.as_bytes());
}

#[test]
fn the_converter_ends_with_1_on_errors() {
    let wrong = run(BOOK, &["from-text"], b"10 3\n10\n");
    assert_eq!(wrong.status.code(), Some(1));
    assert!(wrong.stdout.is_empty());
    assert!(String::from_utf8(wrong.stderr).unwrap().contains("line 2"));
    let wrong = run(BOOK, &["to-text"], b"no book");
    assert_eq!(wrong.status.code(), Some(1));
    assert!(String::from_utf8(wrong.stderr).unwrap().contains("20"));
    assert_eq!(run(BOOK, &[], b"").status.code(), Some(1));
}

#[test]
fn the_programs_print_their_pages() {
    let book = Line::new(&[10, 20, 20, 60, 60], &[3, 4, 5, 2, 3], &[0, 13, 3, 8, 17]);
    let book = book.to_book().unwrap();
    let page = "0 5 6\n0 10 3 0\n1 20 4 13\n2 20 5 3\n3 60 2 8\n4 60 3 17\n";
    assert_eq!(run(PLAN, &[], &book).stdout, page.as_bytes());
    assert_eq!(run(CHECK, &[], &book).stdout, b"0 0 0 0\n");
    assert_eq!(run(PLAN, &[], b"").stdout, b"20 0\n");
    assert_eq!(run(CHECK, &[], &[0; 100_000]).stdout, b"20 0 0 0\n");
}
