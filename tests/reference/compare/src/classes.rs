//! The classes of inputs that a run must have, with at least `LEAST` of each.

use reference::census::Census;
use reference::pair::FirstTick;

pub const LEAST: u64 = 50;

/// Each call with the numbers that it can give.
const NUMBERS: [(&str, &[u32]); 18] = [
    ("validate", &[0, 1, 2, 3, 4, 5, 6]),
    ("to_corners", &[0, 1, 2, 3, 4, 5, 6, 7, 9]),
    ("to_starts", &[0, 1, 2, 3, 4, 5, 6, 7, 18]),
    ("plan", &[0, 1, 2, 3, 4, 5, 6, 7, 8]),
    ("check", &[0, 1, 2, 3, 4, 5, 6, 9, 10]),
    ("holder", &[0, 1, 2, 3, 4, 5, 6, 9, 11]),
    ("next_start", &[0, 1, 2, 3, 4, 5, 6, 9, 11]),
    ("read", &[0, 20, 21, 22, 23, 24]),
    ("write", &[0, 1, 2, 7]),
    ("plan_page", &[0, 7]),
    ("plan_page prints", &[0, 3, 4, 5, 6, 8, 20, 21, 22, 23]),
    ("check_page", &[0, 7]),
    ("check_page prints", CHECKED),
    ("line_check", &[0, 3, 4, 5, 6, 7, 9, 10, 20, 21, 22, 23]),
    ("line_holder", ASKED),
    ("line_next_start", ASKED),
    ("program plan", &[0, 3, 4, 5, 6, 8, 20, 21, 22, 23]),
    ("program check", CHECKED),
];
const ASKED: &[u32] = &[0, 3, 4, 5, 6, 7, 9, 11, 20, 21, 22, 23];
const CHECKED: &[u32] = &[0, 3, 4, 5, 6, 9, 10, 20, 21, 22, 23];

/// How many probes a book that is read may have, at its ends and at those of its blocks.
pub const COUNTS: [usize; 6] = [0, 1, 41, 42, 255, 256];

/// The names of all classes.
pub fn names() -> Vec<String> {
    let mut names = Vec::new();
    for (call, numbers) in NUMBERS {
        names.extend(
            numbers
                .iter()
                .map(|number| format!("{call}: number {number}")),
        );
    }
    names.extend(FirstTick::ALL.map(Census::case_name));
    for n in COUNTS {
        names.push(format!("book of {n} probes"));
        names.push(format!("program, {n} probes"));
    }
    for name in [
        "line_holder: idle",
        "line_next_start: none",
        "lent: fewer than 20 bytes",
        "lent: 20 bytes",
        "lent: more than 20 bytes",
        "page: no room",
        "page: room for the longest",
        "page: more room",
        "program: whole",
        "program: byte by byte",
        "program: in pieces",
        "program: no input",
        "program: at most 3,584 bytes",
        "program: 3,585 bytes",
        "program: 4,096 bytes",
        "program: 100,000 bytes",
        "M of 2^19 or more",
        "13 different periods",
        "H = 4,096",
        "holder: idle",
        "next_start: none",
    ] {
        names.push(name.to_string());
    }
    names
}
