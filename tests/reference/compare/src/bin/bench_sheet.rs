//! Document 01's bench sheet through the compiled calls: a line for each case of validation, rectangles, planner and checker.

use compare::calls::{check, plan, to_corners, validate};
use reference::answer::Answer;
use reference::limits::{MARK, MOST_ROWS};

/// What a lent column has before a call.
const LENT: u32 = 7;

/// Numbers one after another; `-` is the mark.
fn entries(column: &[u32]) -> String {
    let shown = column.iter().map(|&entry| {
        if entry == MARK {
            " -".to_string()
        } else {
            format!(" {entry}")
        }
    });
    shown.collect()
}

fn told(answer: Answer) -> String {
    let shown = entries(&[answer.number, answer.index, answer.second]);
    format!(": answer{shown} {}", answer.tick)
}

fn table(periods: &[u32], lengths: &[u32]) -> String {
    format!("periods{} lengths{}", entries(periods), entries(lengths))
}

fn validated(periods: &[u32], lengths: &[u32]) {
    let answer = told(validate(periods, lengths));
    println!("validate {}{answer}", table(periods, lengths));
}

/// Plans, and hands the starts back.
fn planned(periods: &[u32], lengths: &[u32], rows: usize) -> Vec<u32> {
    let mut starts = vec![LENT; periods.len()];
    let mut fills = vec![LENT; rows];
    let answer = told(plan(periods, lengths, &mut starts, &mut fills));
    let columns = format!("starts{} fills{}", entries(&starts), entries(&fills));
    println!("plan {}{answer} {columns}", table(periods, lengths));
    starts
}

fn checked(periods: &[u32], lengths: &[u32], starts: &[u32]) {
    let answer = told(check(periods, lengths, starts));
    println!("check {} starts{}{answer}", table(periods, lengths), entries(starts));
}

fn converted(periods: &[u32], lengths: &[u32], starts: &[u32]) {
    let mut xs = vec![LENT; periods.len()];
    let mut ys = vec![LENT; periods.len()];
    let answer = told(to_corners(periods, lengths, starts, &mut xs, &mut ys));
    let corners = format!("xs{} ys{}", entries(&xs), entries(&ys));
    println!("corners {} starts{}{answer} {corners}", table(periods, lengths), entries(starts));
}

fn main() {
    // ratios 2, 2, 3: slot 10 of the longest period flips to 5
    converted(&[5, 10, 20, 60], &[1, 1, 1, 1], &[0, 0, 0, 50]);

    let (periods, lengths) = ([10, 20, 20, 60, 60], [3, 4, 5, 2, 3]);
    validated(&periods, &lengths);
    let starts = planned(&periods, &lengths, 6);
    checked(&periods, &lengths, &starts);

    let (periods, lengths) = ([10, 20, 20, 60, 60, 60], [3, 4, 5, 2, 3, 3]);
    let mut starts = planned(&periods, &lengths, 6);
    checked(&periods, &lengths, &starts);
    starts[5] = 47;
    checked(&periods, &lengths, &starts);

    for second in [5, 4] {
        let starts = planned(&[10, 10], &[6, second], 1);
        checked(&[10, 10], &[6, second], &starts);
    }

    let (periods, lengths) = ([8, 16, 16, 32, 32, 32, 32], [2, 2, 2, 4, 4, 4, 4]);
    let starts = planned(&periods, &lengths, 4);
    checked(&periods, &lengths, &starts);
    checked(&periods, &lengths, &[0, 2, 10, 4, 12, 20, 28]);

    checked(&[10, 20], &[5, 1], &[8, 1]);

    for length in [10, 11] {
        validated(&[10], &[length]);
        planned(&[10], &[length], 1);
    }

    validated(&[4, 6], &[1, 1]);
    validated(&[1, MOST_ROWS], &[1, 1]);
    validated(&[1, 2 * MOST_ROWS], &[1, 1]);
}
