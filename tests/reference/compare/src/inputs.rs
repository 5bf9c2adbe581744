//! Inputs at the ends of what is permitted, beside the random ones of the reference.

use reference::limits::{LONGEST_PERIOD, MARK};
use reference::line::Line;

/// n probes alike.
fn alike(n: usize, period: u32, length: u32) -> Line {
    Line::at_zero(vec![period; n], vec![length; n])
}

/// The bench sheet, and one line on each side of each limit.
pub fn boundary_lines() -> Vec<Line> {
    let mut lines = vec![
        Line::new(&[10, 20, 20, 60, 60], &[3, 4, 5, 2, 3], &[0, 13, 3, 8, 17]),
        Line::new(
            &[10, 20, 20, 60, 60, 60],
            &[3, 4, 5, 2, 3, 3],
            &[0, 13, 3, 8, 17, 47],
        ),
        Line::new(
            &[10, 20, 20, 60, 60, 60],
            &[3, 4, 5, 2, 3, 3],
            &[0, 13, 3, 8, 17, 37],
        ),
        Line::new(&[10, 10], &[6, 5], &[0, MARK]),
        Line::new(&[10, 10], &[6, 4], &[0, 6]),
        Line::new(
            &[8, 16, 16, 32, 32, 32, 32],
            &[2, 2, 2, 4, 4, 4, 4],
            &[0, 2, 10, 4, 12, 20, 28],
        ),
        Line::new(&[10, 20], &[5, 1], &[8, 1]),
        Line::new(&[10], &[10], &[9]),
        Line::new(&[10], &[11], &[0]),
        Line::new(&[4, 6], &[1, 1], &[0, 0]),
        Line::new(&[10], &[5], &[8]),
        Line::new(&[10], &[5], &[10]),
        Line::new(&[10], &[5], &[MARK]),
        Line::default(),
        Line::new(&[], &[1], &[]),
        Line::new(&[], &[], &[1]),
        Line::new(&[1], &[], &[]),
    ];
    for n in [1, 2, 40, 41, 42, 82, 83, 246, 247, 255, 256, 257, 258] {
        for (period, length) in [(1, 1), (256, 1), (257, 1), (300, 1), (LONGEST_PERIOD, 1)] {
            lines.push(alike(n, period, length));
        }
    }
    for period in [
        0,
        1,
        2,
        LONGEST_PERIOD - 1,
        LONGEST_PERIOD,
        LONGEST_PERIOD + 1,
        MARK,
    ] {
        for length in [
            0,
            1,
            period.saturating_sub(1),
            period,
            period.saturating_add(1),
            MARK,
        ] {
            lines.push(alike(1, period, length));
        }
    }
    for rows in [1, 2, 4_095, 4_096, 4_097, 8_192] {
        for w in [1, 2, LONGEST_PERIOD / rows] {
            let (m, last) = (w * rows, w * rows - 1);
            lines.push(Line::new(&[w, m], &[1, w], &[w - 1, last]));
            lines.push(Line::new(&[m, w], &[w, w], &[0, 0]));
            lines.push(Line::new(&[m, w, m], &[1, 1, 1], &[last, 0, 0]));
        }
    }
    lines
}
