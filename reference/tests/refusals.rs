//! The numbers in their fixed order, the lowest place, and columns that stay on a refusal.

use reference::answer::Answer;
use reference::broken::{broken_line, Fault};
use reference::check::{check_by_pairs, check_by_ticks};
use reference::corners::{corners_from_starts, starts_from_corners};
use reference::limits::{LATEST_TICK, MARK};
use reference::line::Line;
use reference::lines::{any_line, line_of, Class};
use reference::plan::plan;
use reference::random::{Random, SEED};
use reference::shape::{heights, least_period, longest_period, rows};
use reference::starts::{with_starts, Kind};
use reference::table::{judge_list, judge_table};
use reference::timetable::{holder, next_start};

const GUARD: u32 = 0xA5A5_A5A5;

#[test]
fn the_empty_table_is_sound() {
    assert_eq!(judge_table(&[], &[]), Answer::DONE);
    assert_eq!(
        (least_period(&[]), longest_period(&[]), rows(&[])),
        (0, 0, 0)
    );
    let (mut starts, mut fills) = ([GUARD; 3], [GUARD; 3]);
    assert_eq!(plan(&[], &[], &mut starts, &mut fills), Answer::DONE);
    assert_eq!((starts, fills), ([GUARD; 3], [GUARD; 3]));
    assert_eq!(plan(&[], &[], &mut [], &mut []), Answer::DONE);
    assert_eq!(check_by_ticks(&[], &[], &[]), Answer::DONE);
    assert_eq!(check_by_pairs(&[], &[], &[]), Answer::DONE);
    assert_eq!(
        corners_from_starts(&[], &[], &[], &mut [], &mut []),
        Answer::DONE
    );
    assert_eq!(
        starts_from_corners(&[], &[], &[], &[], &mut []),
        Answer::DONE
    );
}

#[test]
fn number_1_counts_every_column_of_the_call() {
    assert_eq!(judge_table(&[1], &[]), Answer::plain(1));
    assert_eq!(judge_table(&[], &[1]), Answer::plain(1));
    assert_eq!(judge_list(&[4], &[1], &[]), Answer::plain(1));
    assert_eq!(judge_list(&[4], &[1], &[0, 0]), Answer::plain(1));
    assert_eq!(check_by_pairs(&[4], &[1], &[]), Answer::plain(1));
    assert_eq!(holder(&[4], &[1], &[], u64::MAX), Answer::plain(1));
    assert_eq!(next_start(&[4], &[1], &[], u64::MAX), Answer::plain(1));
    let (mut a, mut b) = ([0; 1], [0; 1]);
    assert_eq!(
        corners_from_starts(&[4], &[1], &[], &mut a, &mut b),
        Answer::plain(1)
    );
    assert_eq!(
        starts_from_corners(&[4], &[1], &[0], &[], &mut a),
        Answer::plain(1)
    );
    assert_eq!(
        starts_from_corners(&[4], &[1], &[], &[0], &mut a),
        Answer::plain(1)
    );
    // 1 before 2, and before any look at the entries
    assert_eq!(judge_table(&[0; 300], &[0; 299]), Answer::plain(1));
}

#[test]
fn number_2_begins_at_257() {
    assert_eq!(judge_table(&[0; 257], &[0; 257]), Answer::plain(2));
    assert_eq!(judge_table(&[0; 256], &[0; 256]), Answer::at(3, 0));
    assert_eq!(judge_table(&[1; 256], &[1; 256]), Answer::DONE);
}

#[test]
fn numbers_3_and_4_at_their_edges() {
    assert_eq!(judge_table(&[1_048_576], &[1]), Answer::DONE);
    assert_eq!(judge_table(&[1_048_577], &[1]), Answer::at(3, 0));
    assert_eq!(judge_table(&[2, 4, 0, 0], &[1; 4]), Answer::at(3, 2));
    // 3 at a late place before 4 at an early one
    assert_eq!(judge_table(&[2, 4, MARK], &[0, 9, 1]), Answer::at(3, 2));
    // w is the least of the whole table
    assert_eq!(judge_table(&[8, 8, 4], &[4, 5, 1]), Answer::at(4, 1));
    assert_eq!(judge_table(&[8, 8, 4], &[4, 4, 4]), Answer::DONE);
    // 4 at a late place before 5 at an early one
    assert_eq!(judge_table(&[4, 6, 8], &[1, 1, 0]), Answer::at(4, 2));
}

#[test]
fn number_5_looks_at_all_earlier_probes() {
    // 12 divides 24 and 24 is divided by 8, yet 12 and 8 stand apart
    assert_eq!(judge_table(&[8, 24, 12], &[1; 3]), Answer::at(5, 2));
    assert_eq!(judge_table(&[24, 8, 12, 4], &[1; 4]), Answer::at(5, 2));
    assert_eq!(judge_table(&[24, 8, 4, 2, 2, 48], &[1; 6]), Answer::DONE);
    // 5 before 6
    assert_eq!(judge_table(&[1, 8_192, 3], &[1; 3]), Answer::at(5, 2));
}

#[test]
fn number_6_begins_at_4097_rows() {
    assert_eq!(judge_table(&[256, 1_048_576], &[256, 1]), Answer::DONE);
    assert_eq!(judge_table(&[255, 255 * 4_097], &[1, 1]), Answer::plain(6));
    // 6 before 7 and 9
    assert_eq!(
        plan(&[1, 8_192], &[1, 1], &mut [], &mut []),
        Answer::plain(6)
    );
    assert_eq!(judge_list(&[1, 8_192], &[1, 1], &[5, 0]), Answer::plain(6));
}

#[test]
fn number_7_asks_for_n_starts_and_all_fills() {
    let (periods, lengths) = ([2, 8], [1, 1]);
    let (mut starts, mut fills) = ([GUARD; 2], [GUARD; 4]);
    assert_eq!(
        plan(&periods, &lengths, &mut starts[..1], &mut fills),
        Answer::plain(7)
    );
    assert_eq!(
        plan(&periods, &lengths, &mut starts, &mut fills[..3]),
        Answer::plain(7)
    );
    assert_eq!((starts, fills), ([GUARD; 2], [GUARD; 4]));
    assert_eq!(
        plan(&periods, &lengths, &mut starts, &mut fills),
        Answer::DONE
    );
    assert_eq!((starts, fills), ([0, 1], [2, 1, 1, 1]));
    // 7 before 8
    assert_eq!(plan(&[2, 2], &[2, 2], &mut [], &mut [0]), Answer::plain(7));
}

#[test]
fn number_7_comes_before_9_and_18() {
    let (mut a, mut b) = ([GUARD; 2], [GUARD; 2]);
    let (p, l) = ([4, 8], [1, 1]);
    assert_eq!(
        corners_from_starts(&p, &l, &[4, 0], &mut a[..1], &mut b),
        Answer::plain(7)
    );
    assert_eq!(
        corners_from_starts(&p, &l, &[4, 0], &mut a, &mut b[..1]),
        Answer::plain(7)
    );
    assert_eq!(
        corners_from_starts(&p, &l, &[0, 8], &mut a, &mut b),
        Answer::at(9, 1)
    );
    assert_eq!(
        starts_from_corners(&p, &l, &[4, 0], &[0, 0], &mut a[..1]),
        Answer::plain(7)
    );
    assert_eq!(
        starts_from_corners(&p, &l, &[4, 0], &[0, 0], &mut a),
        Answer::at(18, 0)
    );
    assert_eq!((a, b), ([GUARD; 2], [GUARD; 2]));
}

#[test]
fn number_18_has_three_reasons() {
    // w = 4, H = 4, heights 4, 2, 1
    let (p, l) = ([4, 8, 16], [1; 3]);
    let mut starts = [GUARD; 4];
    let mut back = |xs: [u32; 3], ys: [u32; 3]| starts_from_corners(&p, &l, &xs, &ys, &mut starts);
    assert_eq!(back([0, 0, 4], [0, 0, 0]), Answer::at(18, 2));
    assert_eq!(back([0, 0, 4], [0, 1, 0]), Answer::at(18, 1));
    assert_eq!(back([0, 0, 0], [0, 4, 0]), Answer::at(18, 1));
    assert_eq!(back([0, 0, 0], [4, 0, 0]), Answer::at(18, 0));
    assert_eq!(back([0, 0, 0], [0, 0, MARK]), Answer::at(18, 2));
    assert_eq!(back([3, 3, 3], [0, 2, 3]), Answer::DONE);
    assert_eq!(starts, [3, 7, 15, GUARD]);
}

#[test]
fn number_9_begins_at_the_period_and_takes_the_mark() {
    let (p, l) = ([4, 8, 16], [1; 3]);
    assert_eq!(judge_list(&p, &l, &[3, 7, 15]), Answer::DONE);
    assert_eq!(judge_list(&p, &l, &[3, 8, 16]), Answer::at(9, 1));
    assert_eq!(judge_list(&p, &l, &[0, 0, MARK]), Answer::at(9, 2));
    // 9 before 10 and 11
    assert_eq!(check_by_pairs(&p, &l, &[0, 0, 16]), Answer::at(9, 2));
    assert_eq!(holder(&p, &l, &[0, 0, 16], u64::MAX), Answer::at(9, 2));
    assert_eq!(next_start(&p, &l, &[0, 0, 16], u64::MAX), Answer::at(9, 2));
}

#[test]
fn number_11_begins_after_two_to_the_40() {
    let (p, l, s) = ([4], [1], [3]);
    for (tick, number) in [
        (LATEST_TICK - 1, 0),
        (LATEST_TICK, 0),
        (LATEST_TICK + 1, 11),
        (u64::MAX, 11),
    ] {
        assert_eq!(holder(&p, &l, &s, tick).number, number);
        assert_eq!(next_start(&p, &l, &s, tick).number, number);
        assert_eq!(holder(&[], &[], &[], tick).number, number);
        assert_eq!(next_start(&[], &[], &[], tick).number, number);
    }
    assert_eq!(holder(&p, &l, &s, LATEST_TICK + 1), Answer::plain(11));
}

/// The numbers 1 to 6 once more, each said in one sentence.
fn number_in_words(periods: &[u32], lengths: &[u32]) -> Answer {
    let n = periods.len();
    let w = periods.iter().min().copied().unwrap_or(0);
    let longest = periods.iter().max().copied().unwrap_or(0);
    let apart = |a: u32, b: u32| !a.max(b).is_multiple_of(a.min(b));
    if n != lengths.len() {
        Answer::plain(1)
    } else if n > 256 {
        Answer::plain(2)
    } else if let Some(i) = (0..n).find(|i| !(1..=1 << 20).contains(&periods[*i])) {
        Answer::at(3, i)
    } else if let Some(i) = (0..n).find(|i| !(1..=w).contains(&lengths[*i])) {
        Answer::at(4, i)
    } else if let Some(i) = (0..n).find(|i| (0..*i).any(|e| apart(periods[*i], periods[e]))) {
        Answer::at(5, i)
    } else if n > 0 && longest / w > 4_096 {
        Answer::plain(6)
    } else {
        Answer::DONE
    }
}

/// A refused line leaves every lent column as it was.
fn refused_everywhere(line: &Line, expected: Answer) {
    let mut lent = [vec![GUARD; 1_100], vec![GUARD; 5_000]];
    let [starts, fills] = &mut lent;
    let table = judge_table(&line.periods, &line.lengths);
    if !table.is_done() {
        assert_eq!(plan(&line.periods, &line.lengths, starts, fills), table);
    }
    let corners = corners_from_starts(&line.periods, &line.lengths, &line.starts, starts, fills);
    assert_eq!(corners, expected);
    let (xs, ys) = (&line.starts, &line.starts);
    let back = starts_from_corners(&line.periods, &line.lengths, xs, ys, starts);
    assert_eq!(back, expected);
    assert_eq!(
        check_by_pairs(&line.periods, &line.lengths, &line.starts),
        expected
    );
    assert_eq!(
        holder(&line.periods, &line.lengths, &line.starts, u64::MAX),
        expected
    );
    assert_eq!(
        next_start(&line.periods, &line.lengths, &line.starts, u64::MAX),
        expected
    );
    assert!(lent.iter().flatten().all(|entry| *entry == GUARD));
}

#[test]
fn broken_tables_are_refused_the_same_everywhere() {
    let mut random = Random::announced(SEED + 3, "broken tables");
    let mut seen = [0; 7];
    for _ in 0..4_000 {
        let fault = random.choose(&Fault::ALL);
        let line = broken_line(&mut random, fault);
        let answer = judge_table(&line.periods, &line.lengths);
        assert_eq!(
            answer,
            number_in_words(&line.periods, &line.lengths),
            "{line:?}"
        );
        let judged = judge_list(&line.periods, &line.lengths, &line.starts);
        seen[judged.number.min(6) as usize] += 1;
        if (1..=6).contains(&judged.number) {
            refused_everywhere(&line, judged);
        }
    }
    println!("broken tables by number: {seen:?}");
    assert!(seen[1..].iter().all(|count| *count >= 50), "{seen:?}");
}

#[test]
fn sound_tables_are_sound_in_every_class() {
    let mut random = Random::announced(SEED + 4, "sound tables");
    for class in Class::ALL {
        for _ in 0..150 {
            let line = line_of(&mut random, class);
            let answer = judge_table(&line.periods, &line.lengths);
            assert_eq!(answer, Answer::DONE, "{class:?} {line:?}");
            assert_eq!(number_in_words(&line.periods, &line.lengths), Answer::DONE);
            for h in heights(&line.periods) {
                assert_eq!(rows(&line.periods) % h, 0);
            }
        }
    }
}

#[test]
fn late_starts_and_marks_are_refused_by_9_at_the_lowest_place() {
    let mut random = Random::announced(SEED + 5, "late starts");
    for _ in 0..1_000 {
        let (_, line) = any_line(&mut random);
        let kind = random.choose(&[Kind::Marked, Kind::Late]);
        let line = with_starts(&mut random, &line, kind);
        let answer = check_by_pairs(&line.periods, &line.lengths, &line.starts);
        match (0..line.n()).find(|i| line.starts[*i] >= line.periods[*i]) {
            Some(i) => {
                assert_eq!(answer, Answer::at(9, i));
                let (mut xs, mut ys) = (vec![GUARD; 256], vec![GUARD; 256]);
                let (p, l, s) = (&line.periods, &line.lengths, &line.starts);
                assert_eq!(corners_from_starts(p, l, s, &mut xs, &mut ys), answer);
                assert!(xs.iter().chain(&ys).all(|entry| *entry == GUARD));
            }
            None => assert_eq!(line.n(), 0),
        }
    }
}
