//! Every case of the bench sheet.

use reference::answer::Answer;
use reference::block::{get32, SUM_AT, WEIGHTED_SUM_AT};
use reference::check::{check_by_pairs, check_by_ticks};
use reference::flip::{flip, unflip};
use reference::limits::MARK;
use reference::line::Line;
use reference::pages::{check_page, plan_page};
use reference::plan::first_fit;
use reference::table::{judge_list, judge_table};

fn check(periods: &[u32], lengths: &[u32], starts: &[u32]) -> Answer {
    let by_ticks = check_by_ticks(periods, lengths, starts);
    assert_eq!(by_ticks, check_by_pairs(periods, lengths, starts));
    by_ticks
}

fn met(index: u32, second: u32, tick: u64) -> Answer {
    Answer {
        number: 10,
        index,
        second,
        tick,
    }
}

#[test]
fn ratios_2_2_3_flip_slot_10_to_5() {
    assert_eq!(flip(&[2, 2, 3], 10), 5);
    assert_eq!(unflip(&[2, 2, 3], 5), 10);
}

#[test]
fn five_probes_are_planned_and_printed() {
    let (periods, lengths) = ([10, 20, 20, 60, 60], [3, 4, 5, 2, 3]);
    let planned = first_fit(&periods, &lengths);
    assert_eq!(planned.answer, Answer::DONE);
    assert_eq!(planned.starts, [0, 13, 3, 8, 17]);
    assert_eq!(planned.fills, [10, 8, 8, 10, 7, 7]);
    let book = Line::new(&periods, &lengths, &[9, MARK, 0, 7, 7])
        .to_book()
        .unwrap();
    assert_eq!(
        plan_page(&book),
        "0 5 6\n0 10 3 0\n1 20 4 13\n2 20 5 3\n3 60 2 8\n4 60 3 17\n"
    );
}

#[test]
fn a_sixth_probe_starts_at_37_and_not_at_47() {
    let (periods, lengths) = ([10, 20, 20, 60, 60, 60], [3, 4, 5, 2, 3, 3]);
    let planned = first_fit(&periods, &lengths);
    assert_eq!(planned.answer, Answer::DONE);
    assert_eq!(planned.starts, [0, 13, 3, 8, 17, 37]);
    assert_eq!(
        check(&periods, &lengths, &[0, 13, 3, 8, 17, 37]),
        Answer::DONE
    );
    assert_eq!(
        check(&periods, &lengths, &[0, 13, 3, 8, 17, 47]),
        met(2, 5, 47)
    );
    let book = Line::new(&periods, &lengths, &[0, 13, 3, 8, 17, 47])
        .to_book()
        .unwrap();
    assert_eq!(check_page(&book), "10 2 5 47\n");
}

#[test]
fn lengths_6_and_5_do_not_fit_in_10() {
    let planned = first_fit(&[10, 10], &[6, 5]);
    assert_eq!(planned.answer, Answer::at(8, 1));
    assert_eq!(planned.starts, [0, MARK]);
    assert_eq!(planned.fills, [6]);
    let book = Line::new(&[10, 10], &[6, 5], &[0, 0]).to_book().unwrap();
    assert_eq!(plan_page(&book), "8 2 1\n0 10 6 0\n1 10 5 -\n");
    let planned = first_fit(&[10, 10], &[6, 4]);
    assert_eq!(planned.answer, Answer::DONE);
    assert_eq!(planned.starts, [0, 6]);
}

#[test]
fn first_fit_stops_where_another_list_is_clean() {
    let (periods, lengths) = ([8, 16, 16, 32, 32, 32, 32], [2, 2, 2, 4, 4, 4, 4]);
    let planned = first_fit(&periods, &lengths);
    assert_eq!(planned.answer, Answer::at(8, 5));
    assert_eq!(planned.starts, [0, 2, 4, 10, 26, MARK, MARK]);
    assert_eq!(planned.fills, [6, 6, 6, 6]);
    assert_eq!(
        check(&periods, &lengths, &[0, 2, 10, 4, 12, 20, 28]),
        Answer::DONE
    );
    let handed_back = judge_list(&periods, &lengths, &planned.starts);
    assert_eq!(handed_back, Answer::at(9, 5));
}

#[test]
fn a_second_read_meets_at_21() {
    assert_eq!(check(&[10, 20], &[5, 1], &[8, 1]), met(0, 1, 21));
}

#[test]
fn one_probe_may_fill_its_period_and_no_more() {
    let planned = first_fit(&[10], &[10]);
    assert_eq!(
        (planned.answer, &planned.starts[..]),
        (Answer::DONE, &[0][..])
    );
    assert_eq!(judge_table(&[10], &[11]), Answer::at(4, 0));
}

#[test]
fn periods_divide_and_rows_end_at_4096() {
    assert_eq!(judge_table(&[4, 6], &[1, 1]), Answer::at(5, 1));
    assert_eq!(judge_table(&[1, 4_096], &[1, 1]), Answer::DONE);
    assert_eq!(judge_table(&[1, 8_192], &[1, 1]), Answer::plain(6));
}

#[test]
fn the_empty_book_has_sums_1_and_3() {
    let book = Line::default().to_book().unwrap();
    assert_eq!(book.len(), 512);
    assert_eq!(
        (get32(&book, SUM_AT), get32(&book, WEIGHTED_SUM_AT)),
        (1, 3)
    );
    assert_eq!(plan_page(&book), "0 0 0\n");
    assert_eq!(check_page(&book), "0 0 0 0\n");
}

#[test]
fn blocks_of_41_42_and_256_probes() {
    for (n, blocks) in [
        (0, 1),
        (1, 1),
        (41, 1),
        (42, 2),
        (82, 2),
        (83, 3),
        (246, 6),
        (256, 7),
    ] {
        let line = Line::at_zero(vec![1; n], vec![1; n]);
        assert_eq!(line.to_book().unwrap().len(), blocks * 512, "{n} probes");
    }
}

#[test]
fn a_clean_probe_may_poke_out_of_its_rectangle() {
    use reference::packing::{packing_verdict, rectangles_fit};
    assert_eq!(check(&[10], &[5], &[8]), Answer::DONE);
    assert!(!rectangles_fit(&[10], &[5], &[8]));
    assert!(packing_verdict(&[10], &[5], &[8]));
}
