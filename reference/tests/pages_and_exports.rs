//! Printed pages and the 20 bytes of the exports, for any bytes of a book.

use reference::answer::Answer;
use reference::check::check_by_pairs;
use reference::damage::{damaged, Damage};
use reference::exports::{answer_bytes, export_check, export_holder, export_next_start};
use reference::limits::{LATEST_TICK, MARK};
use reference::line::Line;
use reference::lines::any_line;
use reference::pages::{check_page, plan_page};
use reference::plan::plan;
use reference::random::{Random, SEED};
use reference::starts::any_starts;
use reference::timetable::{holder, next_start};

fn book(periods: &[u32], lengths: &[u32], starts: &[u32]) -> Vec<u8> {
    Line::new(periods, lengths, starts).to_book().unwrap()
}

#[test]
fn refused_books_print_number_and_index() {
    assert_eq!(plan_page(&[]), "20 0\n");
    assert_eq!(check_page(&[]), "20 0 0 0\n");
    let mut two = Line::at_zero(vec![4; 42], vec![1; 42]).to_book().unwrap();
    two[512] = 7;
    assert_eq!(plan_page(&two), "21 1\n");
    assert_eq!(check_page(&two), "21 1 0 0\n");
    assert_eq!(plan_page(&[0; 512]), "22 0\n");
    assert_eq!(plan_page(&[0; 3_585]), "20 0\n");
    assert_eq!(plan_page(&[0; 4_096]), "20 0\n");
}

#[test]
fn refused_tables_print_number_and_index() {
    assert_eq!(plan_page(&book(&[4, 6], &[1, 1], &[0, 0])), "5 1\n");
    assert_eq!(check_page(&book(&[4, 6], &[1, 1], &[0, 0])), "5 1 0 0\n");
    assert_eq!(plan_page(&book(&[1, 8_192], &[1, 1], &[0, 0])), "6 0\n");
    assert_eq!(plan_page(&book(&[0], &[0], &[0])), "3 0\n");
    assert_eq!(plan_page(&book(&[10], &[11], &[0])), "4 0\n");
}

#[test]
fn plan_ignores_the_starts_and_check_judges_them() {
    let marked = book(&[10, 10], &[6, 4], &[MARK, MARK]);
    assert_eq!(plan_page(&marked), "0 2 1\n0 10 6 0\n1 10 4 6\n");
    assert_eq!(check_page(&marked), "9 0 0 0\n");
    assert_eq!(check_page(&book(&[10, 10], &[6, 4], &[0, 6])), "0 0 0 0\n");
    assert_eq!(check_page(&book(&[10, 10], &[6, 4], &[0, 5])), "10 0 1 5\n");
}

#[test]
fn pages_say_what_the_calls_answer() {
    let mut random = Random::announced(SEED + 50, "pages");
    for _ in 0..600 {
        let (_, line) = any_line(&mut random);
        let (_, line) = any_starts(&mut random, &line);
        let book = line.to_book().unwrap();
        let (mut starts, mut fills) = ([0; 256], [0; 4_096]);
        let planned = plan(&line.periods, &line.lengths, &mut starts, &mut fills);
        let page = plan_page(&book);
        let rows: Vec<&str> = page.lines().collect();
        assert_eq!(rows.len(), 1 + line.n());
        assert_eq!(
            rows[0].split(' ').next(),
            Some(planned.number.to_string().as_str())
        );
        for i in 0..line.n() {
            let last = rows[1 + i].split(' ').next_back().unwrap();
            assert_eq!(last == "-", starts[i] == MARK);
            assert!(last == "-" || last == starts[i].to_string());
        }
        let answer = check_by_pairs(&line.periods, &line.lengths, &line.starts);
        let numbers: Vec<u64> = check_page(&book)
            .split_whitespace()
            .map(|word| word.parse().unwrap())
            .collect();
        let fields = [answer.number, answer.index, answer.second].map(u64::from);
        assert_eq!((&numbers[..3], numbers[3]), (&fields[..], answer.tick));
    }
}

#[test]
fn the_exports_write_20_bytes_and_no_more() {
    let book = book(&[10, 20], &[5, 1], &[8, 1]);
    let mut lent = [0xA5; 25];
    for short in 0..20 {
        assert_eq!(export_check(&book, &mut lent[..short]), 7);
        assert_eq!(export_holder(&[], 0, &mut lent[..short]), 7);
        assert_eq!(export_next_start(&book, u64::MAX, &mut lent[..short]), 7);
    }
    assert_eq!(lent, [0xA5; 25]);
    assert_eq!(export_check(&book, &mut lent), 10);
    assert_eq!(
        lent[..20],
        [10, 0, 0, 0, 0, 0, 0, 0, 1, 0, 0, 0, 21, 0, 0, 0, 0, 0, 0, 0]
    );
    assert_eq!(lent[20..], [0xA5; 5]);
    assert_eq!(export_next_start(&book, LATEST_TICK, &mut lent), 0);
    // 2^40 leaves 6 by 10, so probe 0 starts 2 ticks later
    assert_eq!(
        lent[..20],
        [0, 0, 0, 0, 0, 0, 0, 0, 0, 0, 0, 0, 2, 0, 0, 0, 0, 1, 0, 0]
    );
    assert_eq!(export_holder(&book, 0, &mut lent), 0);
    assert_eq!(lent[..8], [0, 0, 0, 0, 255, 255, 255, 255]);
    assert_eq!(lent[8..20], [0; 12]);
}

#[test]
fn the_exports_judge_the_book_then_the_list_then_the_tick() {
    let mut lent = [0xA5; 20];
    assert_eq!(export_holder(&[], u64::MAX, &mut lent), 20);
    assert_eq!(lent, answer_bytes(Answer::plain(20)));
    let late = book(&[4, 8], &[1, 1], &[0, 8]);
    assert_eq!(export_next_start(&late, u64::MAX, &mut lent), 9);
    assert_eq!(lent, answer_bytes(Answer::at(9, 1)));
    let good = book(&[4, 8], &[1, 1], &[0, 0]);
    assert_eq!(export_next_start(&good, u64::MAX, &mut lent), 11);
    assert_eq!(lent, answer_bytes(Answer::plain(11)));
    let empty = book(&[], &[], &[]);
    assert_eq!(export_check(&empty, &mut lent), 0);
    assert_eq!(lent, [0; 20]);
}

#[test]
fn the_exports_say_what_the_calls_answer() {
    let mut random = Random::announced(SEED + 51, "exports");
    for _ in 0..600 {
        let (_, line) = any_line(&mut random);
        let (_, line) = any_starts(&mut random, &line);
        let (p, l, s) = (&line.periods, &line.lengths, &line.starts);
        let book = line.to_book().unwrap();
        let tick = random.choose(&reference::moments::EDGES);
        let mut lent = [0; 20];
        export_check(&book, &mut lent);
        assert_eq!(lent, answer_bytes(check_by_pairs(p, l, s)));
        export_holder(&book, tick, &mut lent);
        assert_eq!(lent, answer_bytes(holder(p, l, s, tick)));
        export_next_start(&book, tick, &mut lent);
        assert_eq!(lent, answer_bytes(next_start(p, l, s, tick)));
        let damage = random.choose(&Damage::ALL);
        let bytes = damaged(&mut random, &book, damage);
        if let Err(refusal) = Line::of_book(&bytes) {
            assert_eq!(export_check(&bytes, &mut lent), refusal.number);
            assert_eq!(lent, answer_bytes(refusal));
            assert_eq!(
                plan_page(&bytes),
                format!("{} {}\n", refusal.number, refusal.index)
            );
        }
    }
}
