//! Books written and read come back whole, and nothing past the result is written.

use reference::answer::Answer;
use reference::block::{blocks_for, records_in, BLOCK, LARGEST_BOOK, RECORDS};
use reference::book::{read_book, write_book};
use reference::limits::MARK;
use reference::line::Line;
use reference::random::{Random, SEED};

const GUARD: u32 = 0xA5A5_A5A5;

fn any_columns(random: &mut Random, n: usize) -> Line {
    let mut line = Line::default();
    for _ in 0..n {
        let top = random.choose(&[1, 255, 65_535, 1 << 20, MARK]);
        line.push(
            random.between(0, top),
            random.between(0, top),
            random.between(0, top),
        );
    }
    line
}

#[test]
fn blocks_and_records_of_every_n() {
    for n in 0..=256 {
        let blocks = blocks_for(n);
        assert_eq!(
            (0..blocks).map(|block| records_in(n, block)).sum::<usize>(),
            n
        );
        assert!((0..blocks - 1).all(|block| records_in(n, block) == RECORDS));
        assert!(blocks == 1 || records_in(n, blocks - 1) > 0);
    }
}

#[test]
fn every_n_is_written_and_read_back() {
    let mut random = Random::announced(SEED + 40, "books of every n");
    for n in 0..=256 {
        let line = any_columns(&mut random, n);
        let mut bytes = vec![0xA5; LARGEST_BOOK + 7];
        let answer = write_book(&line.periods, &line.lengths, &line.starts, &mut bytes);
        let size = blocks_for(n) * BLOCK;
        assert_eq!(answer, Answer::done_with(size as u32));
        assert!(bytes[size..].iter().all(|byte| *byte == 0xA5));
        let book = &bytes[..size];
        let (mut p, mut l, mut s) = (vec![GUARD; n], vec![GUARD; n + 1], vec![GUARD; 300]);
        assert_eq!(
            read_book(book, &mut p, &mut l, &mut s),
            Answer::done_with(n as u32)
        );
        assert_eq!(
            (&p[..n], &l[..n], &s[..n]),
            (&line.periods[..], &line.lengths[..], &line.starts[..])
        );
        assert!(l[n..].iter().chain(&s[n..]).all(|entry| *entry == GUARD));
        assert_eq!(Line::of_book(book).unwrap().to_book().unwrap(), book);
    }
}

#[test]
fn writing_is_refused_by_1_2_and_7_and_writes_nothing() {
    let mut bytes = [0xA5; 600];
    assert_eq!(write_book(&[1], &[1], &[], &mut bytes), Answer::plain(1));
    assert_eq!(write_book(&[1], &[], &[1], &mut bytes), Answer::plain(1));
    assert_eq!(write_book(&[], &[1], &[1], &mut bytes), Answer::plain(1));
    assert_eq!(
        write_book(&[1; 300], &[1; 300], &[1; 299], &mut []),
        Answer::plain(1)
    );
    assert_eq!(
        write_book(&[1; 257], &[1; 257], &[1; 257], &mut []),
        Answer::plain(2)
    );
    assert_eq!(
        write_book(&[1; 42], &[1; 42], &[1; 42], &mut bytes),
        Answer::plain(7)
    );
    assert_eq!(
        write_book(&[], &[], &[], &mut bytes[..511]),
        Answer::plain(7)
    );
    assert_eq!(bytes, [0xA5; 600]);
    assert_eq!(
        write_book(&[], &[], &[], &mut bytes[..512]),
        Answer::done_with(512)
    );
}

#[test]
fn reading_is_refused_by_24_where_one_column_is_short() {
    let line = Line::at_zero(vec![7; 5], vec![1; 5]);
    let book = line.to_book().unwrap();
    for short in 0..3 {
        let mut columns = [vec![GUARD; 5], vec![GUARD; 5], vec![GUARD; 5]];
        columns[short].pop();
        let [p, l, s] = &mut columns;
        assert_eq!(read_book(&book, p, l, s), Answer::plain(24));
        assert!(columns.iter().flatten().all(|entry| *entry == GUARD));
    }
    let empty = Line::default().to_book().unwrap();
    assert_eq!(
        read_book(&empty, &mut [], &mut [], &mut []),
        Answer::done_with(0)
    );
}

#[test]
fn the_fields_stand_where_the_rules_put_them() {
    let line = Line::new(&[0x0102_0304; 42], &[5; 42], &[MARK; 42]);
    let book = line.to_book().unwrap();
    assert_eq!(book[..12], [0, 0, 2, 0, 41, 0, 42, 0, 0, 0, 0, 0]);
    assert_eq!(book[512..524], [1, 0, 2, 0, 1, 0, 42, 0, 0, 0, 0, 0]);
    let record = [4, 3, 2, 1, 5, 0, 0, 0, 255, 255, 255, 255];
    assert_eq!(book[12..24], record);
    assert_eq!(book[492..504], record);
    assert_eq!(book[524..536], record);
    assert!(book[536..1016].iter().all(|byte| *byte == 0));
    let plain: u32 = book[512..1016].iter().map(|byte| u32::from(*byte)).sum();
    assert_eq!(book[1016..1020], plain.to_le_bytes());
}
