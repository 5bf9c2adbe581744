//! Damaged books are refused by the first number that applies, and nothing is written.

use reference::answer::Answer;
use reference::block::{put16, BLOCK, LARGEST_BOOK};
use reference::book::read_book;
use reference::damage::{damaged, mend, Damage};
use reference::line::Line;
use reference::random::{Random, SEED};

const GUARD: u32 = 0xA5A5_A5A5;

/// Reads into 256 entries each; a refusal writes nothing.
fn read(bytes: &[u8]) -> Answer {
    let mut columns = [vec![GUARD; 256], vec![GUARD; 256], vec![GUARD; 256]];
    let [p, l, s] = &mut columns;
    let answer = read_book(bytes, p, l, s);
    if !answer.is_done() {
        assert!(columns.iter().flatten().all(|entry| *entry == GUARD));
    }
    answer
}

fn small_book(n: u32) -> Vec<u8> {
    let mut line = Line::default();
    for i in 0..n {
        line.push(60 + i, 3, 7 * i);
    }
    line.to_book().unwrap()
}

#[test]
fn every_byte_of_a_small_book_counts() {
    for n in [0, 1, 3, 41, 42] {
        let book = small_book(n);
        for place in 0..book.len() {
            for step in [1, 2, 128, 255] {
                let mut changed = book.clone();
                changed[place] = changed[place].wrapping_add(step);
                assert_eq!(read(&changed), Answer::at(21, place / BLOCK));
            }
        }
    }
}

#[test]
fn every_byte_of_a_small_book_with_mended_sums() {
    for n in [0usize, 1, 3, 41, 42] {
        let book = small_book(n as u32);
        for place in 0..book.len() {
            let mut changed = book.clone();
            changed[place] = changed[place].wrapping_add(1);
            mend(&mut changed);
            let (block, within) = (place / BLOCK, place % BLOCK);
            let used = 12 + 12 * (n - 41 * block).min(41);
            let expected = if within >= 504 {
                Answer::done_with(n as u32)
            } else if (n, place) == (42, 6) {
                // Block 0 is right for 43 probes in two blocks; block 1 then says another n.
                Answer::at(22, 1)
            } else if within < 12 {
                Answer::at(22, block)
            } else if within >= used {
                Answer::at(23, block)
            } else {
                Answer::done_with(n as u32)
            };
            assert_eq!(read(&changed), expected, "n {n}, place {place}");
        }
    }
}

#[test]
fn sizes_are_judged_first() {
    let book = small_book(256);
    for size in 0..book.len() {
        if size % BLOCK != 0 || size == 0 {
            assert_eq!(read(&book[..size]), Answer::plain(20));
        } else {
            assert_eq!(read(&book[..size]), Answer::at(22, 0));
        }
    }
    assert_eq!(read(&book), Answer::done_with(256));
    let mut longer = book.clone();
    longer.push(0);
    assert_eq!(read(&longer), Answer::plain(20));
    longer.resize(LARGEST_BOOK + BLOCK, 0);
    assert_eq!(read(&longer), Answer::plain(20));
}

#[test]
fn seven_full_blocks_with_n_above_256_are_22() {
    for n in 257..=287 {
        let mut book = small_book(256);
        for block in book.chunks_exact_mut(BLOCK) {
            put16(block, 6, n);
        }
        put16(&mut book[6 * BLOCK..], 4, n - 246);
        mend(&mut book);
        assert_eq!(read(&book), Answer::at(22, 0));
    }
}

#[test]
fn a_later_block_with_its_own_n_is_22_there() {
    let mut book = small_book(50);
    put16(&mut book[BLOCK..], 6, 51);
    put16(&mut book[BLOCK..], 4, 10);
    mend(&mut book);
    assert_eq!(read(&book), Answer::at(22, 1));
}

#[test]
fn blocks_are_judged_one_after_the_other() {
    // 23 cannot stand before the last block; 22 in block 0 comes before 21 in block 1
    let mut book = small_book(50);
    put16(&mut book, 0, 9);
    mend(&mut book);
    book[BLOCK + 100] ^= 1;
    assert_eq!(read(&book), Answer::at(22, 0));
    book[100] ^= 1;
    assert_eq!(read(&book), Answer::at(21, 0));
    // in one block 22 before 23
    let mut book = small_book(50);
    book[BLOCK + 503] = 1;
    book[BLOCK + 11] = 1;
    mend(&mut book);
    assert_eq!(read(&book), Answer::at(22, 1));
    book[BLOCK + 11] = 0;
    mend(&mut book);
    assert_eq!(read(&book), Answer::at(23, 1));
    // 24 comes last of all
    let mut few = [GUARD; 3];
    let (mut l, mut s) = ([0; 50], [0; 50]);
    assert_eq!(
        read_book(&book, &mut few, &mut l, &mut s),
        Answer::at(23, 1)
    );
    assert_eq!(
        read_book(&small_book(50), &mut few, &mut l, &mut s),
        Answer::plain(24)
    );
}

#[test]
fn random_damage_reaches_every_refusal() {
    let mut random = Random::announced(SEED + 41, "damaged books");
    let mut numbers = std::collections::BTreeMap::new();
    for _ in 0..5_000 {
        let n = random.choose(&[0, 1, 2, 40, 41, 42, 82, 100, 246, 247, 255, 256]);
        let damage = random.choose(&Damage::ALL);
        let bytes = damaged(&mut random, &small_book(n), damage);
        let answer = read(&bytes);
        *numbers.entry(answer.number).or_insert(0) += 1;
        if answer.is_done() {
            assert_eq!(Line::of_book(&bytes).unwrap().to_book().unwrap(), bytes);
        }
    }
    println!("damaged books by number: {numbers:?}");
    for number in [0, 20, 21, 22, 23] {
        assert!(numbers[&number] >= 50, "{numbers:?}");
    }
}
