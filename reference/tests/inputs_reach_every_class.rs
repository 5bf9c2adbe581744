//! The generators reach every number and class at least 50 times.

use reference::block::BLOCK;
use reference::book::{read_book, write_book};
use reference::broken::{broken_line, Fault};
use reference::census::Census;
use reference::check::check_by_pairs;
use reference::corners::{corners_from_starts, starts_from_corners};
use reference::damage::{damaged, Damage};
use reference::line::Line;
use reference::lines::{line_of, Class};
use reference::moments::moments;
use reference::pair::FirstTick;
use reference::plan::plan;
use reference::random::{Random, SEED};
use reference::room::has_room;
use reference::shape::{different_periods, height, least_period, longest_period, rows};
use reference::starts::any_starts;
use reference::timetable::{holder, next_start};

/// Lent columns that are sometimes too short.
fn lent(random: &mut Random, wanted: usize) -> Vec<u32> {
    let short = random.once_in(12) && wanted > 0;
    vec![
        7;
        if short {
            wanted - 1
        } else {
            wanted + random.below(3) as usize
        }
    ]
}

fn ask_planner(random: &mut Random, line: &Line, census: &mut Census) {
    let mut starts = lent(random, line.n());
    let mut fills = lent(random, 4_096);
    let answer = plan(&line.periods, &line.lengths, &mut starts, &mut fills);
    census.note_number("plan", answer);
}

fn ask_corners(random: &mut Random, line: &Line, census: &mut Census) {
    let (p, l) = (&line.periods, &line.lengths);
    let n = line.n();
    let (mut xs, mut ys) = (lent(random, n), lent(random, n));
    let answer = corners_from_starts(p, l, &line.starts, &mut xs, &mut ys);
    census.note_number("corners from starts", answer);
    if answer.is_done() {
        xs.truncate(n);
        ys.truncate(n);
        if random.once_in(3) && n > 0 {
            let i = random.below(n as u64) as usize;
            match random.below(3) {
                0 => xs[i] = least_period(p),
                1 => ys[i] += height(p, i) - 1,
                _ => ys[i] = 4_096,
            }
        }
        let mut starts = lent(random, n);
        census.note_number(
            "starts from corners",
            starts_from_corners(p, l, &xs, &ys, &mut starts),
        );
    }
}

fn ask_wire(random: &mut Random, line: &Line, census: &mut Census) {
    let (p, l, s) = (&line.periods, &line.lengths, &line.starts);
    let answer = check_by_pairs(p, l, s);
    census.note_number("check", answer);
    census.note_first_tick(line, answer);
    let step = if line.n() > 20 { 8 } else { 1 };
    let first = random.below(step as u64) as usize;
    for tick in moments(random, line).into_iter().skip(first).step_by(step) {
        census.note_number("holder", holder(p, l, s, tick));
        census.note_number("next start", next_start(p, l, s, tick));
    }
}

fn ask_book(random: &mut Random, line: &Line, census: &mut Census) {
    let room = random.choose(&[0, 511, 512, 1_024, 7 * BLOCK, 7 * BLOCK]);
    let mut bytes = vec![0; room];
    let answer = write_book(&line.periods, &line.lengths, &line.starts, &mut bytes);
    census.note_number("write book", answer);
    if answer.is_done() {
        bytes.truncate(answer.index as usize);
        let damage = random.choose(&Damage::ALL);
        for book in [damaged(random, &bytes, damage), bytes] {
            let (mut p, mut l, mut s) = (
                lent(random, 256),
                lent(random, line.n()),
                lent(random, line.n()),
            );
            census.note_number("read book", read_book(&book, &mut p, &mut l, &mut s));
        }
    }
}

#[test]
fn at_least_50_of_each() {
    let mut random = Random::announced(SEED + 70, "census");
    let mut census = Census::default();
    for round in 0..4_000 {
        let line = if round % 3 == 0 {
            let fault = random.choose(&Fault::ALL);
            broken_line(&mut random, fault)
        } else {
            let class = Class::ALL[round % Class::ALL.len()];
            let line = line_of(&mut random, class);
            any_starts(&mut random, &line).1
        };
        census.note_table(&line);
        ask_planner(&mut random, &line, &mut census);
        ask_corners(&mut random, &line, &mut census);
        ask_wire(&mut random, &line, &mut census);
        ask_book(&mut random, &line, &mut census);
    }
    println!("{census}");
    let table = [1, 2, 3, 4, 5, 6];
    let numbers: [(&str, Vec<u32>); 7] = [
        ("plan", [&table[..], &[0, 7, 8]].concat()),
        ("corners from starts", [&table[..], &[0, 7, 9]].concat()),
        ("starts from corners", vec![0, 7, 18]),
        ("check", [&table[..], &[0, 9, 10]].concat()),
        ("holder", [&table[..], &[0, 9, 11]].concat()),
        ("write book", vec![0, 1, 2, 7]),
        ("read book", vec![0, 20, 21, 22, 23, 24]),
    ];
    let mut wanted = Vec::new();
    for (call, numbers) in numbers {
        wanted.extend(
            numbers
                .iter()
                .map(|number| format!("{call}: number {number}")),
        );
    }
    wanted.extend(FirstTick::ALL.map(Census::case_name));
    wanted.extend(["M of 2^19 or more", "13 different periods", "H = 4,096"].map(String::from));
    assert_eq!(census.lacking(&wanted, 50), Vec::<String>::new());
    assert_eq!(census.count("first tick: no case"), 0);
}

#[test]
fn every_class_has_what_it_says() {
    let mut random = Random::announced(SEED + 71, "classes");
    for class in Class::ALL {
        for _ in 0..100 {
            let line = line_of(&mut random, class);
            let (n, p) = (line.n(), &line.periods);
            let (w, m, kinds) = (
                least_period(p),
                longest_period(p),
                different_periods(p).len(),
            );
            let stands = match class {
                Class::Empty => n == 0,
                Class::One => n == 1,
                Class::FullBlock => n == 41,
                Class::TwoBlocks => n == 42,
                Class::NearlyMost => n == 255,
                Class::Most => n == 256,
                Class::FewPeriods => n >= 2 && kinds <= 2,
                Class::ManyPeriods => kinds >= 5,
                Class::ThirteenPeriods => kinds == 13,
                Class::MostRows => rows(p) == 4_096,
                Class::WideRatio => kinds == 2,
                Class::LeastPeriodOne => w == 1,
                Class::FullLength => line.lengths.contains(&w),
                Class::LongPeriods => m >= 1 << 19,
                Class::Small => (1..=360).contains(&m) && n <= 10,
                Class::Roomy => has_room(p, &line.lengths),
                Class::Tight => n >= 4 && kinds >= 2,
            };
            assert!(stands, "{class:?} {line:?}");
        }
    }
}

#[test]
fn the_same_seed_gives_the_same_lines() {
    let lines = |seed| {
        let mut random = Random::new(seed);
        Class::ALL.map(|class| line_of(&mut random, class))
    };
    assert_eq!(lines(SEED), lines(SEED));
    assert_ne!(lines(SEED), lines(SEED + 1));
}
