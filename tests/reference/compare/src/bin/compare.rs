//! Holds every public call against the reference on random and boundary inputs, and fails where a class has too few.

use std::process::ExitCode;

use compare::calls::short_answers_stay;
use compare::classes::{names, LEAST};
use compare::held::Run;
use compare::inputs::boundary_lines;
use compare::programs::Arrival;
use reference::broken::{broken_line, Fault};
use reference::damage::{damaged, mend, Damage};
use reference::line::Line;
use reference::lines::{any_line, line_of, Class};
use reference::moments::{moments, EDGES};
use reference::random::{Random, SEED};
use reference::starts::{any_starts, with_starts, Kind};

/// Sound lines, broken lines, and lines of the rarer classes.
const SOUND: usize = 3_000;
const BROKEN: usize = 1_600;
const RARE: usize = 100;

/// Lines whose books go to the programs, and books that come in pieces, of each kind.
const PRINTED: usize = 500;
const PIECES: usize = 60;

/// Every call on one line; damaged books of it too.
fn all_calls(run: &mut Run, random: &mut Random, line: &Line) {
    run.validate(line);
    run.plan(random, line);
    run.rectangles(random, line);
    run.check(line);
    for tick in moments(random, line).into_iter().step_by(3).chain(EDGES) {
        run.timetable(line, tick);
    }
    if let Some(book) = run.write(random, line) {
        run.read(random, &book, line.n());
        let ticks = moments(random, line).into_iter().step_by(5).chain(EDGES);
        for tick in ticks {
            run.export_ticks(random, &book, tick);
        }
        book_calls(run, random, &book);
        let damage = random.choose(&Damage::ALL);
        let book = damaged(random, &book, damage);
        run.read(random, &book, line.n());
        book_calls(run, random, &book);
    }
}

/// The exports and the page calls on a book of any bytes.
fn book_calls(run: &mut Run, random: &mut Random, book: &[u8]) {
    run.export_check(random, book);
    let tick = random.choose(&EDGES);
    run.export_ticks(random, book, tick);
    run.pages(random, book);
}

/// Every byte of a small book changed, as it is and with its sums mended; and every length up to its own and one more.
fn every_byte(run: &mut Run, random: &mut Random, line: &Line) {
    let book = line.to_book().expect("a small line has a book");
    for place in 0..book.len() {
        for step in [1, 128, 255] {
            let mut book = book.clone();
            book[place] = book[place].wrapping_add(step);
            run.read(random, &book, line.n());
            book_calls(run, random, &book);
            mend(&mut book);
            run.read(random, &book, line.n());
            book_calls(run, random, &book);
        }
        run.read(random, &book[..place], line.n());
        book_calls(run, random, &book[..place]);
    }
    let longer = [&book[..], &[0]].concat();
    run.read(random, &longer, line.n());
    book_calls(run, random, &longer);
}

/// A sound line with starts, or a broken one that has a book, about as often.
fn some_book(random: &mut Random) -> Vec<u8> {
    loop {
        let line = if random.once_in(2) {
            let (_, line) = any_line(random);
            any_starts(random, &line).1
        } else {
            let fault = random.choose(&Fault::ALL);
            broken_line(random, fault)
        };
        if let Ok(book) = line.to_book() {
            return book;
        }
    }
}

/// The programs as processes: books of every kind and length, whole and in pieces.
fn programs(run: &mut Run, random: &mut Random) {
    for line in boundary_lines() {
        if let Ok(book) = line.to_book() {
            run.programs(random, &book, Arrival::Whole);
        }
    }
    for _ in 0..PRINTED {
        let book = some_book(random);
        run.programs(random, &book, Arrival::Whole);
    }
    for damage in Damage::ALL {
        for _ in 0..PIECES {
            let book = some_book(random);
            let book = damaged(random, &book, damage);
            run.programs(random, &book, Arrival::Whole);
        }
    }
    for class in [
        Class::Empty,
        Class::One,
        Class::FullBlock,
        Class::TwoBlocks,
        Class::NearlyMost,
        Class::Most,
        Class::Tight,
    ] {
        for _ in 0..PIECES {
            let line = line_of(random, class);
            let (_, line) = any_starts(random, &line);
            let book = line.to_book().expect("a sound line has a book");
            run.programs(random, &book, Arrival::Whole);
        }
    }
    for fault in Fault::ALL {
        for _ in 0..PIECES {
            if let Ok(book) = broken_line(random, fault).to_book() {
                run.programs(random, &book, Arrival::Whole);
            }
        }
    }
    for _ in 0..PIECES {
        for size in [0, 1, 511, 513, 3_583, 3_584, 3_585, 4_095, 4_096, 100_000] {
            let mut book = line_of(random, Class::Most).to_book().expect("a book");
            book.resize(size, 0);
            run.programs(random, &book, Arrival::Whole);
        }
        for arrival in [Arrival::ByteByByte, Arrival::InPieces] {
            let book = some_book(random);
            run.programs(random, &book, arrival);
            let most = line_of(random, Class::Most).to_book().expect("a book");
            let more = random.choose(&[0, 1, 512, 4_000]);
            run.programs(random, &[most, vec![0; more]].concat(), arrival);
        }
    }
}

fn compare(run: &mut Run, random: &mut Random) {
    for line in boundary_lines() {
        for _ in 0..4 {
            all_calls(run, random, &line);
        }
    }
    for _ in 0..SOUND {
        let (_, line) = any_line(random);
        let (_, line) = any_starts(random, &line);
        all_calls(run, random, &line);
    }
    for class in [
        Class::ThirteenPeriods,
        Class::MostRows,
        Class::LongPeriods,
        Class::Small,
    ] {
        for _ in 0..RARE {
            let line = line_of(random, class);
            let line = with_starts(random, &line, Kind::Meeting);
            all_calls(run, random, &line);
        }
    }
    for round in 0..BROKEN {
        let line = broken_line(random, Fault::ALL[round % Fault::ALL.len()]);
        all_calls(run, random, &line);
    }
    every_byte(run, random, &Line::default());
    every_byte(run, random, &Line::new(&[10, 20], &[5, 1], &[8, 1]));
    every_byte(run, random, &Line::at_zero(vec![300; 42], vec![1; 42]));
    programs(run, random);
}

fn main() -> ExitCode {
    let mut random = Random::announced(SEED, "every public call against the reference");
    let mut run = Run::default();
    compare(&mut run, &mut random);
    print!("{}", run.census);
    let lacking = run.census.lacking(&names(), LEAST);
    for name in &lacking {
        println!("fewer than {LEAST}: {name}, {}", run.census.count(name));
    }
    let short = short_answers_stay();
    if !short {
        println!("an answer is written into fewer than five numbers");
    }
    println!("{} calls, {} differ", run.calls, run.wrong);
    if run.wrong == 0 && lacking.is_empty() && short {
        ExitCode::SUCCESS
    } else {
        ExitCode::FAILURE
    }
}
