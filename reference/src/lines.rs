//! Random sound tables, by class. Every start is 0; `starts` gives others.

use crate::limits::{LONGEST_PERIOD, MOST_ROWS};
use crate::line::Line;
use crate::random::Random;
use crate::room::has_room;
use crate::shape::least_period;

/// What a sound table has of its own.
#[derive(Clone, Copy, Debug, PartialEq, Eq, PartialOrd, Ord)]
pub enum Class {
    /// No probe.
    Empty,
    /// One probe.
    One,
    /// 41 probes, a full block.
    FullBlock,
    /// 42 probes, two blocks.
    TwoBlocks,
    /// 255 probes.
    NearlyMost,
    /// 256 probes.
    Most,
    /// One or two different periods.
    FewPeriods,
    /// Five or more different periods.
    ManyPeriods,
    /// 13 different periods, so H = 4,096.
    ThirteenPeriods,
    /// H = 4,096 with any number of periods.
    MostRows,
    /// Two different periods with a ratio up to 4,096.
    WideRatio,
    /// w = 1, so every length is 1.
    LeastPeriodOne,
    /// Some lengths equal to w.
    FullLength,
    /// M of 2^19 or more.
    LongPeriods,
    /// M at most 360, to be walked tick by tick.
    Small,
    /// The room sentence gives every probe a place.
    Roomy,
    /// About as many busy ticks as ticks.
    Tight,
}

impl Class {
    pub const ALL: [Class; 17] = [
        Class::Empty,
        Class::One,
        Class::FullBlock,
        Class::TwoBlocks,
        Class::NearlyMost,
        Class::Most,
        Class::FewPeriods,
        Class::ManyPeriods,
        Class::ThirteenPeriods,
        Class::MostRows,
        Class::WideRatio,
        Class::LeastPeriodOne,
        Class::FullLength,
        Class::LongPeriods,
        Class::Small,
        Class::Roomy,
        Class::Tight,
    ];
}

/// At most `count` ratios of 2 or more with a product of at most `most`.
fn ratios(random: &mut Random, count: u32, most: u32) -> Vec<u32> {
    let mut ratios = Vec::new();
    let mut left = most;
    for done in 0..count {
        let kept = 1u32 << (count - done - 1).min(12);
        let high = (left / kept).max(left.min(2));
        if high < 2 {
            break;
        }
        let ratio = random.between_by_size(2, high);
        ratios.push(ratio);
        left /= ratio;
    }
    random.shuffle(&mut ratios);
    ratios
}

/// Ratios that are powers of 2 with product 4,096.
fn ratios_of_most_rows(random: &mut Random) -> Vec<u32> {
    let mut ratios = Vec::new();
    let mut left = 12;
    while left > 0 {
        let power = random.between(1, left);
        ratios.push(1 << power);
        left -= power;
    }
    random.shuffle(&mut ratios);
    ratios
}

/// w, w b_1, w b_1 b_2, ..
fn chain(w: u32, ratios: &[u32]) -> Vec<u32> {
    let mut chain = vec![w];
    for ratio in ratios {
        chain.push(chain[chain.len() - 1] * ratio);
    }
    chain
}

/// A least period that leaves the longest at most `longest`.
fn least(random: &mut Random, ratios: &[u32], longest: u32) -> u32 {
    let rows: u32 = ratios.iter().product();
    random.between_by_size(1, longest / rows)
}

/// n periods of a chain in any order, the ends of the chain first and each once if n allows.
fn periods_of_chain(random: &mut Random, chain: &[u32], n: usize) -> Vec<u32> {
    let mut wanted = chain.to_vec();
    let last = wanted.len() - 1;
    if last > 0 {
        wanted.swap(1, last);
    }
    wanted.truncate(n);
    while wanted.len() < n {
        wanted.push(random.choose(chain));
    }
    random.shuffle(&mut wanted);
    wanted
}

/// Lengths from 1 to w that keep about `percent` of the ticks busy.
fn lengths(random: &mut Random, periods: &[u32], percent: u64) -> Vec<u32> {
    let w = least_period(periods);
    let n = periods.len() as u64;
    let most = (w / random.choose(&[1, 1, 2, 4, 10])).max(1);
    let of_probe = |period: &u32| {
        let share = u64::from(*period) * percent * 2 / (100 * n);
        random.between(1, share.clamp(1, u64::from(most)) as u32)
    };
    periods.iter().map(of_probe).collect()
}

/// A table over a chain of its own.
fn table(random: &mut Random, chain: &[u32], n: usize) -> Line {
    let periods = periods_of_chain(random, chain, n);
    let percent = random.choose(&[10, 30, 60, 80, 90, 100, 120, 200]);
    let lengths = lengths(random, &periods, percent);
    Line::at_zero(periods, lengths)
}

fn any_table(random: &mut Random, n: usize) -> Line {
    let count = random.between(0, 8);
    let ratios = ratios(random, count, MOST_ROWS);
    let w = least(random, &ratios, LONGEST_PERIOD);
    table(random, &chain(w, &ratios), n)
}

fn some_probes(random: &mut Random, least: usize) -> usize {
    random.between_by_size(least as u32, 256) as usize
}

fn small_table(random: &mut Random) -> Line {
    let count = random.between(0, 4);
    let rows = random.between(1, 36);
    let ratios = ratios(random, count, rows);
    let rows: u32 = ratios.iter().product();
    let w = random.between(1, (360 / rows).min(30));
    let n = random.between(1, 10) as usize;
    table(random, &chain(w, &ratios), n)
}

fn roomy_table(random: &mut Random) -> Line {
    let n = some_probes(random, 1);
    let mut line = any_table(random, n);
    while !has_room(&line.periods, &line.lengths) {
        for length in &mut line.lengths {
            *length = (*length / 2).max(1);
        }
        if line.lengths.iter().all(|length| *length == 1) {
            line.periods.pop();
            line.lengths.pop();
            line.starts.pop();
        }
    }
    line
}

fn tight_table(random: &mut Random) -> Line {
    let count = random.between(1, 5);
    let most = random.choose(&[8, 64, MOST_ROWS]);
    let ratios = ratios(random, count, most);
    let rows: u32 = ratios.iter().product();
    let w = random.between_by_size(2, LONGEST_PERIOD / rows);
    let n = some_probes(random, 4);
    let periods = periods_of_chain(random, &chain(w, &ratios), n);
    let percent = random.between(90, 130);
    let lengths = lengths(random, &periods, u64::from(percent));
    Line::at_zero(periods, lengths)
}

/// A sound table of the class.
pub fn line_of(random: &mut Random, class: Class) -> Line {
    match class {
        Class::Empty => Line::default(),
        Class::One => any_table(random, 1),
        Class::FullBlock => any_table(random, 41),
        Class::TwoBlocks => any_table(random, 42),
        Class::NearlyMost => any_table(random, 255),
        Class::Most => any_table(random, 256),
        Class::FewPeriods => {
            let count = random.between(0, 1);
            let ratios = ratios(random, count, MOST_ROWS);
            let w = least(random, &ratios, LONGEST_PERIOD);
            let n = some_probes(random, 2);
            table(random, &chain(w, &ratios), n)
        }
        Class::ManyPeriods => {
            let count = random.between(4, 11);
            let ratios = ratios(random, count, MOST_ROWS);
            let w = least(random, &ratios, LONGEST_PERIOD);
            let n = some_probes(random, ratios.len() + 1);
            table(random, &chain(w, &ratios), n)
        }
        Class::ThirteenPeriods => {
            let w = least(random, &[2; 12], LONGEST_PERIOD);
            let n = some_probes(random, 13);
            table(random, &chain(w, &[2; 12]), n)
        }
        Class::MostRows => {
            let ratios = ratios_of_most_rows(random);
            let w = least(random, &ratios, LONGEST_PERIOD);
            let n = some_probes(random, 2);
            table(random, &chain(w, &ratios), n)
        }
        Class::WideRatio => {
            let ratio = random.choose(&[4_096, 4_095, 4_093, 2_187, 1_000]);
            let ratio = if random.once_in(3) {
                random.between(2, MOST_ROWS)
            } else {
                ratio
            };
            let w = least(random, &[ratio], LONGEST_PERIOD);
            let n = some_probes(random, 2);
            table(random, &chain(w, &[ratio]), n)
        }
        Class::LeastPeriodOne => {
            let count = random.between(0, 12);
            let ratios = ratios(random, count, MOST_ROWS);
            let n = some_probes(random, 1);
            table(random, &chain(1, &ratios), n)
        }
        Class::FullLength => {
            let n = random.between(1, 12) as usize;
            let mut line = any_table(random, n);
            let w = least_period(&line.periods);
            let whole = random.between(1, n as u32);
            for _ in 0..whole {
                let i = random.below(n as u64) as usize;
                line.lengths[i] = w;
            }
            line
        }
        Class::LongPeriods => {
            let count = random.between(0, 12);
            let ratios = ratios(random, count, MOST_ROWS);
            let rows: u32 = ratios.iter().product();
            let w = random.between((LONGEST_PERIOD / 2).div_ceil(rows), LONGEST_PERIOD / rows);
            let n = some_probes(random, 2);
            table(random, &chain(w, &ratios), n)
        }
        Class::Small => small_table(random),
        Class::Roomy => roomy_table(random),
        Class::Tight => tight_table(random),
    }
}

/// A sound table of any class.
pub fn any_line(random: &mut Random) -> (Class, Line) {
    let class = random.choose(&Class::ALL);
    (class, line_of(random, class))
}
