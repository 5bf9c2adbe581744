//! Random start lists for a sound table, by kind.

use crate::limits::MARK;
use crate::line::Line;
use crate::pair::FirstTick;
use crate::plan::first_fit;
use crate::random::Random;
use crate::shape::least_period;

/// What a start list has of its own.
#[derive(Clone, Copy, Debug, PartialEq, Eq, PartialOrd, Ord)]
pub enum Kind {
    /// Every start 0.
    Zero,
    /// Clean, as planned.
    Clean,
    /// Clean, with every start moved by the same number of ticks.
    Rotated,
    /// Rotated, with one start off by one.
    NearlyClean,
    /// Each start below its period.
    Random,
    /// Each read passes the end of its period, where its length allows.
    PastPeriod,
    /// The first two probes meet, in one of the four ways that a first shared tick can lie.
    Meeting,
    /// Some starts are the mark.
    Marked,
    /// Some starts are T or a little more, or any number from T on.
    Late,
}

impl Kind {
    pub const ALL: [Kind; 9] = [
        Kind::Zero,
        Kind::Clean,
        Kind::Rotated,
        Kind::NearlyClean,
        Kind::Random,
        Kind::PastPeriod,
        Kind::Meeting,
        Kind::Marked,
        Kind::Late,
    ];
}

/// The line with only the probes that `keep` names.
fn kept(line: &Line, keep: impl Fn(usize) -> bool) -> Line {
    let mut left = Line::default();
    for i in (0..line.n()).filter(|i| keep(*i)) {
        left.push(line.periods[i], line.lengths[i], line.starts[i]);
    }
    left
}

/// The table with planned starts. Where it does not fit, reads are shortened by halves,
/// and at the last the probes without a place are left out.
fn planned(line: &Line) -> Line {
    let mut line = line.clone();
    loop {
        let planned = first_fit(&line.periods, &line.lengths);
        line.starts = planned.starts;
        if planned.answer.is_done() {
            return line;
        }
        if line.lengths.iter().all(|length| *length == 1) {
            return kept(&line, |i| line.starts[i] != MARK);
        }
        for length in &mut line.lengths {
            *length = length.div_ceil(2);
        }
    }
}

/// Every start moved by the same number of ticks, within its period.
pub fn rotated(line: &Line, by: u32) -> Line {
    let mut line = line.clone();
    for i in 0..line.n() {
        let moved = (u64::from(line.starts[i]) + u64::from(by)) % u64::from(line.periods[i]);
        line.starts[i] = moved as u32;
    }
    line
}

fn some_place(random: &mut Random, line: &Line) -> usize {
    random.below(line.n() as u64) as usize
}

fn random_starts(random: &mut Random, line: &mut Line) {
    for i in 0..line.n() {
        line.starts[i] = random.between(0, line.periods[i] - 1);
    }
}

/// Starts of a shorter and a longer probe that meet in the given way, where one is at hand.
fn meeting_starts(
    random: &mut Random,
    shorter: (u32, u32),
    longer: (u32, u32),
    case: FirstTick,
) -> Option<(u32, u32)> {
    let ((ti, pi), (tj, pj)) = (shorter, longer);
    match case {
        FirstTick::LongerFirstStart => {
            let si = random.between(0, ti - 1);
            let within = random.between(0, pi - 1);
            Some((si, if si + within < tj { si + within } else { si }))
        }
        FirstTick::ShorterFirstStart => {
            if ti < 2 || pj < 2 {
                return None;
            }
            let si = random.between(1, ti - 1);
            Some((si, si - random.between(1, si.min(pj - 1))))
        }
        FirstTick::ShorterLaterStart => {
            let most = (pj - 1).min(ti - pi);
            if most == 0 {
                return None;
            }
            let before = random.between(1, most);
            let reads = random.between(1, tj / ti);
            let si = random.between(0, if reads < tj / ti { ti - 1 } else { before - 1 });
            Some((si, si + reads * ti - before))
        }
        FirstTick::LongerSecondStart => {
            // s_j + p_j <= s_i < T_i, and the shorter's first read reaches past T_i + s_j.
            let least = pj.max(ti - pi + 1);
            if least >= ti {
                return None;
            }
            let si = random.between(least, ti - 1);
            Some((si, random.between(0, (si + pi - ti - 1).min(si - pj))))
        }
    }
}

/// Two probes brought to places 0 and 1, with starts that meet.
fn meeting(random: &mut Random, line: &mut Line) {
    for place in 0..2 {
        let other = place + random.below((line.n() - place) as u64) as usize;
        line.periods.swap(place, other);
        line.lengths.swap(place, other);
        line.starts.swap(place, other);
    }
    let (i, j) = if line.periods[0] <= line.periods[1] {
        (0, 1)
    } else {
        (1, 0)
    };
    // The second start is the rarest case by chance, so it is asked for more often.
    let second = random.once_in(2);
    let case = if second {
        FirstTick::LongerSecondStart
    } else {
        random.choose(&FirstTick::ALL)
    };
    let w = least_period(&line.periods);
    if case != FirstTick::LongerFirstStart && random.once_in(2) {
        // Room for reads that lie across each other.
        line.lengths[i] = random.between(w.div_ceil(2), w);
        line.lengths[j] = random.between(w.div_ceil(4), w.div_ceil(2));
    }
    let shorter = (line.periods[i], line.lengths[i]);
    let longer = (line.periods[j], line.lengths[j]);
    if let Some((si, sj)) = meeting_starts(random, shorter, longer, case) {
        (line.starts[i], line.starts[j]) = (si, sj);
    }
}

/// The sound table of `line` with starts of the kind. Probes may be shortened or left out
/// where the kind asks for a clean list.
pub fn with_starts(random: &mut Random, line: &Line, kind: Kind) -> Line {
    let mut line = line.clone();
    if line.n() == 0 {
        return line;
    }
    match kind {
        Kind::Zero => line.starts.fill(0),
        Kind::Clean => line = planned(&line),
        Kind::Rotated => line = rotated(&planned(&line), random.bits() as u32),
        Kind::NearlyClean => {
            line = rotated(&planned(&line), random.bits() as u32);
            let i = some_place(random, &line);
            let step = random.choose(&[1, line.periods[i] - 1]);
            line.starts[i] = (line.starts[i] + step) % line.periods[i];
        }
        Kind::Random => random_starts(random, &mut line),
        Kind::Meeting => {
            random_starts(random, &mut line);
            if line.n() >= 2 {
                meeting(random, &mut line);
            }
        }
        Kind::PastPeriod => {
            for i in 0..line.n() {
                let least = line.periods[i] - line.lengths[i];
                line.starts[i] = random.between(least, line.periods[i] - 1);
            }
        }
        Kind::Marked => {
            line = planned(&line);
            for _ in 0..random.between(1, 3) {
                let i = some_place(random, &line);
                line.starts[i] = MARK;
            }
        }
        Kind::Late => {
            line = planned(&line);
            for _ in 0..random.between(1, 3) {
                let i = some_place(random, &line);
                let period = line.periods[i];
                let any = random.between(period, MARK);
                line.starts[i] = random.choose(&[period, period + 1, 2 * period, any]);
            }
        }
    }
    line
}

/// A start list of any kind.
pub fn any_starts(random: &mut Random, line: &Line) -> (Kind, Line) {
    let kind = random.choose(&Kind::ALL);
    (kind, with_starts(random, line, kind))
}
