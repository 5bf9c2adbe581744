//! Plain Rust for the same work, written for speed and proved by nobody: what `bench` measures the verified calls against.

use reference::answer::Answer;
use reference::limits::{LATEST_TICK, LONGEST_PERIOD, MARK, MOST_PROBES, MOST_ROWS, NO_PROBE};

/// At most so many periods up to 2^20 divide one another.
const CHAINED: usize = 21;

/// The different periods, sorted, in a fixed place.
struct Chain {
    periods: [u32; CHAINED],
    n: usize,
}

/// w and H of a sound table, and its chain.
struct Sound {
    w: u32,
    h: u32,
    chain: Chain,
}

fn sound(periods: &[u32], lengths: &[u32]) -> Result<Sound, Answer> {
    if periods.len() != lengths.len() {
        return Err(Answer::plain(1));
    }
    if periods.len() > MOST_PROBES {
        return Err(Answer::plain(2));
    }
    let (mut w, mut m) = (u32::MAX, 0);
    for (i, &t) in periods.iter().enumerate() {
        if t.wrapping_sub(1) >= LONGEST_PERIOD {
            return Err(Answer::at(3, i));
        }
        w = w.min(t);
        m = m.max(t);
    }
    if let Some(i) = lengths.iter().position(|p| p.wrapping_sub(1) >= w) {
        return Err(Answer::at(4, i));
    }
    let mut chain = Chain {
        periods: [0; CHAINED],
        n: 0,
    };
    for (i, &t) in periods.iter().enumerate() {
        let seen = &chain.periods[..chain.n];
        let place = seen.partition_point(|s| *s < t);
        if place < chain.n && seen[place] == t {
            continue;
        }
        let below = place == 0 || t.is_multiple_of(seen[place - 1]);
        let above = place == chain.n || seen[place].is_multiple_of(t);
        if !(below && above) {
            return Err(Answer::at(5, i));
        }
        chain.periods.copy_within(place..chain.n, place + 1);
        chain.periods[place] = t;
        chain.n += 1;
    }
    let h = m.checked_div(w).unwrap_or(0);
    if h > MOST_ROWS {
        return Err(Answer::plain(6));
    }
    Ok(Sound { w, h, chain })
}

pub fn validate(periods: &[u32], lengths: &[u32]) -> Answer {
    sound(periods, lengths).map_or_else(|refusal| refusal, |_| Answer::DONE)
}

/// The slot of sub-bin j of a period: its digits the other way round.
fn slot(chain: &Chain, period: u32, j: u32) -> u32 {
    let mut k = 0;
    while chain.periods[k] < period {
        k += 1;
    }
    let (mut rest, mut v) = (j, 0);
    for i in (1..=k).rev() {
        let ratio = chain.periods[i] / chain.periods[i - 1];
        v += rest % ratio * (chain.periods[i - 1] / chain.periods[0]);
        rest /= ratio;
    }
    v
}

pub fn plan(periods: &[u32], lengths: &[u32], starts: &mut [u32], fills: &mut [u32]) -> Answer {
    let Sound { w, h: rows, chain } = match sound(periods, lengths) {
        Ok(sound) => sound,
        Err(refusal) => return refusal,
    };
    let n = periods.len();
    if starts.len() < n || fills.len() < rows as usize {
        return Answer::plain(7);
    }
    let mut turns = [0u64; MOST_PROBES];
    for i in 0..n {
        let longer_first = u64::from(LONGEST_PERIOD - lengths[i]);
        turns[i] = u64::from(periods[i]) << 32 | longer_first << 8 | i as u64;
    }
    turns[..n].sort_unstable();
    let fills = &mut fills[..rows as usize];
    fills.fill(0);
    for k in 0..n {
        let i = (turns[k] & 0xFF) as usize;
        let (t, p) = (periods[i], lengths[i]);
        let h = (rows / (t / w)) as usize;
        let most = w - p;
        let found = if h == 1 {
            fills.iter().position(|fill| *fill <= most)
        } else {
            fills.iter().step_by(h).position(|fill| *fill <= most)
        };
        let Some(j) = found else {
            for turn in &turns[k..n] {
                starts[(turn & 0xFF) as usize] = MARK;
            }
            return Answer::at(8, i);
        };
        let part = &mut fills[j * h..(j + 1) * h];
        starts[i] = slot(&chain, t, j as u32) * w + part[0];
        for fill in part {
            *fill += p;
        }
    }
    Answer::DONE
}

fn sound_list(periods: &[u32], lengths: &[u32], starts: &[u32]) -> Result<(), Answer> {
    if periods.len() != starts.len() {
        return Err(Answer::plain(1));
    }
    sound(periods, lengths)?;
    match periods.iter().zip(starts).position(|(t, s)| s >= t) {
        Some(i) => Err(Answer::at(9, i)),
        None => Ok(()),
    }
}

/// The first shared tick of two probes that meet, the shorter period first.
fn shared_tick(t: u32, p: u32, s: u32, t2: u32, p2: u32, s2: u32) -> u32 {
    let d = (s2 + t - s) % t;
    if s <= s2 {
        return if d < p { s2 } else { s2 + (t - d) };
    }
    if s < s2 + p2 {
        s
    } else {
        s2 + t2
    }
}

pub fn check(periods: &[u32], lengths: &[u32], starts: &[u32]) -> Answer {
    if let Err(refusal) = sound_list(periods, lengths, starts) {
        return refusal;
    }
    let n = periods.len();
    let (lengths, starts) = (&lengths[..n], &starts[..n]);
    for i in 0..n {
        let (t, p, s) = (periods[i], lengths[i], starts[i]);
        for j in i + 1..n {
            let (t2, p2, s2) = (periods[j], lengths[j], starts[j]);
            let (a, b) = if t <= t2 {
                ((t, p, s), (t2, p2, s2))
            } else {
                ((t2, p2, s2), (t, p, s))
            };
            let d = (b.2 + a.0 - a.2) % a.0;
            if a.1 <= d && d + b.1 <= a.0 {
                continue;
            }
            let tick = shared_tick(a.0, a.1, a.2, b.0, b.1, b.2);
            return Answer {
                number: 10,
                index: i as u32,
                second: j as u32,
                tick: u64::from(tick),
            };
        }
    }
    Answer::DONE
}

fn asked(periods: &[u32], lengths: &[u32], starts: &[u32], tick: u64) -> Result<(), Answer> {
    sound_list(periods, lengths, starts)?;
    if tick > LATEST_TICK {
        return Err(Answer::plain(11));
    }
    Ok(())
}

pub fn holder(periods: &[u32], lengths: &[u32], starts: &[u32], tick: u64) -> Answer {
    if let Err(refusal) = asked(periods, lengths, starts, tick) {
        return refusal;
    }
    for (i, &t) in periods.iter().enumerate() {
        let s = u64::from(starts[i]);
        if tick >= s && (tick - s) % u64::from(t) < u64::from(lengths[i]) {
            return Answer::at(0, i);
        }
    }
    Answer::done_with(NO_PROBE)
}

pub fn next_start(periods: &[u32], lengths: &[u32], starts: &[u32], tick: u64) -> Answer {
    if let Err(refusal) = asked(periods, lengths, starts, tick) {
        return refusal;
    }
    let mut best = Answer::done_with(NO_PROBE);
    for (i, &t) in periods.iter().enumerate() {
        let (t, s) = (u64::from(t), u64::from(starts[i]));
        let at = if tick <= s {
            s
        } else {
            let since = (tick - s) % t;
            if since == 0 {
                tick
            } else {
                tick + (t - since)
            }
        };
        if best.index == NO_PROBE || at < best.tick {
            best = Answer {
                tick: at,
                ..Answer::at(0, i)
            };
        }
    }
    best
}
