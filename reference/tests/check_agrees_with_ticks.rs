//! The checker by pairs is the checker by ticks.

use reference::check::{check_by_pairs, check_by_ticks};
use reference::line::Line;
use reference::lines::{any_line, line_of, Class};
use reference::pair::{
    by_period, first_shared_by_reads, first_shared_by_ticks, first_tick_case, meet, FirstTick,
    Probe,
};
use reference::random::{Random, SEED};
use reference::starts::{any_starts, rotated, with_starts, Kind};
use reference::ticks::{holders_of_ticks, holds};

/// The first shared tick by the four cases.
fn first_shared_by_cases(a: Probe, b: Probe) -> Option<u64> {
    if !meet(a, b) {
        return None;
    }
    let (i, j) = by_period(a, b);
    let d = (j.start as i64 - i.start as i64).rem_euclid(i.period as i64) as u64;
    Some(if j.start >= i.start && d < i.length {
        j.start
    } else if j.start >= i.start {
        j.start + i.period - d
    } else if i.start < j.start + j.length {
        i.start
    } else {
        j.start + j.period
    })
}

#[test]
fn painting_reads_is_the_definition_of_holding() {
    let mut random = Random::announced(SEED + 20, "painted ticks");
    for _ in 0..500 {
        let line = line_of(&mut random, Class::Small);
        let line = with_starts(&mut random, &line, Kind::Random);
        let painted = holders_of_ticks(&line.periods, &line.lengths, &line.starts, 900);
        for (t, holders) in painted.iter().enumerate() {
            let by_rule: Vec<usize> = (0..line.n())
                .filter(|i| {
                    holds(
                        line.periods[*i],
                        line.lengths[*i],
                        line.starts[*i],
                        t as u64,
                    )
                })
                .collect();
            assert_eq!(*holders, by_rule);
        }
    }
}

#[test]
fn every_pair_of_small_probes_meets_as_the_condition_says() {
    let mut pairs = 0u32;
    let mut cases = [0u32; 4];
    for w in 1..=5u64 {
        for (ti, tj) in [
            (1, 1),
            (1, 2),
            (1, 3),
            (2, 1),
            (2, 2),
            (2, 4),
            (3, 1),
            (2, 6),
            (6, 2),
        ] {
            let (ti, tj) = (w * ti, w * tj);
            for (pi, pj) in (1..=w).flat_map(|p| (1..=w).map(move |q| (p, q))) {
                for si in 0..ti {
                    for sj in 0..tj {
                        let a = Probe {
                            period: ti,
                            length: pi,
                            start: si,
                        };
                        let b = Probe {
                            period: tj,
                            length: pj,
                            start: sj,
                        };
                        let first = first_shared_by_ticks(a, b);
                        assert_eq!(meet(a, b), first.is_some(), "{a:?} {b:?}");
                        assert_eq!(first_shared_by_reads(a, b), first, "{a:?} {b:?}");
                        assert_eq!(first_shared_by_cases(a, b), first, "{a:?} {b:?}");
                        if let Some(tick) = first {
                            let case = first_tick_case(a, b, tick).expect("one of the four");
                            cases[case as usize] += 1;
                        }
                        pairs += 1;
                    }
                }
            }
        }
    }
    println!(
        "pairs walked: {pairs}, first ticks by case {:?}: {cases:?}",
        FirstTick::ALL
    );
    assert!(cases.iter().all(|count| *count >= 1_000));
}

#[test]
fn random_small_lists_have_the_same_answer() {
    let mut random = Random::announced(SEED + 21, "checker by ticks and by pairs");
    let mut numbers = [0u32; 11];
    let mut cases = [0u32; 4];
    for _ in 0..20_000 {
        let line = line_of(&mut random, Class::Small);
        let (_, line) = any_starts(&mut random, &line);
        let by_ticks = check_by_ticks(&line.periods, &line.lengths, &line.starts);
        let by_pairs = check_by_pairs(&line.periods, &line.lengths, &line.starts);
        assert_eq!(by_ticks, by_pairs, "{line:?}");
        numbers[by_ticks.number as usize] += 1;
        if by_ticks.number == 10 {
            let of = |i| Probe::of(&line.periods, &line.lengths, &line.starts, i as usize);
            let (a, b) = (of(by_ticks.index), of(by_ticks.second));
            cases[first_tick_case(a, b, by_ticks.tick).expect("one of the four") as usize] += 1;
        }
    }
    println!("checked by ticks, by number: {numbers:?}, first ticks by case: {cases:?}");
    assert!(cases.iter().all(|count| *count >= 50), "{cases:?}");
    assert!([0, 9, 10].iter().all(|number| numbers[*number] >= 1_000));
}

#[test]
fn first_ticks_of_large_pairs_agree_by_reads_and_by_cases() {
    let mut random = Random::announced(SEED + 22, "first ticks of large pairs");
    for _ in 0..3_000 {
        let class = random.choose(&[Class::LongPeriods, Class::WideRatio, Class::MostRows]);
        let line = line_of(&mut random, class);
        let line = with_starts(&mut random, &line, Kind::Random);
        let of = |i: u64| Probe::of(&line.periods, &line.lengths, &line.starts, i as usize);
        let (a, b) = (
            of(random.below(line.n() as u64)),
            of(random.below(line.n() as u64)),
        );
        assert_eq!(
            first_shared_by_reads(a, b),
            first_shared_by_cases(a, b),
            "{a:?} {b:?}"
        );
    }
}

#[test]
fn moving_all_starts_keeps_the_verdict() {
    let mut random = Random::announced(SEED + 23, "moved lists");
    for _ in 0..1_000 {
        let (_, line) = any_line(&mut random);
        let kind = random.choose(&[Kind::Clean, Kind::NearlyClean, Kind::Random]);
        let line = with_starts(&mut random, &line, kind);
        let moved = rotated(&line, random.bits() as u32);
        let of = |line: &Line| check_by_pairs(&line.periods, &line.lengths, &line.starts);
        let (before, after) = (of(&line), of(&moved));
        assert_eq!(
            (before.number, before.index, before.second),
            (after.number, after.index, after.second)
        );
    }
}

#[test]
fn in_a_clean_list_any_window_of_a_period_has_the_reads_length() {
    let mut random = Random::announced(SEED + 24, "windows");
    for _ in 0..500 {
        let line = line_of(&mut random, Class::Small);
        let line = with_starts(&mut random, &line, Kind::Rotated);
        assert!(check_by_ticks(&line.periods, &line.lengths, &line.starts).is_done());
        let painted = holders_of_ticks(&line.periods, &line.lengths, &line.starts, 1_500);
        for i in 0..line.n() {
            let from = line.starts[i] as usize + random.below(400) as usize;
            let window = &painted[from..from + line.periods[i] as usize];
            let own = window.iter().filter(|holders| holders.contains(&i)).count();
            let shared = window
                .iter()
                .filter(|holders| holders.contains(&i) && holders.len() > 1);
            assert_eq!((own, shared.count()), (line.lengths[i] as usize, 0));
        }
    }
}
