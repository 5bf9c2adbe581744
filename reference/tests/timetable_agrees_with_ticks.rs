//! Holder and next start by arithmetic are those of the walked ticks.

use reference::answer::Answer;
use reference::limits::{LATEST_TICK, NO_PROBE};
use reference::lines::{any_line, line_of, Class};
use reference::moments::moments;
use reference::random::{Random, SEED};
use reference::starts::any_starts;
use reference::table::judge_list;
use reference::timetable::{
    holder, holder_by_walk, next_start, next_start_by_paint, next_start_by_walk,
};

#[test]
fn the_empty_table_is_idle_and_has_no_start() {
    for tick in [0, 1, LATEST_TICK] {
        assert_eq!(holder(&[], &[], &[], tick), Answer::done_with(NO_PROBE));
        assert_eq!(
            holder_by_walk(&[], &[], &[], tick.min(5)),
            Answer::done_with(NO_PROBE)
        );
        assert_eq!(next_start(&[], &[], &[], tick), Answer::done_with(NO_PROBE));
        assert_eq!(
            next_start_by_walk(&[], &[], &[], tick),
            Answer::done_with(NO_PROBE)
        );
    }
}

#[test]
fn after_a_reads_last_tick_the_wire_is_free() {
    let (p, l, s) = ([10, 20], [3, 4], [2, 5]);
    let holders: Vec<u32> = (0..13).map(|t| holder(&p, &l, &s, t).index).collect();
    let idle = NO_PROBE;
    assert_eq!(
        holders,
        [idle, idle, 0, 0, 0, 1, 1, 1, 1, idle, idle, idle, 0]
    );
    let next: Vec<(u32, u64)> = [0, 2, 3, 5, 6, 12, 13]
        .map(|t| next_start(&p, &l, &s, t))
        .map(|a| (a.index, a.tick))
        .into();
    assert_eq!(
        next,
        [(0, 2), (0, 2), (1, 5), (1, 5), (0, 12), (0, 12), (0, 22)]
    );
}

#[test]
fn the_lowest_probe_is_named_where_two_hold_or_start() {
    let (p, l, s) = ([20, 10], [2, 2], [0, 0]);
    assert_eq!(holder(&p, &l, &s, 1), Answer::at(0, 0));
    assert_eq!(holder(&p, &l, &s, 11), Answer::at(0, 1));
    assert_eq!(
        next_start(&p, &l, &s, 11),
        Answer {
            tick: 20,
            ..Answer::at(0, 0)
        }
    );
}

#[test]
fn at_the_latest_tick_the_next_start_may_be_later() {
    let (p, l, s) = ([10], [1], [7]);
    // 2^40 leaves 6 by 10
    assert_eq!(next_start(&p, &l, &s, LATEST_TICK).tick, LATEST_TICK + 1);
    assert_eq!(holder(&p, &l, &s, LATEST_TICK), Answer::done_with(NO_PROBE));
    assert_eq!(holder(&p, &l, &[6], LATEST_TICK), Answer::at(0, 0));
}

#[test]
fn small_tables_walked_tick_by_tick() {
    let mut random = Random::announced(SEED + 30, "timetables walked");
    let (mut asked, mut idle) = (0u32, 0u32);
    for _ in 0..1_000 {
        let line = line_of(&mut random, Class::Small);
        let (_, line) = any_starts(&mut random, &line);
        let (p, l, s) = (&line.periods, &line.lengths, &line.starts);
        for tick in moments(&mut random, &line) {
            assert_eq!(
                next_start(p, l, s, tick),
                next_start_by_walk(p, l, s, tick),
                "{line:?}"
            );
            if tick <= 4_096 {
                let held = holder(p, l, s, tick);
                assert_eq!(held, holder_by_walk(p, l, s, tick), "{line:?} {tick}");
                assert_eq!(
                    next_start(p, l, s, tick),
                    next_start_by_paint(p, l, s, tick)
                );
                asked += 1;
                idle += u32::from(held == Answer::done_with(NO_PROBE));
            }
        }
    }
    println!("ticks walked from 0: {asked}, of them idle: {idle}");
    assert!(asked >= 20_000 && idle >= 1_000);
}

#[test]
fn far_ticks_are_near_ticks_whole_longest_periods_later() {
    let mut random = Random::announced(SEED + 31, "far ticks");
    for _ in 0..1_000 {
        let line = line_of(&mut random, Class::Small);
        let (_, line) = any_starts(&mut random, &line);
        let (p, l, s) = (&line.periods, &line.lengths, &line.starts);
        if !judge_list(p, l, s).is_done() {
            continue;
        }
        let m = u64::from(reference::shape::longest_period(p));
        let near = m + random.below(m);
        let many = (LATEST_TICK - near) / m;
        let far = near + random.below(many + 1) * m;
        assert_eq!(holder(p, l, s, far), holder_by_walk(p, l, s, near));
        let (next, walked) = (next_start(p, l, s, far), next_start_by_paint(p, l, s, near));
        assert_eq!(
            (next.index, next.tick - far),
            (walked.index, walked.tick - near)
        );
    }
}

#[test]
fn large_tables_answer_within_the_rules() {
    let mut random = Random::announced(SEED + 32, "timetables of large tables");
    for _ in 0..150 {
        let (_, line) = any_line(&mut random);
        let (_, line) = any_starts(&mut random, &line);
        let (p, l, s) = (&line.periods, &line.lengths, &line.starts);
        for tick in moments(&mut random, &line) {
            let (held, next) = (holder(p, l, s, tick), next_start(p, l, s, tick));
            assert_eq!(held.number, next.number);
            assert_eq!((held.second, held.tick, next.second), (0, 0, 0));
            if next.is_done() && next.index != NO_PROBE {
                assert!(next.tick >= tick);
                let at_start = holder(p, l, s, next.tick.min(LATEST_TICK));
                assert!(next.tick > LATEST_TICK || at_start.index <= next.index);
            }
        }
    }
}
