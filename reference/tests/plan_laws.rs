//! What first fit promises, on random tables.

use reference::answer::Answer;
use reference::check::{check_by_pairs, check_by_ticks};
use reference::corners::{corner_of_start, corners_from_starts};
use reference::limits::MARK;
use reference::line::Line;
use reference::lines::{any_line, line_of, Class};
use reference::order::planning_order;
use reference::packing::{packing_verdict, rectangles_fit};
use reference::plan::{first_fit, plan};
use reference::random::{Random, SEED};
use reference::room::{busy_ticks, has_room};
use reference::shape::{height, least_period, longest_period, rows};

const GUARD: u32 = 0xA5A5_A5A5;

#[test]
fn planning_order_is_period_then_longer_read_then_number() {
    let order = planning_order(&[20, 10, 20, 10, 20, 10], &[3, 2, 5, 4, 3, 2]);
    assert_eq!(order, [3, 1, 5, 2, 0, 4]);
    let mut random = Random::announced(SEED + 10, "planning order");
    for _ in 0..500 {
        let (_, line) = any_line(&mut random);
        let order = planning_order(&line.periods, &line.lengths);
        let mut sorted = order.clone();
        sorted.sort_unstable();
        assert!(sorted.into_iter().eq(0..line.n()));
        for pair in order.windows(2) {
            let (a, b) = (pair[0], pair[1]);
            let (ta, tb) = (line.periods[a], line.periods[b]);
            let (pa, pb) = (line.lengths[a], line.lengths[b]);
            assert!(ta < tb || (ta == tb && (pa > pb || (pa == pb && a < b))));
        }
    }
}

/// First fit once more, over time slots and ticks: a sub-bin's fill is the number of
/// ticks already held in its slot, counted from the slot's first tick on.
fn plan_by_ticks(line: &Line) -> (Answer, Vec<u32>) {
    let (periods, lengths) = (&line.periods, &line.lengths);
    let (w, m) = (least_period(periods), longest_period(periods));
    let mut held = vec![false; m as usize];
    let mut starts = vec![MARK; line.n()];
    for probe in planning_order(periods, lengths) {
        let (period, p) = (periods[probe], lengths[probe]);
        let ratios = reference::shape::ratios_up_to(periods, period);
        let mut found = None;
        for j in 0..period / w {
            let slot = reference::flip::unflip_by_search(&ratios, j).unwrap() * w;
            let fill = (slot..slot + w).filter(|tick| held[*tick as usize]).count() as u32;
            if fill + p <= w {
                found = Some(slot + fill);
                break;
            }
        }
        let Some(start) = found else {
            return (Answer::at(8, probe), starts);
        };
        starts[probe] = start;
        for read in (start..m).step_by(period as usize) {
            for tick in read..read + p {
                assert!(!held[tick as usize], "a planned read meets another");
                held[tick as usize] = true;
            }
        }
    }
    (Answer::DONE, starts)
}

#[test]
fn first_fit_is_the_same_by_rows_and_by_ticks() {
    let mut random = Random::announced(SEED + 11, "first fit by ticks");
    let mut refused = 0;
    for _ in 0..4_000 {
        let line = line_of(&mut random, Class::Small);
        let planned = first_fit(&line.periods, &line.lengths);
        let (answer, starts) = plan_by_ticks(&line);
        assert_eq!(
            (planned.answer, &planned.starts),
            (answer, &starts),
            "{line:?}"
        );
        refused += u32::from(answer.number == 8);
    }
    println!("planned by ticks: 4000, of them refused by 8: {refused}");
    assert!((50..3_950).contains(&refused));
}

#[test]
fn planned_lists_are_clean_and_fill_their_rows() {
    let mut random = Random::announced(SEED + 12, "planned lists");
    let (mut done, mut refused) = (0, 0);
    for _ in 0..1_500 {
        let (_, line) = any_line(&mut random);
        let (n, h) = (line.n(), rows(&line.periods) as usize);
        let (mut starts, mut fills) = (vec![GUARD; n + 3], vec![GUARD; h + 3]);
        let answer = plan(&line.periods, &line.lengths, &mut starts, &mut fills);
        assert!(starts[n..]
            .iter()
            .chain(&fills[h..])
            .all(|entry| *entry == GUARD));
        let mut placed = Line::default();
        let mut row_sums = vec![0; h];
        for (i, start) in starts[..n].iter().copied().enumerate() {
            if start != MARK {
                placed.push(line.periods[i], line.lengths[i], start);
                let (_, y) = corner_of_start(&line.periods, i, start);
                for row in y..y + height(&line.periods, i) {
                    row_sums[row as usize] += line.lengths[i];
                }
            }
        }
        assert_eq!(row_sums, fills[..h]);
        let clean = check_by_pairs(&placed.periods, &placed.lengths, &placed.starts);
        assert_eq!(clean, Answer::DONE);
        if answer.is_done() {
            done += 1;
            assert_eq!(placed.n(), n);
            assert!(rectangles_fit(&line.periods, &line.lengths, &starts[..n]));
            let total: u64 = fills[..h].iter().map(|fill| u64::from(*fill)).sum();
            assert_eq!(total, busy_ticks(&line.periods, &line.lengths));
        } else {
            refused += 1;
            assert_eq!(answer, Answer::at(8, answer.index as usize));
            let order = planning_order(&line.periods, &line.lengths);
            let stop = order
                .iter()
                .position(|i| *i == answer.index as usize)
                .unwrap();
            assert!(order[..stop].iter().all(|i| starts[*i] != MARK));
            assert!(order[stop..].iter().all(|i| starts[*i] == MARK));
            let h = height(&line.periods, order[stop]) as usize;
            let w = least_period(&line.periods);
            let p = line.lengths[order[stop]];
            assert!(fills[..rows(&line.periods) as usize]
                .iter()
                .step_by(h)
                .all(|f| f + p > w));
        }
    }
    println!("planned: {done} done, {refused} refused by 8");
    assert!(done >= 300 && refused >= 300);
}

#[test]
fn a_table_with_room_is_planned_whole() {
    let mut random = Random::announced(SEED + 13, "room");
    for _ in 0..500 {
        let line = line_of(&mut random, Class::Roomy);
        assert!(has_room(&line.periods, &line.lengths));
        assert!(
            first_fit(&line.periods, &line.lengths).answer.is_done(),
            "{line:?}"
        );
    }
}

#[test]
fn the_packing_verdict_is_the_clean_list() {
    let mut random = Random::announced(SEED + 14, "packing verdict");
    let (mut clean, mut met) = (0, 0);
    for _ in 0..6_000 {
        let line = line_of(&mut random, Class::Small);
        let (_, line) = reference::starts::any_starts(&mut random, &line);
        let answer = check_by_ticks(&line.periods, &line.lengths, &line.starts);
        if answer.number == 9 {
            continue;
        }
        let verdict = packing_verdict(&line.periods, &line.lengths, &line.starts);
        assert_eq!(verdict, answer.is_done(), "{line:?}");
        clean += u32::from(verdict);
        met += u32::from(!verdict);
    }
    println!("packing verdict: {clean} clean, {met} not");
    assert!(clean >= 500 && met >= 500);
}

#[test]
fn corners_of_a_plan_are_the_fills_it_found() {
    let (periods, lengths) = ([10, 20, 20, 60, 60], [3, 4, 5, 2, 3]);
    let (mut xs, mut ys) = ([0; 5], [0; 5]);
    let starts = [0, 13, 3, 8, 17];
    assert!(corners_from_starts(&periods, &lengths, &starts, &mut xs, &mut ys).is_done());
    assert_eq!((xs, ys), ([0, 3, 3, 8, 7], [0, 3, 0, 0, 3]));
}
