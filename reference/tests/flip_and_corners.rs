//! The flip is a bijection with its inverse; starts and corners turn into each other without loss.

use std::collections::BTreeSet;

use reference::answer::Answer;
use reference::corners::{corners_from_starts, starts_from_corners};
use reference::flip::{digits, flip, slot_of_digits, unflip, unflip_by_search};
use reference::lines::{any_line, line_of, Class};
use reference::random::{Random, SEED};
use reference::shape::{height, least_period, ratios_up_to, rows};
use reference::starts::{with_starts, Kind};

const GUARD: u32 = 0xA5A5_A5A5;

#[test]
fn every_slot_of_every_small_chain_flips_and_comes_back() {
    for b1 in 1..=6 {
        for b2 in 1..=6 {
            for b3 in 1..=6 {
                let ratios = [b1, b2, b3];
                let slots = b1 * b2 * b3;
                let mut seen = vec![false; slots as usize];
                for v in 0..slots {
                    assert_eq!(slot_of_digits(&ratios, &digits(&ratios, v)), v);
                    let j = flip(&ratios, v);
                    assert!(!std::mem::replace(&mut seen[j as usize], true));
                    assert_eq!(unflip(&ratios, j), v);
                    assert_eq!(unflip_by_search(&ratios, j), Some(v));
                }
            }
        }
    }
}

#[test]
fn the_flip_of_twelve_twos_turns_the_bits_round() {
    for v in 0..4_096u32 {
        assert_eq!(flip(&[2; 12], v), v.reverse_bits() >> 20);
    }
    assert_eq!(flip(&[], 0), 0);
}

#[test]
fn slots_of_one_sub_bin_lie_evenly_in_time() {
    // The sub-bins of a longer period inside sub-bin j of a shorter one are the slots
    // that fall on the shorter one's slot when taken by its number of slots.
    let mut random = Random::announced(SEED, "sub-bins inside sub-bins");
    for _ in 0..300 {
        let line = line_of(&mut random, Class::ManyPeriods);
        let (i, j) = (random.below(line.n() as u64), random.below(line.n() as u64));
        let (short, long) = (
            line.periods[i as usize].min(line.periods[j as usize]),
            line.periods[i as usize].max(line.periods[j as usize]),
        );
        let w = least_period(&line.periods);
        let (few, many) = (
            ratios_up_to(&line.periods, short),
            ratios_up_to(&line.periods, long),
        );
        for _ in 0..20 {
            let v = random.below(u64::from(long / w)) as u32;
            assert_eq!(flip(&many, v) / (long / short), flip(&few, v % (short / w)));
        }
    }
}

#[test]
fn starts_to_corners_and_back() {
    let mut random = Random::announced(SEED + 1, "starts to corners and back");
    for _ in 0..800 {
        let (_, line) = any_line(&mut random);
        let line = with_starts(&mut random, &line, Kind::Random);
        let n = line.n();
        let (mut xs, mut ys) = (vec![GUARD; n + 2], vec![GUARD; n + 3]);
        let answer =
            corners_from_starts(&line.periods, &line.lengths, &line.starts, &mut xs, &mut ys);
        assert_eq!(answer, Answer::DONE);
        assert!(xs[n..].iter().chain(&ys[n..]).all(|entry| *entry == GUARD));
        let mut starts = vec![GUARD; n + 2];
        let answer = starts_from_corners(
            &line.periods,
            &line.lengths,
            &xs[..n],
            &ys[..n],
            &mut starts,
        );
        assert_eq!(answer, Answer::DONE);
        assert_eq!(starts[..n], line.starts);
        assert!(starts[n..].iter().all(|entry| *entry == GUARD));
    }
}

#[test]
fn corners_to_starts_and_back() {
    let mut random = Random::announced(SEED + 2, "corners to starts and back");
    for _ in 0..800 {
        let (_, line) = any_line(&mut random);
        let n = line.n();
        let w = least_period(&line.periods);
        let xs: Vec<u32> = (0..n).map(|_| random.between(0, w - 1)).collect();
        let ys: Vec<u32> = (0..n)
            .map(|i| random.between(0, line.periods[i] / w - 1) * height(&line.periods, i))
            .collect();
        let mut starts = vec![0; n];
        let answer = starts_from_corners(&line.periods, &line.lengths, &xs, &ys, &mut starts);
        assert_eq!(answer, Answer::DONE);
        let (mut xs2, mut ys2) = (vec![0; n], vec![0; n]);
        let answer = corners_from_starts(&line.periods, &line.lengths, &starts, &mut xs2, &mut ys2);
        assert_eq!(answer, Answer::DONE);
        assert_eq!((xs2, ys2), (xs, ys));
    }
}

#[test]
fn every_start_of_a_small_table_has_a_corner_of_its_own() {
    let (periods, lengths) = ([6, 12, 60, 6], [1; 4]);
    for probe in 0..4 {
        let mut seen = BTreeSet::new();
        for start in 0..periods[probe] {
            let mut starts = [0; 4];
            starts[probe] = start;
            let (mut xs, mut ys) = ([0; 4], [0; 4]);
            let answer = corners_from_starts(&periods, &lengths, &starts, &mut xs, &mut ys);
            assert_eq!(answer, Answer::DONE);
            assert!(xs[probe] < 6 && ys[probe] < rows(&periods));
            assert_eq!(ys[probe] % height(&periods, probe), 0);
            assert!(seen.insert((xs[probe], ys[probe])));
        }
    }
}
