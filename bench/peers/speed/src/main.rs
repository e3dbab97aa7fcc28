//! What a user of the published crate writes for the calls of `here.rattle`, timed one by one.
//!
//! Each line names a call, how often it was made, how many nanoseconds all of that took, and a sum of the answers. With
//! the name of a call and a number, the program makes that call so often, and no other.

use range_set_blaze::prelude::*;
use std::env;
use std::hint::black_box;
use std::ops::RangeInclusive;
use std::time::Instant;

/// How many runs the set has: run `i` is from `10 * i` to `10 * i + 4`.
const RUNS: i32 = 100_000;
/// How often a call on a window or a single run is made.
const OFTEN: i32 = 100;

type Set = RangeSetBlaze<i32>;

fn runs(shift: i32) -> impl Iterator<Item = RangeInclusive<i32>> {
    (0..RUNS).map(move |run| 10 * run + shift..=10 * run + shift + 4)
}

/// The start of a run that is drawn.
fn drawn(turn: i32) -> i32 {
    turn * 7_919 % RUNS * 10
}

/// How often a call is made that is usually made `often` times.
fn asked(name: &str, often: i32) -> i32 {
    let words: Vec<String> = env::args().skip(1).collect();
    match &words[..] {
        [only, number] if only == name => number.parse().unwrap_or(0),
        [_, _] => 0,
        _ => often,
    }
}

/// Makes a call as often as was asked, and prints its line.
fn timed(name: &str, often: i32, mut call: impl FnMut(i32) -> i64) {
    let often = asked(name, often);
    let mut sum = 0i64;
    let began = Instant::now();
    for turn in 0..often {
        sum = sum.wrapping_add(black_box(call(black_box(turn))));
    }
    println!("{name} {often} {} {sum}", began.elapsed().as_nanos());
}

fn windows(set: &Set) {
    timed("ranges_in", OFTEN, |turn| {
        let window = drawn(turn)..=drawn(turn) + 1_002;
        (CheckSortedDisjoint::new([window]) & set.ranges()).map(|run| i64::from(*run.end())).sum()
    });
    timed("gaps_in", OFTEN, |turn| {
        let window = drawn(turn)..=drawn(turn) + 1_002;
        (CheckSortedDisjoint::new([window]) - set.ranges()).map(|gap| i64::from(*gap.end())).sum()
    });
    timed("len_in", OFTEN, |turn| {
        let window = drawn(turn)..=drawn(turn) + 1_002;
        (CheckSortedDisjoint::new([window]) & set.ranges()).map(|run| i64::from(run.end() - run.start()) + 1).sum()
    });
    timed("contains_range", OFTEN, |turn| {
        set.is_superset(&Set::from(drawn(turn) + 1..=drawn(turn) + 3 + turn % 2 * 5)).into()
    });
    timed("is_disjoint_range", OFTEN, |turn| {
        set.is_disjoint(&Set::from(drawn(turn) + 5..=drawn(turn) + 8 + turn % 2 * 5)).into()
    });
}

fn first_fit(set: &Set) {
    let mut wide = set - &Set::from(500_000..=500_099);
    wide.ranges_insert(250_000..=250_099);
    timed("first_run", OFTEN, |turn| {
        let run = wide.ranges().find(|run| run.end() - run.start() >= 90 + turn % 3);
        run.map_or(-1, |run| (*run.start()).into())
    });
    wide.ranges_insert(i32::MIN..=-1);
    timed("first_gap", OFTEN, |turn| {
        let gap = wide.ranges().complement().find(|gap| gap.end() - gap.start() >= 90 + turn % 3);
        gap.map_or(-1, |gap| (*gap.start()).into())
    });
    timed("first_gap_from", OFTEN, |turn| {
        let rest = CheckSortedDisjoint::new([490_000 + turn..=i32::MAX]) - wide.ranges();
        let gap = { rest }.find(|gap| gap.end() - gap.start() >= 90 + turn % 3);
        gap.map_or(-1, |gap| (*gap.start()).into())
    });
}

fn order(set: &Set) {
    timed("nth", OFTEN, |turn| {
        let mut left = i64::from(drawn(turn)) / 2 + 3;
        for run in set.ranges() {
            let length = i64::from(run.end() - run.start()) + 1;
            if left < length {
                return i64::from(*run.start()) + left;
            }
            left -= length;
        }
        -1
    });
    timed("rank", OFTEN, |turn| {
        let value = drawn(turn) + 3;
        (CheckSortedDisjoint::new([i32::MIN..=value - 1]) & set.ranges()).map(|run| i64::from(run.end() - run.start()) + 1).sum()
    });
}

fn changes(set: &Set) {
    let mut less = set.clone();
    timed("ranges_remove", OFTEN, |turn| {
        less = &less - &Set::from(drawn(turn)..=drawn(turn) + 4);
        less.ranges_len() as i64
    });
    let other: Set = runs(2).collect();
    let mut changed = set.clone();
    timed("bitxor_assign", 10, |_| {
        changed = &changed ^ &other;
        changed.ranges_len() as i64
    });
    timed("bitand_assign", 10, |_| {
        changed = &changed & &other;
        changed.ranges_len() as i64
    });
    timed("sub_assign", 1, |_| {
        changed = &changed - &other;
        changed.ranges_len() as i64
    });
}

fn whole_sets(set: &Set) {
    let apart: Set = runs(1_000_006).collect();
    let listed: Vec<RangeInclusive<i32>> = runs(0).collect();
    timed("clone", 10, |_| set.clone().ranges_len() as i64);
    timed("bitor of sets apart", 10, |_| (set | &apart).ranges_len() as i64);
    timed("from_iter in order", 10, |_| listed.iter().cloned().collect::<Set>().ranges_len() as i64);
    timed("from_iter of references", 10, |_| listed.iter().collect::<Set>().ranges_len() as i64);
    let text = set.to_string();
    timed("parse", 10, |_| read(&text).map_or(-1, |set| set.ranges_len() as i64));
}

/// A set back from its text.
fn read(text: &str) -> Option<Set> {
    text.split(", ")
        .map(|run| {
            let (start, end) = run.split_once("..=")?;
            Some(start.parse().ok()?..=end.parse().ok()?)
        })
        .collect()
}

fn main() {
    let set: Set = runs(0).collect();
    windows(&set);
    first_fit(&set);
    order(&set);
    changes(&set);
    whole_sets(&set);
}
