//! The nanoseconds of a call, at 100,000 runs: the loops of bench.c over a `BTreeMap` from each run's start to its end,
//! as a Rust program without a library would write them.

use std::collections::BTreeMap;
use std::time::Instant;

const RUNS: u64 = 100_000;
const CALLS: u64 = 1_000_000;

fn drawn(seed: &mut u64) -> u64 {
    *seed ^= *seed << 13;
    *seed ^= *seed >> 7;
    *seed ^= *seed << 17;
    *seed % (20 * RUNS)
}

fn insert(map: &mut BTreeMap<u64, u64>, first: u64, last: u64) {
    let mut start = first;
    let mut end = last;
    while let Some((&s, &e)) = map.range(..=end.saturating_add(1)).next_back() {
        if e.saturating_add(1) < start {
            break;
        }
        map.remove(&s);
        start = start.min(s);
        end = end.max(e);
    }
    map.insert(start, end);
}

fn main() {
    let mut seed = 88172645463325252;
    let (mut least_insert, mut least_contains, mut least_walk) = (f64::MAX, f64::MAX, f64::MAX);
    let mut members = 0u64;
    for _ in 0..5 {
        let mut map = BTreeMap::new();
        let began = Instant::now();
        for i in 0..RUNS {
            insert(&mut map, 20 * i, 20 * i + 9);
        }
        let filled = Instant::now();
        for _ in 0..CALLS {
            let value = drawn(&mut seed);
            let run = map.range(..=value).next_back();
            members += u64::from(run.is_some_and(|(_, &end)| value <= end));
        }
        let asked = Instant::now();
        let mut from = 0;
        while let Some((_, &last)) = map.range(from..).next() {
            members += last;
            from = last + 1;
        }
        let walked = Instant::now();
        let each = |a: Instant, b: Instant, n: u64| (b - a).as_nanos() as f64 / n as f64;
        least_insert = least_insert.min(each(began, filled, RUNS));
        least_contains = least_contains.min(each(filled, asked, CALLS));
        least_walk = least_walk.min(each(asked, walked, RUNS));
    }
    println!(
        "rust  insert_range {least_insert:6.1} ns  contains {least_contains:6.1} ns  run_after {least_walk:6.1} ns  ({members})"
    );
}
