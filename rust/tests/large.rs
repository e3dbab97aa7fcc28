//! Sets of tens of thousands of runs, which come in any order.

use std::net::{Ipv4Addr, Ipv6Addr};

use range_set::{Element, Multiway, RangeSet};

const RUNS: u32 = 30_000;

/// Returns the numbers below `RUNS`, each once, in an order that jumps.
fn jumping() -> impl Iterator<Item = u32> {
    (0..RUNS).map(|place| place * 17_389 % RUNS)
}

/// Checks sets of the runs from `at(5 * n)` to `at(5 * n + 2)`.
fn check<T: Element + std::fmt::Debug>(at: fn(u32) -> T) {
    let run = |number: u32| at(5 * number)..=at(5 * number + 2);
    let set: RangeSet<T> = jumping().map(run).collect();
    assert_eq!(set.run_count(), RUNS as usize);
    assert_eq!(set.len(), u128::from(3 * RUNS));
    assert!(set.runs().eq((0..RUNS).map(run)));
    assert!(set.runs().rev().eq((0..RUNS).rev().map(run)));
    assert_eq!(set.gaps().len(), set.gaps().count());

    let values = jumping().flat_map(|number| [2, 0, 1].map(|step| at(5 * number + step)));
    assert_eq!(values.collect::<RangeSet<T>>(), set);
    let mut inserted = RangeSet::new();
    inserted.extend(jumping().map(run));
    assert_eq!(inserted, set);
    // Each run comes again and again, and the whole from time to time.
    let again = jumping().chain(jumping()).map(|number| {
        if number == 9 {
            run(9)
        } else {
            run(number % 100)
        }
    });
    assert_eq!(RangeSet::from_runs(again), set.runs().take(100).collect());

    let middle = 5 * (RUNS / 2);
    assert!(set.runs_in(at(middle + 1)..at(middle + 6)).eq([
        at(middle + 1)..=at(middle + 2),
        at(middle + 5)..=at(middle + 5)
    ]));
    assert_eq!(set.rank(at(middle)), u128::from(3 * (RUNS / 2)));
    assert_eq!(set.nth(u128::from(3 * (RUNS / 2))), Some(at(middle)));
    assert_eq!(
        set.iter().nth(3 * (RUNS as usize / 2) + 1),
        Some(at(middle + 1))
    );
    let mut low = set.clone();
    let high = low.split_off(at(middle));
    assert_eq!(
        (low.run_count(), high.run_count()),
        (RUNS as usize / 2, RUNS as usize / 2)
    );
    assert_eq!([&low, &high].union(), set);
    assert!(low.is_disjoint(&high) && low.is_subset(&set));
    let mut ends = set.clone();
    ends.retain(|value| value.rank() != at(middle).rank());
    assert_eq!(&set - &ends, RangeSet::from([at(middle)]));
    assert_eq!((!&set).gaps().count(), RUNS as usize);
}

#[test]
fn runs_of_32_bits() {
    check::<i32>(|number| number as i32 - 70_000);
    check::<char>(|number| {
        char::from_u32(if number < 0xD800 {
            number
        } else {
            number + 0x800
        })
        .unwrap()
    });
    check::<Ipv4Addr>(|number| Ipv4Addr::from(u32::MAX - 150_000 + number));
}

#[test]
fn runs_of_64_bits() {
    check::<u64>(|number| u64::MAX - 150_000 + u64::from(number));
    check::<i64>(|number| i64::from(number) - 70_000);
}

#[test]
fn runs_of_128_bits() {
    check::<i128>(|number| i128::from(number) - 70_000);
    check::<Ipv6Addr>(|number| Ipv6Addr::from((7 << 64) - 70_000 + u128::from(number)));
}
