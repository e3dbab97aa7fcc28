//! Element types that break the rules of the trait. Results are wrong then, and calls may panic, but
//! nothing else happens: a sanitizer has nothing to report, and later sets are right.

use std::cell::Cell;
use std::panic;
use std::str::FromStr;

use range_set::{Element, Multiway, RangeSet};

thread_local! {
    static TICK: Cell<u32> = const { Cell::new(0) };
}

/// Returns other numbers each time.
fn tick() -> u32 {
    TICK.set(
        TICK.get()
            .wrapping_mul(1_664_525)
            .wrapping_add(1_013_904_223),
    );
    TICK.get() >> 8
}

macro_rules! wrong {
    ($($name:ident, $rank:ty, $of:expr, $to:expr, $least:expr, $greatest:expr;)*) => {
        $(
            #[derive(Clone, Copy, Debug, PartialEq, Eq, PartialOrd, Ord)]
            struct $name(u32);

            impl Element for $name {
                type Rank = $rank;
                const MIN: Self = $name($least);
                const MAX: Self = $name($greatest);

                fn rank(self) -> $rank {
                    let of: fn(u32) -> $rank = $of;
                    of(self.0)
                }

                fn from_rank(rank: $rank) -> Self {
                    let to: fn($rank) -> u32 = $to;
                    $name(to(rank))
                }
            }

            impl std::fmt::Display for $name {
                fn fmt(&self, f: &mut std::fmt::Formatter<'_>) -> std::fmt::Result {
                    self.0.fmt(f)
                }
            }

            impl FromStr for $name {
                type Err = std::num::ParseIntError;

                fn from_str(text: &str) -> Result<Self, Self::Err> {
                    text.parse().map($name)
                }
            }
        )*
    };
}

wrong! {
    Random, u32, |_| tick(), |_| tick(), 0, u32::MAX;
    RandomWide, u128, |_| u128::from(tick()) << (tick() % 100), |_| tick(), 0, u32::MAX;
    Descending, u64, |value| u64::MAX - u64::from(value), |rank| (u64::MAX - rank) as u32, 0, 1000;
    Constant, u32, |_| 7, |_| 7, 0, 100;
    Crossed, u32, |value| value, |rank| rank, 100, 0;
    Sparse, u64, |value| u64::from(value) * 1000, |rank| rank as u32, 0, u32::MAX;
    Panicking, u128, |value| if tick() % 5 == 0 { panic!("rank") } else { value.into() },
        |rank| if tick() % 5 == 0 { panic!("value") } else { rank as u32 }, 0, u32::MAX;
}

/// Makes many calls, and drops what they return. The counts bound the walks, which may be long.
fn call_all<T: Element + std::fmt::Debug + std::fmt::Display + FromStr>(value: fn(u32) -> T) {
    let mut set: RangeSet<T> = (0..40).map(|place| value(place * 7 % 41)).collect();
    let other = RangeSet::from_runs((0..20).map(|place| value(3 * place)..=value(3 * place + 1)));
    for place in 0..40 {
        let (low, high) = (value(place), value(place + 5));
        set.insert_range(low..high);
        set.remove(high);
        set.remove_range(low..=low);
        std::hint::black_box((
            set.run_or_gap(low),
            set.next_gap(low),
            set.prev_gap(high),
            set.first_gap(low, 3),
        ));
        std::hint::black_box((
            set.gap_after(low),
            set.gap_before(low),
            set.first_run_of(low, 2),
        ));
        let _ = (set.len_in(low..high), set.rank(low), set.nth(place.into()));
        std::hint::black_box((set.pop_first(), set.pop_last(), set.first(), set.last_run()));
        let _ = (
            set.runs_in(low..).take(50).count(),
            set.range(..high).take(50).count(),
        );
    }
    let _ = (
        set.runs().take(50).count(),
        set.runs().rev().take(50).count(),
    );
    let _ = (
        set.gaps().take(50).count(),
        set.gaps().rev().take(50).count(),
    );
    let _ = (
        set.iter().take(50).count(),
        set.iter().rev().take(50).count(),
    );
    let mut both = set.iter();
    for _ in 0..30 {
        let _ = (both.next(), both.next_back(), both.nth(2), both.size_hint());
    }
    let high = set.split_off(value(17));
    drop([
        &set | &other,
        &set & &other,
        &set - &other,
        &set ^ &other,
        !&set,
        high,
    ]);
    drop(([&set, &other].at_least(0), [&set, &other].intersection()));
    set.append(&mut other.clone());
    let mut left = 1000;
    set.retain_runs(|_| {
        left -= 1;
        left > 0
    });
    drop((
        format!("{set:?}"),
        set.to_string(),
        "1..=3, 5".parse::<RangeSet<T>>().is_ok(),
    ));
    let bytes = set.to_bytes();
    let _ = RangeSet::<T>::from_bytes(&bytes).is_ok();
    let _ = RangeSet::<T>::from_bytes(&bytes[..bytes.len() - 1]).is_ok();
    let _ = (set.is_universal(), RangeSet::<T>::universe().first());
}

/// Calls again and again, whether the calls panic or not.
fn try_all<T: Element + std::fmt::Debug + std::fmt::Display + FromStr>(value: fn(u32) -> T) {
    for _ in 0..50 {
        let _ = panic::catch_unwind(|| call_all(value));
    }
}

#[test]
fn wrong_elements_do_no_more_than_give_wrong_results() {
    panic::set_hook(Box::new(|_| ()));
    try_all(Random);
    try_all(RandomWide);
    try_all(Descending);
    try_all(Constant);
    try_all(Crossed);
    try_all(Sparse);
    try_all(Panicking);
    let _ = panic::take_hook();
    let set = RangeSet::<u32>::from_iter([1..=5, 9..=9]);
    assert!(set.iter().eq([1, 2, 3, 4, 5, 9]));
}
