//! Calls on a few sets, with results worked out by hand.

mod common;

use std::collections::HashSet;
use std::hash::{BuildHasher, BuildHasherDefault, DefaultHasher};

use common::{below_greatest, Unsigned};
use range_set::{ParseError, RangeSet};

/// Returns the set of small ranges.
fn set<T: Unsigned>(ranges: &[(u8, u8)]) -> RangeSet<T> {
    ranges
        .iter()
        .map(|&(first, last)| T::from(first)..=T::from(last))
        .collect()
}

/// Runs a generic test for each unsigned type.
macro_rules! for_unsigned {
    ($($name:ident)*) => {
        $(
            #[test]
            fn $name() {
                checks::$name::<u8>();
                checks::$name::<u16>();
                checks::$name::<u32>();
                checks::$name::<u64>();
                checks::$name::<u128>();
                checks::$name::<usize>();
            }
        )*
    };
}

for_unsigned! {
    text text_of_other_forms combinations assignments any_number a_set_beside_itself comparisons equal_sets_hash_alike changes
    bounds look_ups searches gaps_beside_a_value iterators_from_both_ends members_from_both_ends many_runs
    ends_of_the_type made_from_values_and_ranges
}

#[test]
fn a_range_that_was_iterated_to_its_end_has_no_values() {
    let mut done = 5..=5_u64;
    done.next();
    let mut set = RangeSet::from(4..=6_u64);
    assert!(!set.remove_range(done.clone()) && set.len_in(done.clone()) == 0);
    assert!(RangeSet::from(done).is_empty());
}

mod checks {
    use super::*;

    pub fn text<T: Unsigned>() {
        assert_eq!(RangeSet::<T>::new().to_string(), "");
        let some = set::<T>(&[(10, 20), (1, 5)]);
        assert_eq!(some.to_string(), "1..=5, 10..=20");
        assert_eq!(format!("{some:?}"), "1..=5, 10..=20");
    }

    /// Left, right, and their union, intersection, difference and symmetric difference.
    const COMBINED: [[&str; 6]; 6] = [
        ["", "", "", "", "", ""],
        ["1..=5", "", "1..=5", "", "1..=5", "1..=5"],
        ["", "1..=5", "1..=5", "", "", "1..=5"],
        ["1..=5", "6..=9", "1..=9", "", "1..=5", "1..=9"],
        [
            "1..=4, 8..=13",
            "3..=9",
            "1..=13",
            "3..=4, 8..=9",
            "1..=2, 10..=13",
            "1..=2, 5..=7, 10..=13",
        ],
        [
            "1..=9",
            "2..=2, 5..=9",
            "1..=9",
            "2..=2, 5..=9",
            "1..=1, 3..=4",
            "1..=1, 3..=4",
        ],
    ];

    fn read<T: Unsigned>(text: &str) -> RangeSet<T> {
        text.parse().unwrap()
    }

    pub fn text_of_other_forms<T: Unsigned>() {
        let some = set::<T>(&[(1, 5), (7, 7)]);
        for text in ["1..=5, 7..=7", " 7 ,3..=5,\t+1..=4\n", "7,5,4,3,2,1,9..=8"] {
            assert_eq!(text.parse().as_ref(), Ok(&some), "{text:?}");
        }
        assert_eq!(" ".parse(), Ok(set::<T>(&[])));
        let greatest = RangeSet::from(T::MAX..=T::MAX);
        assert_eq!(greatest.to_string().parse(), Ok(greatest));
        for (text, position) in [
            ("1..5", 3),
            ("1..=", 4),
            ("1..=2..=3", 5),
            (",", 0),
            ("1,", 2),
            ("-1", 1),
            ("x", 0),
            ("1 2", 2),
            ("7, 340282366920938463463374607431768211456", 41),
            ("4\u{e9}", 1),
        ] {
            let Err(ParseError::BadText { position: found }) = text.parse::<RangeSet<T>>() else {
                panic!("{text:?} is read");
            };
            let too_great = text.len() > 40 && found > 3 && found < position;
            assert!(found == position || too_great, "{text:?}: {found}");
        }
    }

    pub fn combinations<T: Unsigned>() {
        for row in COMBINED {
            let [a, b, either, both, only_left, only_one] = row.map(read::<T>);
            assert_eq!(&a | &b, either, "{row:?}");
            assert_eq!(&a & &b, both, "{row:?}");
            assert_eq!(&a - &b, only_left, "{row:?}");
            assert_eq!(&a ^ &b, only_one, "{row:?}");
            assert_eq!(a.clone() | b.clone(), either, "{row:?}");
            assert_eq!(a.clone() & &b, both, "{row:?}");
            assert_eq!(&a - b.clone(), only_left, "{row:?}");
            assert_eq!(a.clone() ^ b.clone(), only_one, "{row:?}");
            assert_eq!(a.try_union(&b), Ok(either), "{row:?}");
        }
    }

    pub fn assignments<T: Unsigned>() {
        for row in COMBINED {
            let [a, b, either, both, only_left, only_one] = row.map(read::<T>);
            let mut changed = a.clone();
            assert_eq!(changed.union_with(&b), a != either, "{row:?}");
            assert_eq!(changed, either, "{row:?}");
            changed.clone_from(&a);
            assert_eq!(changed.intersect_with(&b), a != both, "{row:?}");
            assert_eq!(changed, both, "{row:?}");
            changed.clone_from(&a);
            assert_eq!(changed.subtract(&b), a != only_left, "{row:?}");
            assert_eq!(changed, only_left, "{row:?}");
            changed.clone_from(&a);
            assert_eq!(changed.xor_with(&b), !b.is_empty(), "{row:?}");
            assert_eq!(changed, only_one, "{row:?}");
            changed ^= &b;
            assert_eq!(changed, a, "{row:?}");
            changed |= b.clone();
            changed &= &b;
            changed -= b;
            assert!(changed.is_empty(), "{row:?}");
        }
    }

    pub fn any_number<T: Unsigned>() {
        let sets = ["1..=5", "4..=9", "5..=5, 9..=12"].map(read::<T>);
        assert_eq!(RangeSet::union_of(&sets), read("1..=12"));
        assert_eq!(RangeSet::intersection_of(&sets), read("5..=5"));
        let odd = RangeSet::symmetric_difference_of(&sets);
        assert_eq!(odd, read("1..=3, 5..=8, 10..=12"));
        let all = !RangeSet::<T>::new();
        for (k, wanted) in ["1..=12", "4..=5, 9..=9", "5..=5", ""]
            .into_iter()
            .enumerate()
        {
            assert_eq!(RangeSet::at_least(k + 1, &sets), read(wanted));
        }
        assert_eq!(RangeSet::at_least(0, &sets), all);
        assert_eq!(RangeSet::at_least(2, [&sets[0], &sets[0]]), sets[0]);
        let none: [&RangeSet<T>; 0] = [];
        assert!(RangeSet::union_of(none).is_empty());
        assert!(RangeSet::symmetric_difference_of(none).is_empty());
        assert_eq!(RangeSet::intersection_of(none), all);
    }

    #[allow(clippy::eq_op)]
    pub fn a_set_beside_itself<T: Unsigned>() {
        for a in [set::<T>(&[]), set(&[(1, 4), (8, 13)])] {
            assert_eq!(&a | &a, a);
            assert_eq!(&a & &a, a);
            assert!((&a - &a).is_empty() && (&a ^ &a).is_empty());
            assert!(a == a && a <= a && a.is_subset(&a) && a.is_superset(&a));
            assert_eq!(a.is_disjoint(&a), a.is_empty());
        }
    }

    pub fn comparisons<T: Unsigned>() {
        // As lists of members: none; 0; 0, 1; 0, 1, 2, 3; 0, 1, 3; 0, 2; 1.
        let ascending = [
            set::<T>(&[]),
            set(&[(0, 0)]),
            set(&[(0, 1)]),
            set(&[(0, 3)]),
            set(&[(0, 1), (3, 3)]),
            set(&[(0, 0), (2, 2)]),
            set(&[(1, 1)]),
        ];
        for (place, left) in ascending.iter().enumerate() {
            for (other_place, right) in ascending.iter().enumerate() {
                assert_eq!(
                    left.cmp(right),
                    place.cmp(&other_place),
                    "{left} beside {right}"
                );
                assert_eq!(left == right, place == other_place, "{left} beside {right}");
            }
        }
        let (small, great) = (set::<T>(&[(2, 3), (7, 7)]), set(&[(1, 4), (7, 9)]));
        assert!(small.is_subset(&great) && !great.is_subset(&small) && great.is_superset(&small));
        assert!(small.is_disjoint(&set(&[(4, 6)])) && !small.is_disjoint(&set(&[(5, 7)])));
    }

    pub fn equal_sets_hash_alike<T: Unsigned>() {
        let mut sets = HashSet::from([set::<T>(&[(1, 5)]), set(&[(1, 2), (4, 5)])]);
        assert!(!sets.insert(set(&[(1, 3), (4, 5)])));
        assert!(sets.insert(set(&[(1, 4)])));
        let hash = |set: RangeSet<T>| BuildHasherDefault::<DefaultHasher>::default().hash_one(set);
        assert!(hash(set(&[(1, 5)])) != hash(set(&[(1, 4)])));
        assert!(hash(set(&[(1, 5)])) != hash(set(&[(2, 5)])));
    }

    pub fn changes<T: Unsigned>() {
        let mut a = RangeSet::<T>::default();
        assert!(a.insert(T::from(3)) && !a.insert(T::from(3)));
        assert!(a.insert_range(T::from(5)..=T::from(9)) && a.insert(T::from(4)));
        assert_eq!(a.to_string(), "3..=9");
        assert!(a.remove(T::from(6)) && !a.remove(T::from(6)));
        assert_eq!(a.to_string(), "3..=5, 7..=9");
        assert!(a.remove_range(T::from(5)..T::from(8)));
        assert!(!a.remove_range(T::from(5)..T::from(8)));
        assert_eq!(a.to_string(), "3..=4, 8..=9");
        assert_eq!(a.try_insert_range(T::from(3)..=T::from(4)), Ok(false));
        a.clear();
        assert!(a.is_empty() && !a.remove_range(..));
    }

    pub fn bounds<T: Unsigned>() {
        let all = !RangeSet::<T>::new();
        let mut a = RangeSet::new();
        assert!(!a.insert_range(T::from(5)..T::from(5)));
        #[allow(clippy::reversed_empty_ranges)]
        let reversed = T::from(5)..=T::from(4);
        assert!(!a.insert_range(reversed.clone()) && !a.insert_range(..T::MIN));
        assert!(a.contains_range(reversed.clone()) && all.is_disjoint_range(reversed.clone()));
        assert_eq!(all.len_in(reversed), 0_u128);
        let after_last = (
            std::ops::Bound::Excluded(T::MAX),
            std::ops::Bound::Unbounded,
        );
        assert!(!a.insert_range(after_last));
        assert!(a.insert_range(..) && a == all);
        assert!(a.remove_range(T::from(7)..) && a.to_string() == "0..=6");
        assert!(a.remove_range(..T::from(2)) && a.to_string() == "2..=6");
        assert!(a.remove_range(..=T::from(2)) && a.to_string() == "3..=6");
    }

    pub fn look_ups<T: Unsigned>() {
        let a = set::<T>(&[(1, 4), (8, 13)]);
        assert!(a.contains(T::from(4)) && !a.contains(T::from(5)));
        assert!(a.contains_range(T::from(8)..=T::from(13)));
        assert!(!a.contains_range(T::from(4)..=T::from(8)));
        assert!(a.is_disjoint_range(T::from(5)..T::from(8)));
        assert!(!a.is_disjoint_range(T::from(5)..=T::from(8)));
        assert_eq!((a.len(), a.run_count()), (10_u64.into(), 2));
        assert_eq!(a.len_in(T::from(4)..T::from(10)), 3_u128);
        assert_eq!((a.first(), a.last()), (Some(T::from(1)), Some(T::from(13))));
        let ranks: [u128; 3] = [T::MIN, T::from(9), T::MAX].map(|value| a.rank(value));
        assert_eq!(ranks, [0, 5, 10]);
        let places = [0, 4, 9, 10, u128::MAX].map(|n| a.nth(n));
        assert_eq!(places, [a.first(), Some(T::from(8)), a.last(), None, None]);
        let none = RangeSet::<T>::new();
        assert_eq!(none.len(), 0_u128);
        assert_eq!((none.first(), none.last(), none.nth(0)), (None, None, None));
    }

    pub fn gaps_beside_a_value<T: Unsigned>() {
        let a = set::<T>(&[(1, 4), (8, 13)]);
        let low = T::MIN..=T::MIN;
        let middle = T::from(5)..=T::from(7);
        let high = T::from(14)..=T::MAX;
        for (value, next, prev, after, before) in [
            (0_u8, Some(&low), Some(&low), Some(&middle), None),
            (3, Some(&middle), Some(&low), Some(&middle), Some(&low)),
            (6, Some(&middle), Some(&middle), Some(&high), Some(&low)),
            (13, Some(&high), Some(&middle), Some(&high), Some(&middle)),
            (20, Some(&high), Some(&high), None, Some(&middle)),
        ] {
            let at = T::from(value);
            assert_eq!(a.next_gap(at).as_ref(), next, "next_gap({value})");
            assert_eq!(a.prev_gap(at).as_ref(), prev, "prev_gap({value})");
            assert_eq!(a.gap_after(at).as_ref(), after, "gap_after({value})");
            assert_eq!(a.gap_before(at).as_ref(), before, "gap_before({value})");
        }
        let (all, none) = (!RangeSet::<T>::new(), RangeSet::<T>::new());
        for value in [T::MIN, T::from(7), T::MAX] {
            assert_eq!((all.next_gap(value), all.prev_gap(value)), (None, None));
            assert_eq!((all.gap_after(value), all.gap_before(value)), (None, None));
            assert_eq!(none.next_gap(value), Some(T::MIN..=T::MAX));
            assert_eq!(
                (none.gap_after(value), none.gap_before(value)),
                (None, None)
            );
        }
        assert_eq!((none.first_run(), none.last_run()), (None, None));
        assert_eq!(a.first_run(), Some(T::from(1)..=T::from(4)));
        assert_eq!(a.last_run(), Some(T::from(8)..=T::from(13)));
        assert!(a.ranges().eq(a.runs()));
    }

    pub fn searches<T: Unsigned>() {
        let a = set::<T>(&[(1, 4), (8, 13)]);
        let (low, high) = (T::from(1)..=T::from(4), T::from(8)..=T::from(13));
        assert_eq!(a.run_or_gap(T::from(2)), (low.clone(), true));
        assert_eq!(a.run_or_gap(T::from(6)), (T::from(5)..=T::from(7), false));
        assert_eq!(a.next_run(T::from(4)), Some(low.clone()));
        assert_eq!(a.next_run(T::from(5)), Some(high.clone()));
        assert_eq!(a.next_run(T::from(14)), None);
        assert_eq!(a.prev_run(T::from(8)), Some(high.clone()));
        assert_eq!(a.prev_run(T::from(7)), Some(low.clone()));
        assert_eq!(a.prev_run(T::from(0)), None);
        assert_eq!(a.run_after(T::from(1)), Some(high.clone()));
        assert_eq!(a.run_after(T::from(8)), None);
        assert_eq!(a.run_before(T::from(13)), Some(low));
        assert_eq!(a.run_before(T::from(4)), None);
        assert_eq!(a.first_gap(T::from(2), 3), Some(T::from(5)..=T::from(7)));
        assert_eq!(a.first_gap(T::from(6), 3), Some(T::from(14)..=T::MAX));
        assert_eq!((!&a).first_gap(T::from(5), 6), Some(high.clone()));
        assert_eq!((!&a).first_gap(T::from(5), 7), None);
        assert_eq!(a.first_run_of(T::from(1), 6), Some(high));
        assert_eq!(a.first_run_of(T::from(9), 6), None);
    }

    pub fn iterators_from_both_ends<T: Unsigned>() {
        let a = set::<T>(&[(1, 4), (8, 13), (20, 20)]);
        let mut runs = a.runs();
        assert_eq!(runs.len(), 3);
        assert_eq!(runs.next_back(), Some(T::from(20)..=T::from(20)));
        assert_eq!(runs.next(), Some(T::from(1)..=T::from(4)));
        assert_eq!(runs.clone().next(), Some(T::from(8)..=T::from(13)));
        assert_eq!(runs.next_back(), Some(T::from(8)..=T::from(13)));
        assert_eq!((runs.next(), runs.next_back(), runs.len()), (None, None, 0));
        let mut gaps = a.gaps();
        assert_eq!(gaps.len(), 4);
        assert_eq!(gaps.next_back(), Some(T::from(21)..=T::MAX));
        assert_eq!(gaps.next(), Some(T::MIN..=T::MIN));
        assert_eq!(gaps.next_back(), Some(T::from(14)..=T::from(19)));
        assert_eq!(gaps.next_back(), Some(T::from(5)..=T::from(7)));
        assert_eq!((gaps.next(), gaps.next_back(), gaps.len()), (None, None, 0));
    }

    pub fn members_from_both_ends<T: Unsigned>() {
        let a = set::<T>(&[(1, 4), (8, 9)]);
        let members = [1, 2, 3, 4, 8, 9].map(T::from);
        assert!(a.iter().eq(members) && a.iter().rev().eq(members.into_iter().rev()));
        assert!((&a).into_iter().eq(members) && a.clone().into_iter().eq(members));
        assert_eq!(
            (a.range(..).last(), a.iter().skip(2).count()),
            (a.last(), 4)
        );
        // Each number of members from the back, then the others from the front.
        for from_back in 0..=members.len() {
            let mut left = a.iter();
            for &member in members.iter().rev().take(from_back) {
                assert_eq!(left.next_back(), Some(member));
            }
            let others = members.len() - from_back;
            assert_eq!(left.size_hint(), (others, Some(others)));
            assert!(left.by_ref().eq(members[..others].iter().copied()));
            assert_eq!((left.next(), left.next_back()), (None, None));
        }
    }

    // More runs than a walk reads at once: the first, then each number of them from the back, then
    // the others.
    pub fn many_runs<T: Unsigned>() {
        let runs: Vec<_> = (0..40)
            .map(|i| T::from(3 * i)..=T::from(3 * i + 1))
            .collect();
        let a: RangeSet<T> = runs.iter().cloned().collect();
        for from_back in 0..runs.len() {
            let others = runs.len() - from_back;
            let mut left = a.runs();
            assert_eq!(left.next().as_ref(), runs.first());
            for run in runs.iter().rev().take(from_back) {
                assert_eq!(left.next_back().as_ref(), Some(run));
            }
            assert_eq!(left.len(), others - 1);
            assert!(left.clone().eq(runs[1..others].iter().cloned()));
            assert!(left.eq(runs[1..others].iter().cloned()));
        }
        assert!(a.iter().step_by(2).eq(runs.iter().map(|run| *run.start())));
        assert!(a.clone().into_iter().eq(a.iter()));
    }

    pub fn ends_of_the_type<T: Unsigned>() {
        let none = RangeSet::<T>::new();
        let all = !&none;
        let below = all.rank(T::MAX);
        assert_eq!(all.len_in(..T::MAX), below);
        assert!(all.len() > below && all.is_universal() && !none.is_universal());
        assert_eq!(
            (all.first(), all.last(), all.run_count()),
            (Some(T::MIN), Some(T::MAX), 1)
        );
        assert!(all.runs().eq([T::MIN..=T::MAX]) && none.gaps().eq([T::MIN..=T::MAX]));
        assert!(all.gaps().eq([]) && none.runs().eq([]));
        assert!(all.gaps().rev().eq([]) && none.gaps().rev().eq([T::MIN..=T::MAX]));
        assert_eq!(
            (all.iter().next(), all.iter().next_back()),
            (all.first(), all.last())
        );
        assert_eq!(all.run_or_gap(T::MAX), (T::MIN..=T::MAX, true));
        let gap = all.first_gap(T::MIN, 1);
        assert_eq!((all.run_after(T::MIN), gap), (None, None));

        let ends = RangeSet::from([T::MIN, below_greatest(1), T::MAX]);
        assert_eq!(
            ends.to_string(),
            format!("0..=0, {}..={}", below_greatest::<T>(1), T::MAX)
        );
        assert!((!&ends).runs().eq(ends.gaps()) && ends.gaps().len() == 1);
        assert!(ends.iter().rev().eq([T::MAX, below_greatest(1), T::MIN]));
        assert_eq!(!!&ends, ends);
    }

    pub fn made_from_values_and_ranges<T: Unsigned>() {
        let values = [7, 1, 3, 2, 8, 3].map(T::from);
        let ranges = [
            T::from(7)..=T::from(8),
            T::from(1)..=T::from(2),
            T::from(3)..=T::from(3),
        ];
        let wanted = set::<T>(&[(1, 3), (7, 8)]);
        assert_eq!(RangeSet::from(values), wanted);
        assert_eq!(values.iter().collect::<RangeSet<T>>(), wanted);
        assert_eq!(ranges.iter().collect::<RangeSet<T>>(), wanted);
        assert_eq!(RangeSet::from_iter(ranges.clone()), wanted);
        let overlapping = [(1, 9), (3, 4), (10, 10), (2, 12), (12, 12), (5, 6)];
        assert_eq!(set::<T>(&overlapping).to_string(), "1..=12");
        let mut grown = RangeSet::from(T::from(1)..=T::from(3));
        grown.extend([T::from(7)]);
        grown.extend(&[T::from(8)]);
        grown.extend(&ranges);
        grown.extend(ranges);
        assert_eq!(grown, wanted);
    }
}
