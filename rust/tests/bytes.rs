//! Sets of `u8` and `i8`, compared on all 256 values with a table of bits.

mod common;

use std::fmt::Debug;
use std::ops::RangeInclusive;

use range_set::{Element, RangeSet};

/// The members of a set of a type with 256 values, in the order of the values.
#[derive(Clone, PartialEq)]
struct Table([bool; 256]);

impl Table {
    /// The ranges of places with one bit.
    fn blocks(&self, of_members: bool) -> Vec<(usize, usize)> {
        let mut blocks: Vec<(usize, usize)> = Vec::new();
        for place in (0..256).filter(|&place| self.0[place] == of_members) {
            match blocks.last_mut() {
                Some((_, last)) if *last + 1 == place => *last = place,
                _ => blocks.push((place, place)),
            }
        }
        blocks
    }
}

fn check<T: Element<Rank = u32> + Debug>(at: fn(usize) -> T) {
    let range = |&(first, last): &(usize, usize)| -> RangeInclusive<T> { at(first)..=at(last) };
    let (mut set, mut table) = (RangeSet::<T>::new(), Table([false; 256]));
    let mut draws = 1_u64;
    for step in 0..600 {
        draws ^= draws << 13;
        draws ^= draws >> 7;
        draws ^= draws << 17;
        let (first, size) = (draws as usize % 256, (draws >> 8) as usize % 60);
        let last = (first + size).min(255);
        let is_new = (draws >> 20) % 5 > 1;
        if is_new {
            set.insert_range(at(first)..=at(last));
        } else {
            set.remove_range(at(first)..=at(last));
        }
        table.0[first..=last].fill(is_new);
        if step % 97 == 0 {
            set = !set;
            table.0 = table.0.map(|bit| !bit);
        }

        let (runs, gaps) = (table.blocks(true), table.blocks(false));
        assert!(set.runs().eq(runs.iter().map(range)));
        assert!(set.gaps().eq(gaps.iter().map(range)));
        assert!(set.gaps().rev().eq(gaps.iter().rev().map(range)));
        assert!((!&set).runs().eq(gaps.iter().map(range)));
        let members = table.0.iter().filter(|&&bit| bit).count();
        assert_eq!(
            (set.len(), set.iter().len()),
            ((members as u64).into(), members)
        );
        assert_eq!(set.is_universal(), members == 256);
        assert_eq!(
            set.rank(at(255)),
            members as u128 - u128::from(table.0[255])
        );
        let big = |&&(first, last): &&(usize, usize)| last - first >= 40;
        assert_eq!(set.first_gap(at(0), 41), gaps.iter().find(big).map(range));
        assert_eq!(
            set.next_gap(at(255)),
            gaps.last().filter(|gap| gap.1 == 255).map(range)
        );
        assert_eq!(
            set.prev_gap(at(0)),
            gaps.first().filter(|gap| gap.0 == 0).map(range)
        );
        assert_eq!(set.last_run(), runs.last().map(range));
    }
}

#[test]
fn all_values_of_u8() {
    check::<u8>(|place| place as u8);
}

#[test]
fn all_values_of_i8() {
    check::<i8>(|place| (place as i16 - 128) as i8);
}

mod checks {
    use super::*;
    use common::{Base, Value, PLACES};

    pub fn ends<T: Value>() {
        let (all, none) = (RangeSet::<T>::universe(), RangeSet::<T>::new());
        assert_eq!((!&none, !&all), (all.clone(), none.clone()));
        assert!(all.runs().eq([T::MIN..=T::MAX]) && none.gaps().eq([T::MIN..=T::MAX]));
        assert!(all.gaps().eq([]) && none.runs().eq([]));
        assert_eq!((all.first(), all.last()), (Some(T::MIN), Some(T::MAX)));
        let ends = (all.iter().next(), all.iter().next_back());
        assert_eq!(ends, (Some(T::MIN), Some(T::MAX)));
        assert_eq!(all.rank(T::MAX), all.len_in(..T::MAX).try_into().unwrap());
        assert_eq!(all.nth(all.rank(T::MAX)), Some(T::MAX));
        assert_eq!(all.run_or_gap(T::MAX), (T::MIN..=T::MAX, true));
        assert_eq!(none.run_or_gap(T::MIN), (T::MIN..=T::MAX, false));
        assert_eq!((all.next_gap(T::MIN), all.prev_gap(T::MAX)), (None, None));
        assert_eq!(
            (all.first_gap(T::MIN, 1), all.first_gap(T::MIN, 0)),
            (None, None)
        );
        let values = all.rank(T::MAX).checked_add(1);
        assert_eq!(values.and_then(|values| all.nth(values)), None);
        for len in [Some(all.rank(T::MAX)), values].into_iter().flatten() {
            assert_eq!(none.first_gap(T::MIN, len), Some(T::MIN..=T::MAX));
            assert_eq!(all.first_run_of(T::MIN, len), Some(T::MIN..=T::MAX));
        }
        if let Some(more) = values.and_then(|values| values.checked_add(1)) {
            assert_eq!(none.first_gap(T::MIN, more), None);
            assert_eq!(all.first_run_of(T::MIN, more), None);
        }
        assert_eq!(all.to_string().parse(), Ok(all.clone()));

        let (low, high) = (T::at(Base::Least, 1), T::at(Base::Greatest, PLACES - 2));
        let mut inner = all.clone();
        assert!(inner.remove(T::MIN) && inner.remove(T::MAX));
        assert!(inner.runs().eq([low..=high]));
        assert!(inner.gaps().eq([T::MIN..=T::MIN, T::MAX..=T::MAX]));
        assert_eq!(inner.first_gap(low, 1), Some(T::MAX..=T::MAX));
        let mut walk = inner.iter();
        assert_eq!((walk.next(), walk.next_back()), (Some(low), Some(high)));
    }
}

for_each_type! { ends }
