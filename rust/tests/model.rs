//! Random calls on sets of each element type, whose results are compared with those on a `BTreeSet`.

mod common;

use std::collections::BTreeSet;
use std::ops::RangeInclusive;

use common::{Base, Value, BASES, PLACES};
use range_set::{Multiway, RangeSet};

const SESSIONS: u64 = 4;
const STEPS: usize = 30;

/// A generator of random numbers (xorshift).
struct Draws(u64);

impl Draws {
    fn below(&mut self, bound: i16) -> i16 {
        self.0 ^= self.0 << 13;
        self.0 ^= self.0 >> 7;
        self.0 ^= self.0 << 17;
        (self.0 % bound as u64) as i16
    }
}

/// A set and the places of its members.
struct Pair<T: Value> {
    base: Base,
    set: RangeSet<T>,
    model: BTreeSet<i16>,
}

impl<T: Value> Pair<T> {
    fn new(base: Base) -> Self {
        Pair {
            base,
            set: RangeSet::new(),
            model: BTreeSet::new(),
        }
    }

    fn at(&self, place: i16) -> T {
        T::at(self.base, place)
    }

    fn range(&self, (first, last): (i16, i16)) -> RangeInclusive<T> {
        self.at(first)..=self.at(last)
    }

    /// Returns the set of the values at some places.
    fn wanted(&self, places: impl IntoIterator<Item = i16>) -> RangeSet<T> {
        places.into_iter().map(|place| self.at(place)).collect()
    }

    /// The runs of the places.
    fn runs(&self) -> Vec<(i16, i16)> {
        let mut runs: Vec<(i16, i16)> = Vec::new();
        for &place in &self.model {
            match runs.last_mut() {
                Some((_, last)) if *last + 1 == place => *last = place,
                _ => runs.push((place, place)),
            }
        }
        runs
    }

    /// The gaps between the values at these runs, to the least and the greatest value.
    fn gaps(&self) -> Vec<RangeInclusive<T>> {
        let mut gaps = Vec::new();
        let mut from = Some(T::MIN);
        for (first, last) in self.runs() {
            if first > 0 || self.base != Base::Least {
                gaps.push(from.unwrap()..=self.at(first - 1));
            }
            let is_greatest = last == PLACES - 1 && self.base == Base::Greatest;
            from = (!is_greatest).then(|| self.at(last + 1));
        }
        gaps.extend(from.map(|from| from..=T::MAX));
        gaps
    }

    /// Adds or removes one value or more.
    fn change(&mut self, draws: &mut Draws) {
        let (first, size) = (draws.below(PLACES), draws.below(8));
        let last = (first + size).min(PLACES - 1);
        let before = self.model.clone();
        let changed = match draws.below(8) {
            0 => {
                self.model.insert(first);
                self.set.insert(self.at(first))
            }
            1 => {
                self.model.remove(&first);
                self.set.remove(self.at(first))
            }
            2 | 3 => {
                self.model.extend(first..=last);
                self.set.insert_range(self.range((first, last)))
            }
            4 => {
                self.model.retain(|place| !(first..=last).contains(place));
                self.set.remove_range(self.range((first, last)))
            }
            5 => {
                let wanted = self.model.pop_first().map(|place| self.at(place));
                let popped = self.set.pop_first();
                assert_eq!(popped, wanted);
                popped.is_some()
            }
            6 => {
                let wanted = self.model.pop_last().map(|place| self.at(place));
                let popped = self.set.pop_last();
                assert_eq!(popped, wanted);
                popped.is_some()
            }
            _ => {
                let high = self.model.split_off(&first);
                let mut split = self.set.split_off(self.at(first));
                assert_eq!(split, self.wanted(high.iter().copied()));
                assert_eq!(self.set, self.wanted(self.model.iter().copied()));
                self.model.extend(high);
                self.set.append(&mut split);
                assert!(split.is_empty());
                false
            }
        };
        assert_eq!(changed, self.model != before);
    }

    /// Compares the members, and the runs and gaps that they make.
    fn check_members(&self) {
        let members: Vec<T> = self.model.iter().map(|&place| self.at(place)).collect();
        assert!(self.set.iter().eq(members.iter().copied()));
        assert!(self.set.iter().rev().eq(members.iter().rev().copied()));
        assert_eq!(self.set.len(), members.len() as u128);
        let ends = (members.first().copied(), members.last().copied());
        assert_eq!((self.set.first(), self.set.last()), ends);
        assert_eq!((self.set.iter().min(), self.set.iter().max()), ends);
        assert_eq!((self.set.range(..).min(), self.set.range(..).max()), ends);
        assert_eq!(
            (self.set.iter().count(), self.set.iter().last()),
            (members.len(), ends.1)
        );
        assert_eq!(members.iter().collect::<RangeSet<T>>(), self.set);

        let runs: Vec<_> = self.runs().into_iter().map(|run| self.range(run)).collect();
        assert!(self.set.runs().eq(runs.iter().cloned()));
        assert!(self.set.runs().rev().eq(runs.iter().rev().cloned()));
        assert_eq!(
            (self.set.run_count(), self.set.runs().len()),
            (runs.len(), runs.len())
        );
        assert_eq!(RangeSet::from_runs(runs.iter().rev().cloned()), self.set);
        assert!(self.set.clone().into_runs().eq(runs));

        let gaps = self.gaps();
        assert!(self.set.gaps().eq(gaps.iter().cloned()));
        assert!(self.set.gaps().rev().eq(gaps.iter().rev().cloned()));
        assert_eq!(self.set.gaps().len(), gaps.len());
        assert!((!&self.set).runs().eq(gaps));
        assert_eq!(!!&self.set, self.set);

        for text in [self.set.to_string(), format!("{:#}", self.set)] {
            assert_eq!(text.parse().as_ref(), Ok(&self.set), "{text}");
        }
    }

    /// Compares the look-ups at a place.
    fn check_look_ups(&self, place: i16) {
        let value = self.at(place);
        assert_eq!(self.set.contains(value), self.model.contains(&place));
        assert_eq!(
            self.set.rank(value),
            self.model.range(..place).count() as u128
        );
        let nth = self.model.iter().nth(place as usize).map(|&at| self.at(at));
        assert_eq!(self.set.nth(place as u128), nth);
        assert_eq!(self.set.iter().nth(place as usize), nth);

        let (block, is_run) = self.set.run_or_gap(value);
        assert!(is_run == self.set.contains(value) && block.contains(&value));
        let runs: Vec<_> = self.runs().into_iter().map(|run| self.range(run)).collect();
        let gaps = self.gaps();
        assert!(if is_run { &runs } else { &gaps }.contains(&block));
        for (blocks, next, prev, after, before) in [
            (
                &runs,
                self.set.next_run(value),
                self.set.prev_run(value),
                self.set.run_after(value),
                self.set.run_before(value),
            ),
            (
                &gaps,
                self.set.next_gap(value),
                self.set.prev_gap(value),
                self.set.gap_after(value),
                self.set.gap_before(value),
            ),
        ] {
            let blocks = || blocks.iter();
            assert_eq!(next.as_ref(), blocks().find(|block| *block.end() >= value));
            assert_eq!(
                prev.as_ref(),
                blocks().rfind(|block| *block.start() <= value)
            );
            assert_eq!(
                after.as_ref(),
                blocks().find(|block| *block.start() > value)
            );
            assert_eq!(
                before.as_ref(),
                blocks().rfind(|block| *block.end() < value)
            );
        }
    }

    /// Compares what the set has between two places.
    fn check_window(&self, first: i16, last: i16) {
        let range = self.range((first, last));
        let members: Vec<T> = self
            .model
            .range(first..=last)
            .map(|&place| self.at(place))
            .collect();
        assert_eq!(self.set.len_in(range.clone()), members.len() as u128);
        assert_eq!(
            self.set.is_disjoint_range(range.clone()),
            members.is_empty()
        );
        let is_full = members.len() == (last - first) as usize + 1;
        assert_eq!(self.set.contains_range(range.clone()), is_full);
        assert!(self.set.range(range.clone()).eq(members.iter().copied()));
        assert!(self
            .set
            .range(range.clone())
            .rev()
            .eq(members.iter().rev().copied()));
        let cut: RangeSet<T> = members.iter().collect();
        assert!(self.set.runs_in(range.clone()).eq(cut.runs()));
        assert!(self.set.runs_in(range.clone()).rev().eq(cut.runs().rev()));
        // From both ends, one after the other.
        let mut both = self.set.range(range);
        for place in 0..members.len() {
            let next = if place % 2 == 0 {
                both.next()
            } else {
                both.next_back()
            };
            assert!(members.contains(&next.unwrap()));
        }
        assert_eq!((both.next(), both.next_back()), (None, None));

        let len = last - first + 1;
        let fits = |&(start, end): &(i16, i16)| end - start.max(first) + 1 >= len;
        let run = self
            .runs()
            .into_iter()
            .find(|run| run.1 >= first && fits(run));
        let wanted = run.map(|(start, end)| self.range((start.max(first), end)));
        assert_eq!(self.set.first_run_of(self.at(first), len as u128), wanted);
        let gap = (!&self.set).first_run_of(self.at(first), len as u128);
        assert_eq!(self.set.first_gap(self.at(first), len as u128), gap);
    }

    /// Compares what two sets make together.
    fn check_combinations(&self, other: &Self) {
        let (a, b, c, d) = (&self.set, &other.set, &self.model, &other.model);
        let wanted = |model: BTreeSet<i16>| self.wanted(model);
        assert_eq!(a | b, wanted(c | d));
        assert_eq!(a & b, wanted(c & d));
        assert_eq!(a - b, wanted(c - d));
        assert_eq!(a ^ b, wanted(c ^ d));
        assert_eq!(!(!a | !b), wanted(c & d));
        assert_eq!(a.clone() - b, wanted(c - d));
        assert_eq!((a == b, a.cmp(b)), (c == d, c.cmp(d)));
        assert_eq!(
            (a.is_subset(b), a.is_disjoint(b)),
            (c.is_subset(d), c.is_disjoint(d))
        );
        assert_eq!([a, b, a].union(), wanted(c | d));
        assert_eq!([a, b].intersection(), wanted(c & d));
        assert_eq!([a, b, b].symmetric_difference(), *a);
        assert_eq!([a, b, a].at_least(2), *a);
        let no_set: [&RangeSet<T>; 0] = [];
        assert_eq!(no_set.intersection(), RangeSet::universe());
        assert_eq!([a, b].at_least(0), RangeSet::universe());
    }

    /// Combines the set in place with another, or keeps some of its members.
    fn combine(&mut self, other: &Self, draws: &mut Draws) {
        let (c, d) = (&self.model, &other.model);
        self.model = match draws.below(6) {
            0 => {
                self.set |= &other.set;
                c | d
            }
            1 => {
                self.set &= &other.set;
                c & d
            }
            2 => {
                self.set -= &other.set;
                c - d
            }
            3 => {
                self.set ^= &other.set;
                c ^ d
            }
            4 => {
                self.set.retain(|value| other.set.contains(*value));
                c & d
            }
            _ => {
                self.set.retain_runs(|run| run.start() < run.end());
                let long = self.runs().into_iter().filter(|run| run.0 < run.1);
                long.flat_map(|(first, last)| first..=last).collect()
            }
        };
    }
}

fn session<T: Value>(base: Base, seed: u64) {
    let mut draws = Draws(seed);
    let (mut one, mut other) = (Pair::<T>::new(base), Pair::<T>::new(base));
    for _ in 0..STEPS {
        for _ in 0..draws.below(4) {
            one.change(&mut draws);
            other.change(&mut draws);
        }
        if draws.below(8) == 0 {
            one.combine(&other, &mut draws);
        }
        one.check_members();
        for place in 0..PLACES {
            one.check_look_ups(place);
        }
        for _ in 0..6 {
            let first = draws.below(PLACES);
            one.check_window(first, (first + draws.below(12)).min(PLACES - 1));
        }
        one.check_combinations(&other);
    }
}

mod checks {
    use super::*;

    pub fn random_calls<T: Value>() {
        for base in BASES {
            for number in 1..=SESSIONS {
                session::<T>(base, number.wrapping_mul(0x9e37_79b9_7f4a_7c15));
            }
        }
    }
}

for_each_type! { random_calls }
