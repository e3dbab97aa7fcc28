//! Calls that only read a set.

use core::ops::{RangeBounds, RangeInclusive};

use crate::calls::{Handle, RunOf};
use crate::span::{span_of, Span};
use crate::width::{fitting, Number, Width};
use crate::{Element, Len, RangeSet};

impl<T> RangeSet<T> {
    /// Returns whether the set has no member.
    ///
    /// ```
    /// # use range_set::RangeSet;
    /// assert!(RangeSet::<i8>::new().is_empty());
    /// assert!(!RangeSet::from([5]).is_empty());
    /// ```
    #[must_use]
    pub fn is_empty(&self) -> bool
    where
        T: Element,
    {
        self.run_count() == 0
    }

    /// Returns whether every value of the type is a member.
    ///
    /// ```
    /// # use range_set::RangeSet;
    /// assert!(RangeSet::<u8>::from(0..=255).is_universal());
    /// assert!(!RangeSet::<u8>::from(0..=254).is_universal());
    /// ```
    #[must_use]
    pub fn is_universal(&self) -> bool
    where
        T: Element,
    {
        self.contains_range(..)
    }

    /// Returns whether a value is a member.
    ///
    /// ```
    /// # use range_set::RangeSet;
    /// let digits = RangeSet::from('0'..='9');
    /// assert!(digits.contains('7') && !digits.contains('x'));
    /// ```
    #[must_use]
    pub fn contains(&self, value: T) -> bool
    where
        T: Element,
    {
        (Self::CALLS.contains)(&self.handle, value.rank().into())
    }

    /// Returns whether all values of a range are members. An empty range has none, and the result
    /// is true.
    ///
    /// ```
    /// # use range_set::RangeSet;
    /// let set = RangeSet::from_iter([1..=4, 8..=13]);
    /// assert!(set.contains_range(9..12) && !set.contains_range(4..9));
    /// ```
    #[must_use]
    pub fn contains_range(&self, range: impl RangeBounds<T>) -> bool
    where
        T: Element,
    {
        span_of(range).is_none_or(|span| {
            (Self::CALLS.contains_range)(&self.handle, span.first.into(), span.last.into())
        })
    }

    /// Returns whether none of the values of a range is a member. An empty range has none, and the
    /// result is true.
    ///
    /// ```
    /// # use range_set::RangeSet;
    /// let set = RangeSet::from_iter([1..=4, 8..=13]);
    /// assert!(set.is_disjoint_range(5..8) && !set.is_disjoint_range(..=1));
    /// ```
    #[must_use]
    pub fn is_disjoint_range(&self, range: impl RangeBounds<T>) -> bool
    where
        T: Element,
    {
        span_of(range).is_none_or(|span| {
            (Self::CALLS.is_disjoint_range)(&self.handle, span.first.into(), span.last.into())
        })
    }

    /// Returns the number of members.
    ///
    /// ```
    /// # use range_set::RangeSet;
    /// assert_eq!(RangeSet::<i32>::from_iter([-4..=4, 8..=13]).len(), 15);
    /// ```
    #[must_use]
    pub fn len(&self) -> Len<T>
    where
        T: Element,
    {
        T::Rank::len((Self::CALLS.len)(&self.handle).into())
    }

    /// Returns the number of members in a range. Takes a step for each run in it.
    ///
    /// ```
    /// # use range_set::RangeSet;
    /// let set = RangeSet::<u8>::from_iter([1..=4, 8..=13]);
    /// assert_eq!(set.len_in(3..10), 4);
    /// ```
    #[must_use]
    pub fn len_in(&self, range: impl RangeBounds<T>) -> Len<T>
    where
        T: Element,
    {
        span_of(range).map_or(0_u64.into(), |span| {
            let len = (Self::CALLS.len_in)(&self.handle, span.first.into(), span.last.into());
            T::Rank::len(len.into())
        })
    }

    /// Returns the number of members below a value, which need not be a member. Takes a step for
    /// each run up to it.
    ///
    /// ```
    /// # use range_set::RangeSet;
    /// let set = RangeSet::from_iter([1..=4, 8..=13]);
    /// assert_eq!((set.rank(1), set.rank(9), set.rank(99)), (0, 5, 10));
    /// ```
    #[must_use]
    pub fn rank(&self, value: T) -> u128
    where
        T: Element,
    {
        fitting((Self::CALLS.rank)(&self.handle, value.rank().into()).into())
    }

    /// Returns the member that has exactly `n` members below it, or `None` if there are at most `n`
    /// members. Takes a step for each run up to the member.
    ///
    /// ```
    /// # use range_set::RangeSet;
    /// let set = RangeSet::from_iter([1..=4, 8..=13]);
    /// assert_eq!((set.nth(4), set.nth(10)), (Some(8), None));
    /// ```
    #[must_use]
    pub fn nth(&self, n: u128) -> Option<T>
    where
        T: Element,
    {
        let mut value = T::Rank::LEAST.into();
        let found = (Self::CALLS.nth)(&self.handle, T::Rank::place(n)?, &mut value);
        found.then(|| T::from_rank(value.into()))
    }

    /// Returns the number of runs.
    ///
    /// ```
    /// # use range_set::RangeSet;
    /// assert_eq!(RangeSet::from([1, 2, 3, 7, 8]).run_count(), 2);
    /// ```
    #[must_use]
    pub fn run_count(&self) -> usize
    where
        T: Element,
    {
        (Self::CALLS.run_count)(&self.handle)
    }

    /// Returns the least member.
    ///
    /// ```
    /// # use range_set::RangeSet;
    /// assert_eq!(RangeSet::from([3, -7, 5]).first(), Some(-7));
    /// ```
    #[must_use]
    pub fn first(&self) -> Option<T>
    where
        T: Element,
    {
        let mut value = T::Rank::LEAST.into();
        (Self::CALLS.first)(&self.handle, &mut value).then(|| T::from_rank(value.into()))
    }

    /// Returns the greatest member.
    ///
    /// ```
    /// # use range_set::RangeSet;
    /// assert_eq!(RangeSet::from([3, -7, 5]).last(), Some(5));
    /// ```
    #[must_use]
    pub fn last(&self) -> Option<T>
    where
        T: Element,
    {
        let mut value = T::Rank::LEAST.into();
        (Self::CALLS.last)(&self.handle, &mut value).then(|| T::from_rank(value.into()))
    }

    /// Returns the run or the gap that contains a value, and whether it is a run.
    ///
    /// ```
    /// # use range_set::RangeSet;
    /// let set = RangeSet::<u8>::from_iter([1..=4, 8..=13]);
    /// assert_eq!(set.run_or_gap(3), (1..=4, true));
    /// assert_eq!(set.run_or_gap(6), (5..=7, false));
    /// assert_eq!(set.run_or_gap(99), (14..=255, false));
    /// ```
    #[must_use]
    pub fn run_or_gap(&self, value: T) -> (RangeInclusive<T>, bool)
    where
        T: Element,
    {
        let (block, is_run) = self.block_at(value.rank());
        (block.values(), is_run)
    }

    /// Returns the run that contains `from`, or otherwise the first run after it.
    ///
    /// ```
    /// # use range_set::RangeSet;
    /// let set = RangeSet::from_iter([1..=4, 8..=13]);
    /// assert_eq!((set.next_run(2), set.next_run(5)), (Some(1..=4), Some(8..=13)));
    /// ```
    #[must_use]
    pub fn next_run(&self, from: T) -> Option<RangeInclusive<T>>
    where
        T: Element,
    {
        Some(self.run_by(Self::CALLS.next_run, from.rank())?.values())
    }

    /// Returns the run that contains `from`, or otherwise the last run before it.
    ///
    /// ```
    /// # use range_set::RangeSet;
    /// let set = RangeSet::from_iter([1..=4, 8..=13]);
    /// assert_eq!((set.prev_run(9), set.prev_run(7)), (Some(8..=13), Some(1..=4)));
    /// ```
    #[must_use]
    pub fn prev_run(&self, from: T) -> Option<RangeInclusive<T>>
    where
        T: Element,
    {
        Some(self.run_by(Self::CALLS.prev_run, from.rank())?.values())
    }

    /// Returns the first run that starts after a value.
    ///
    /// ```
    /// # use range_set::RangeSet;
    /// let set = RangeSet::from_iter([1..=4, 8..=13]);
    /// assert_eq!((set.run_after(2), set.run_after(8)), (Some(8..=13), None));
    /// ```
    #[must_use]
    pub fn run_after(&self, value: T) -> Option<RangeInclusive<T>>
    where
        T: Element,
    {
        Some(self.run_by(Self::CALLS.run_after, value.rank())?.values())
    }

    /// Returns the last run that ends before a value.
    ///
    /// ```
    /// # use range_set::RangeSet;
    /// let set = RangeSet::from_iter([1..=4, 8..=13]);
    /// assert_eq!((set.run_before(9), set.run_before(4)), (Some(1..=4), None));
    /// ```
    #[must_use]
    pub fn run_before(&self, value: T) -> Option<RangeInclusive<T>>
    where
        T: Element,
    {
        Some(self.run_by(Self::CALLS.run_before, value.rank())?.values())
    }

    /// Returns the run with the least members.
    ///
    /// ```
    /// # use range_set::RangeSet;
    /// assert_eq!(RangeSet::from_iter([8..=13, 1..=4]).first_run(), Some(1..=4));
    /// ```
    #[must_use]
    pub fn first_run(&self) -> Option<RangeInclusive<T>>
    where
        T: Element,
    {
        self.next_run(T::MIN)
    }

    /// Returns the run with the greatest members.
    ///
    /// ```
    /// # use range_set::RangeSet;
    /// assert_eq!(RangeSet::from_iter([8..=13, 1..=4]).last_run(), Some(8..=13));
    /// ```
    #[must_use]
    pub fn last_run(&self) -> Option<RangeInclusive<T>>
    where
        T: Element,
    {
        self.prev_run(T::MAX)
    }

    /// Returns the first members at or after `from` that are at least `len` consecutive ones: the
    /// rest of their run. Takes a step for each run between `from` and the result.
    ///
    /// ```
    /// # use range_set::RangeSet;
    /// let free = RangeSet::from_iter([1..=2, 8..=13]);
    /// assert_eq!(free.first_run_of(0, 3), Some(8..=13));
    /// assert_eq!(free.first_run_of(10, 4), Some(10..=13));
    /// assert_eq!(free.first_run_of(10, 5), None);
    /// ```
    #[must_use]
    pub fn first_run_of(&self, from: T, len: u128) -> Option<RangeInclusive<T>>
    where
        T: Element,
    {
        Some(self.long_by(Self::CALLS.first_run_of, from, len)?.values())
    }

    /// Returns the first run or gap that has at least `len` values at or after `from`, by a call of
    /// the library.
    pub(crate) fn long_by(
        &self,
        call: extern "C" fn(
            &Handle,
            <T::Rank as Number>::Value,
            <T::Rank as Number>::Place,
            &mut RunOf<T::Rank>,
        ) -> bool,
        from: T,
        len: u128,
    ) -> Option<Span<T::Rank>>
    where
        T: Element,
    {
        // At most one is longer than what C can ask for.
        let asked = T::Rank::place(len).or_else(|| T::Rank::place(u64::MAX.into()))?;
        let mut run = Self::any_run();
        if !call(&self.handle, from.rank().into(), asked, &mut run) {
            return None;
        }
        // Only the last gap can extend past the greatest value.
        let found = Span::from_run(run).cut(Span::of_type::<T>()?)?;
        found.has(len).then_some(found)
    }

    pub(crate) fn run_by(
        &self,
        call: extern "C" fn(&Handle, <T::Rank as Number>::Value, &mut RunOf<T::Rank>) -> bool,
        rank: T::Rank,
    ) -> Option<Span<T::Rank>>
    where
        T: Element,
    {
        let mut run = Self::any_run();
        call(&self.handle, rank.into(), &mut run).then(|| Span::from_run(run))
    }

    /// Returns some run, which a call of the library replaces.
    pub(crate) fn any_run() -> RunOf<T::Rank>
    where
        T: Element,
    {
        let (first, last) = (T::Rank::LEAST, T::Rank::LEAST);
        Span { first, last }.to_run()
    }

    /// Returns the run or the gap that contains a rank, and whether it is a run. The library's gaps
    /// extend over all ranks, but only the values of the type count.
    pub(crate) fn block_at(&self, rank: T::Rank) -> (Span<T::Rank>, bool)
    where
        T: Element,
    {
        let mut run = Self::any_run();
        let is_run = (Self::CALLS.run_or_gap)(&self.handle, rank.into(), &mut run);
        let block = Span::from_run(run);
        let of_type = Span::of_type::<T>().and_then(|all| block.cut(all));
        (of_type.unwrap_or(block), is_run)
    }
}
