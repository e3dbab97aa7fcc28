//! Calls that look for gaps.

use core::ops::RangeInclusive;

use crate::span::Span;
use crate::width::Number;
use crate::{Element, RangeSet};

impl<T> RangeSet<T> {
    /// Returns the gap that contains `from`, or otherwise the first gap after it.
    ///
    /// ```
    /// # use range_set::RangeSet;
    /// let set = RangeSet::<i8>::from_iter([1..=4, 8..=13]);
    /// assert_eq!(set.next_gap(6), Some(5..=7));
    /// assert_eq!(set.next_gap(8), Some(14..=127));
    /// assert_eq!((!&set).next_gap(14), None);
    /// ```
    #[must_use]
    pub fn next_gap(&self, from: T) -> Option<RangeInclusive<T>>
    where
        T: Element,
    {
        Some(self.gap_from(from.rank())?.values())
    }

    /// Returns the gap that contains `from`, or otherwise the last gap before it.
    ///
    /// ```
    /// # use range_set::RangeSet;
    /// let set = RangeSet::<i8>::from_iter([1..=4, 8..=13]);
    /// assert_eq!(set.prev_gap(8), Some(5..=7));
    /// assert_eq!(set.prev_gap(3), Some(-128..=0));
    /// ```
    #[must_use]
    pub fn prev_gap(&self, from: T) -> Option<RangeInclusive<T>>
    where
        T: Element,
    {
        Some(self.gap_to(from.rank())?.values())
    }

    /// Returns the first gap that starts after a value.
    ///
    /// ```
    /// # use range_set::RangeSet;
    /// let set = RangeSet::<u32>::from_iter([1..=4, 8..=13]);
    /// assert_eq!(set.gap_after(6), Some(14..=u32::MAX));
    /// assert_eq!(set.gap_after(14), None);
    /// ```
    #[must_use]
    pub fn gap_after(&self, value: T) -> Option<RangeInclusive<T>>
    where
        T: Element,
    {
        let run = self.run_by(Self::CALLS.next_run, value.rank())?;
        Some(self.gap_above(run)?.values())
    }

    /// Returns the last gap that ends before a value.
    ///
    /// ```
    /// # use range_set::RangeSet;
    /// let set = RangeSet::<u32>::from_iter([1..=4, 8..=13]);
    /// assert_eq!(set.gap_before(6), Some(0..=0));
    /// assert_eq!(set.gap_before(0), None);
    /// ```
    #[must_use]
    pub fn gap_before(&self, value: T) -> Option<RangeInclusive<T>>
    where
        T: Element,
    {
        let run = self.run_by(Self::CALLS.prev_run, value.rank())?;
        Some(self.gap_below(run)?.values())
    }

    /// Returns the first gap that has at least `len` values at or after `from`, without its values
    /// before `from`. Takes a step for each run between `from` and the gap.
    ///
    /// ```
    /// # use range_set::RangeSet;
    /// let set = RangeSet::<u8>::from_iter([1..=4, 8..=253]);
    /// assert_eq!(set.first_gap(0, 3), Some(5..=7));
    /// assert_eq!(set.first_gap(6, 2), Some(6..=7));
    /// assert_eq!(set.first_gap(7, 2), Some(254..=255));
    /// assert_eq!(set.first_gap(6, 3), None);
    /// ```
    #[must_use]
    pub fn first_gap(&self, from: T, len: u128) -> Option<RangeInclusive<T>>
    where
        T: Element,
    {
        Some(self.long_by(Self::CALLS.first_gap, from, len)?.values())
    }

    /// Returns the gap that contains a rank, or otherwise the first gap after it.
    pub(crate) fn gap_from(&self, rank: T::Rank) -> Option<Span<T::Rank>>
    where
        T: Element,
    {
        let (block, is_run) = self.block_at(rank);
        if is_run {
            self.gap_above(block)
        } else {
            Some(block)
        }
    }

    /// Returns the gap that contains a rank, or otherwise the last gap before it.
    pub(crate) fn gap_to(&self, rank: T::Rank) -> Option<Span<T::Rank>>
    where
        T: Element,
    {
        let (block, is_run) = self.block_at(rank);
        if is_run {
            self.gap_below(block)
        } else {
            Some(block)
        }
    }

    /// Returns the gap just above a run, or `None` if the run has the greatest value.
    fn gap_above(&self, run: Span<T::Rank>) -> Option<Span<T::Rank>>
    where
        T: Element,
    {
        let next = run.last.successor()?;
        (next <= T::MAX.rank()).then(|| self.block_at(next).0)
    }

    /// Returns the gap just below a run, or `None` if the run has the least value.
    fn gap_below(&self, run: Span<T::Rank>) -> Option<Span<T::Rank>>
    where
        T: Element,
    {
        let previous = run.first.predecessor()?;
        (previous >= T::MIN.rank()).then(|| self.block_at(previous).0)
    }
}
