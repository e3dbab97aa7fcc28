//! Calls under the names that range-set-blaze, or the library in Rattle, has for them.

use core::ops::{RangeBounds, RangeInclusive};

use crate::iterators::{IntoRuns, Runs};
use crate::{Element, RangeSet};

/// The name that range-set-blaze has for [`Element`], for bounds of your own. Each element type
/// has it.
///
/// ```
/// use range_set::{Integer, RangeSet};
///
/// fn run_lengths<T: Integer>(set: &RangeSet<T>) -> Vec<range_set::Len<T>> {
///     set.ranges().map(|range| set.len_in(range)).collect()
/// }
/// assert_eq!(run_lengths(&RangeSet::from([1_u8, 2, 5])), [2, 1]);
/// ```
pub trait Integer: Element {}

impl<T: Element> Integer for T {}

/// Other names, for those who know range-set-blaze or the library in Rattle.
impl<T> RangeSet<T> {
    /// Does the same as [`runs`](Self::runs).
    ///
    /// ```
    /// let set = range_set::RangeSet::from([1, 2, 5]);
    /// assert!(set.ranges().eq([1..=2, 5..=5]));
    /// ```
    pub fn ranges(&self) -> Runs<'_, T>
    where
        T: Element,
    {
        self.runs()
    }

    /// Does the same as [`into_runs`](Self::into_runs).
    ///
    /// ```
    /// let set = range_set::RangeSet::from([1, 2, 5]);
    /// assert!(set.into_ranges().eq([1..=2, 5..=5]));
    /// ```
    pub fn into_ranges(self) -> IntoRuns<T>
    where
        T: Element,
    {
        self.into_runs()
    }

    /// Does the same as [`run_count`](Self::run_count).
    ///
    /// ```
    /// assert_eq!(range_set::RangeSet::from([1, 2, 5]).ranges_len(), 2);
    /// ```
    #[must_use]
    pub fn ranges_len(&self) -> usize
    where
        T: Element,
    {
        self.run_count()
    }

    /// Does the same as [`insert_range`](Self::insert_range).
    ///
    /// ```
    /// let mut set = range_set::RangeSet::new();
    /// assert!(set.ranges_insert(2..=5) && !set.ranges_insert(3..=4));
    /// ```
    #[track_caller]
    pub fn ranges_insert(&mut self, range: impl RangeBounds<T>) -> bool
    where
        T: Element,
    {
        self.insert_range(range)
    }

    /// Does the same as [`remove_range`](Self::remove_range).
    ///
    /// ```
    /// let mut set = range_set::RangeSet::from(1..=9);
    /// assert!(set.ranges_remove(2..=5) && !set.ranges_remove(3..=4));
    /// ```
    #[track_caller]
    pub fn ranges_remove(&mut self, range: impl RangeBounds<T>) -> bool
    where
        T: Element,
    {
        self.remove_range(range)
    }

    /// Does the same as [`retain_runs`](Self::retain_runs).
    ///
    /// ```
    /// let mut set = range_set::RangeSet::from([1, 2, 5]);
    /// set.ranges_retain(|range| range.contains(&5));
    /// assert_eq!(set.to_string(), "5..=5");
    /// ```
    #[track_caller]
    pub fn ranges_retain(&mut self, keep: impl FnMut(&RangeInclusive<T>) -> bool)
    where
        T: Element,
    {
        self.retain_runs(keep);
    }

    /// Returns the run that contains a value, or `None` if the value is not a member.
    ///
    /// ```
    /// let set = range_set::RangeSet::from([1, 2, 5]);
    /// assert_eq!((set.range_at(2), set.range_at(3)), (Some(1..=2), None));
    /// ```
    #[must_use]
    pub fn range_at(&self, value: T) -> Option<RangeInclusive<T>>
    where
        T: Element,
    {
        let (run, is_run) = self.run_or_gap(value);
        is_run.then_some(run)
    }

    /// Does the same as [`run_or_gap`](Self::run_or_gap).
    ///
    /// ```
    /// let set = range_set::RangeSet::from([1, 2, 5]);
    /// assert_eq!(set.range_or_gap_at(3), (3..=4, false));
    /// ```
    #[must_use]
    pub fn range_or_gap_at(&self, value: T) -> (RangeInclusive<T>, bool)
    where
        T: Element,
    {
        self.run_or_gap(value)
    }

    /// Returns a value if it is a member.
    ///
    /// ```
    /// let set = range_set::RangeSet::from([1, 2, 5]);
    /// assert_eq!((set.get(2), set.get(3)), (Some(2), None));
    /// ```
    #[must_use]
    pub fn get(&self, value: T) -> Option<T>
    where
        T: Element,
    {
        self.contains(value).then_some(value)
    }

    /// Removes a value, and returns it if it was a member.
    ///
    /// ```
    /// let mut set = range_set::RangeSet::from([1, 2, 5]);
    /// assert_eq!((set.take(2), set.take(2)), (Some(2), None));
    /// ```
    #[track_caller]
    pub fn take(&mut self, value: T) -> Option<T>
    where
        T: Element,
    {
        self.remove(value).then_some(value)
    }

    /// Adds a value, and returns it if it was already a member.
    ///
    /// ```
    /// let mut set = range_set::RangeSet::from([1, 2, 5]);
    /// assert_eq!((set.replace(2), set.replace(3)), (Some(2), None));
    /// ```
    #[track_caller]
    pub fn replace(&mut self, value: T) -> Option<T>
    where
        T: Element,
    {
        (!self.insert(value)).then_some(value)
    }

    /// Returns the set of the values of a slice.
    ///
    /// ```
    /// let set = range_set::RangeSet::from_slice(vec![5, 1, 2]);
    /// assert_eq!(set.to_string(), "1..=2, 5..=5");
    /// ```
    #[must_use]
    #[track_caller]
    pub fn from_slice(values: impl AsRef<[T]>) -> Self
    where
        T: Element,
    {
        values.as_ref().iter().collect()
    }
}
