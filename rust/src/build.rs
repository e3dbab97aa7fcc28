//! Calls that make a set of many values or ranges.

use core::ops::RangeInclusive;

use crate::span::{span_of, Span};
use crate::{allocated, AllocError, Element, RangeSet};

impl<T> RangeSet<T> {
    /// Returns the set of all values of the type.
    ///
    /// ```
    /// # use range_set::RangeSet;
    /// assert_eq!(RangeSet::<u8>::universe().to_string(), "0..=255");
    /// ```
    ///
    /// # Panics
    ///
    /// Panics if an allocation fails. [`try_universe`](Self::try_universe) returns an error instead.
    #[must_use]
    #[track_caller]
    pub fn universe() -> Self
    where
        T: Element,
    {
        allocated(Self::try_universe())
    }

    /// Returns the set of all values of the type.
    ///
    /// ```
    /// # use range_set::RangeSet;
    /// assert_eq!(RangeSet::<i8>::try_universe()?.len(), 256);
    /// # Ok::<(), range_set::AllocError>(())
    /// ```
    pub fn try_universe() -> Result<Self, AllocError>
    where
        T: Element,
    {
        let mut all = Self::new();
        all.try_insert_range(..)?;
        Ok(all)
    }

    /// Returns the set of the values of ranges, which may come in any order, overlap and touch.
    /// `collect` and `from_iter` do the same. A range whose end is below its start has no values.
    ///
    /// ```
    /// # use range_set::RangeSet;
    /// let set = RangeSet::from_runs([8..=9, 1..=3, 4..=5]);
    /// assert_eq!(set.to_string(), "1..=5, 8..=9");
    /// ```
    ///
    /// # Panics
    ///
    /// Panics if an allocation fails. [`try_from_runs`](Self::try_from_runs) returns an error
    /// instead.
    #[must_use]
    #[track_caller]
    pub fn from_runs(runs: impl IntoIterator<Item = RangeInclusive<T>>) -> Self
    where
        T: Element,
    {
        allocated(Self::try_from_runs(runs))
    }

    /// Returns the set of the values of ranges, which may come in any order, overlap and touch.
    ///
    /// ```
    /// # use range_set::RangeSet;
    /// assert_eq!(RangeSet::try_from_runs([2..=3, 1..=1])?.to_string(), "1..=3");
    /// # Ok::<(), range_set::AllocError>(())
    /// ```
    pub fn try_from_runs(
        runs: impl IntoIterator<Item = RangeInclusive<T>>,
    ) -> Result<Self, AllocError>
    where
        T: Element,
    {
        Self::try_from_spans(runs.into_iter().map(span_of))
    }

    /// Returns the set of values, which may come in any order and more than once. `collect` and
    /// `from_iter` do the same.
    ///
    /// ```
    /// # use range_set::RangeSet;
    /// assert_eq!(RangeSet::try_from_values([3, 1, 2])?.to_string(), "1..=3");
    /// # Ok::<(), range_set::AllocError>(())
    /// ```
    pub fn try_from_values(values: impl IntoIterator<Item = T>) -> Result<Self, AllocError>
    where
        T: Element,
    {
        Self::try_from_spans(values.into_iter().map(|value| {
            let rank = value.rank();
            Span::new(rank, rank)
        }))
    }

    fn try_from_spans(
        spans: impl IntoIterator<Item = Option<Span<T::Rank>>>,
    ) -> Result<Self, AllocError>
    where
        T: Element,
    {
        let mut set = Self::new();
        let mut joining = Joining::new(&mut set);
        for span in spans {
            joining.add(span)?;
        }
        joining.finish()?;
        Ok(set)
    }

    /// Removes the members for which a function returns false. It is called once for each member,
    /// in ascending order. If it panics, the set is unchanged.
    ///
    /// ```
    /// # use range_set::RangeSet;
    /// let mut set = RangeSet::from(1..=9);
    /// set.retain(|value| value % 4 > 1);
    /// assert_eq!(set.to_string(), "2..=3, 6..=7");
    /// ```
    ///
    /// # Panics
    ///
    /// Panics if an allocation fails. [`try_retain`](Self::try_retain) returns an error instead.
    #[track_caller]
    pub fn retain(&mut self, keep: impl FnMut(&T) -> bool)
    where
        T: Element,
    {
        allocated(self.try_retain(keep));
    }

    /// Removes the members for which a function returns false. It is called once for each member,
    /// in ascending order, until an allocation fails. If it panics, the set is unchanged.
    ///
    /// ```
    /// # use range_set::RangeSet;
    /// let mut set = RangeSet::from('a'..='f');
    /// assert_eq!(set.try_retain(|value| "face".contains(*value)), Ok(()));
    /// assert_eq!(set.to_string(), "'a'..='a', 'c'..='c', 'e'..='f'");
    /// ```
    pub fn try_retain(&mut self, mut keep: impl FnMut(&T) -> bool) -> Result<(), AllocError>
    where
        T: Element,
    {
        *self = Self::try_from_values(self.iter().filter(|value| keep(value)))?;
        Ok(())
    }

    /// Removes the runs for which a function returns false. It is called once for each run, in
    /// ascending order. If it panics, the set is unchanged.
    ///
    /// ```
    /// # use range_set::RangeSet;
    /// let mut set = RangeSet::from_iter([1..=1, 3..=6, 9..=9]);
    /// set.retain_runs(|run| run.start() < run.end());
    /// assert_eq!(set.to_string(), "3..=6");
    /// ```
    ///
    /// # Panics
    ///
    /// Panics if an allocation fails. [`try_retain_runs`](Self::try_retain_runs) returns an error
    /// instead.
    #[track_caller]
    pub fn retain_runs(&mut self, keep: impl FnMut(&RangeInclusive<T>) -> bool)
    where
        T: Element,
    {
        allocated(self.try_retain_runs(keep));
    }

    /// Removes the runs for which a function returns false. It is called once for each run, in
    /// ascending order, until an allocation fails. If it panics, the set is unchanged.
    ///
    /// ```
    /// # use range_set::RangeSet;
    /// let mut set = RangeSet::from_iter([1..=1, 3..=6]);
    /// assert_eq!(set.try_retain_runs(|run| run.contains(&1)), Ok(()));
    /// assert_eq!(set.to_string(), "1..=1");
    /// ```
    pub fn try_retain_runs(
        &mut self,
        mut keep: impl FnMut(&RangeInclusive<T>) -> bool,
    ) -> Result<(), AllocError>
    where
        T: Element,
    {
        *self = Self::try_from_runs(self.runs().filter(|run| keep(run)))?;
        Ok(())
    }
}

/// Ranges on their way into a set. Each is first joined to the one before it, if it touches that,
/// so ascending values take one call of the library for each run.
pub struct Joining<'a, T: Element> {
    set: &'a mut RangeSet<T>,
    /// The last range, which the set does not have yet.
    last: Option<Span<T::Rank>>,
}

impl<'a, T: Element> Joining<'a, T> {
    pub fn new(set: &'a mut RangeSet<T>) -> Self {
        Joining { set, last: None }
    }

    /// Adds the values of ranks, if there are any.
    pub fn add(&mut self, span: Option<Span<T::Rank>>) -> Result<(), AllocError> {
        let Some(span) = span else {
            return Ok(());
        };
        if self.last.as_mut().is_some_and(|last| last.join(span)) {
            return Ok(());
        }
        let last = self.last.replace(span);
        self.insert(last)
    }

    /// Adds the last range.
    pub fn finish(mut self) -> Result<(), AllocError> {
        let last = self.last.take();
        self.insert(last)
    }

    fn insert(&mut self, span: Option<Span<T::Rank>>) -> Result<(), AllocError> {
        if let Some(span) = span {
            self.set.try_insert_span(span)?;
        }
        Ok(())
    }
}
