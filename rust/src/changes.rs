//! Calls that add values to a set, or remove them.

use core::ops::RangeBounds;

use crate::span::{span_of, Span};
use crate::{allocated, changed, AllocError, Element, RangeSet};

impl<T> RangeSet<T> {
    /// Adds a value and returns whether it was new.
    ///
    /// ```
    /// # use range_set::RangeSet;
    /// let mut set = RangeSet::new();
    /// assert!(set.insert('a') && !set.insert('a'));
    /// ```
    ///
    /// # Panics
    ///
    /// Panics if an allocation fails. [`try_insert`](Self::try_insert) returns an error instead.
    #[track_caller]
    pub fn insert(&mut self, value: T) -> bool
    where
        T: Element,
    {
        allocated(self.try_insert(value))
    }

    /// Adds a value and returns whether it was new. Does not allocate if it was not.
    ///
    /// ```
    /// # use range_set::RangeSet;
    /// let mut set = RangeSet::new();
    /// assert_eq!(set.try_insert(-5), Ok(true));
    /// ```
    pub fn try_insert(&mut self, value: T) -> Result<bool, AllocError>
    where
        T: Element,
    {
        changed((Self::CALLS.insert)(&mut self.handle, value.rank().into()))
    }

    /// Adds the values of a range and returns whether one of them was new.
    ///
    /// ```
    /// # use range_set::RangeSet;
    /// let mut set = RangeSet::<u64>::new();
    /// assert!(set.insert_range(3..=5));
    /// assert!(set.insert_range(..3)); // the two ranges touch, and are one run
    /// assert!(!set.insert_range(2..=4));
    /// assert_eq!(set.to_string(), "0..=5");
    /// ```
    ///
    /// # Panics
    ///
    /// Panics if an allocation fails. [`try_insert_range`](Self::try_insert_range) returns an error
    /// instead.
    #[track_caller]
    pub fn insert_range(&mut self, range: impl RangeBounds<T>) -> bool
    where
        T: Element,
    {
        allocated(self.try_insert_range(range))
    }

    /// Adds the values of a range and returns whether one of them was new. A range may have no
    /// value.
    ///
    /// Does not allocate if none is new, or if the first value or the one before it is a member.
    ///
    /// ```
    /// # use range_set::RangeSet;
    /// let mut set = RangeSet::<u8>::new();
    /// assert_eq!(set.try_insert_range(250..), Ok(true));
    /// assert_eq!(set.try_insert_range(7..7), Ok(false));
    /// assert_eq!(set.to_string(), "250..=255");
    /// ```
    pub fn try_insert_range(&mut self, range: impl RangeBounds<T>) -> Result<bool, AllocError>
    where
        T: Element,
    {
        span_of(range).map_or(Ok(false), |span| self.try_insert_span(span))
    }

    /// Adds the values of ranks and returns whether one of them was new.
    pub(crate) fn try_insert_span(&mut self, span: Span<T::Rank>) -> Result<bool, AllocError>
    where
        T: Element,
    {
        let (first, last) = (span.first.into(), span.last.into());
        changed((Self::CALLS.insert_range)(&mut self.handle, first, last))
    }

    /// Removes a value and returns whether it was a member.
    ///
    /// ```
    /// # use range_set::RangeSet;
    /// let mut set = RangeSet::from(1..=5);
    /// assert!(set.remove(3) && !set.remove(3));
    /// assert_eq!(set.to_string(), "1..=2, 4..=5");
    /// ```
    ///
    /// # Panics
    ///
    /// Panics if an allocation fails. [`try_remove`](Self::try_remove) returns an error instead.
    #[track_caller]
    pub fn remove(&mut self, value: T) -> bool
    where
        T: Element,
    {
        allocated(self.try_remove(value))
    }

    /// Removes a value and returns whether it was a member. This allocates only if it splits a run.
    ///
    /// ```
    /// # use range_set::RangeSet;
    /// let mut set = RangeSet::from([1, 2]);
    /// assert_eq!((set.try_remove(2), set.try_remove(2)), (Ok(true), Ok(false)));
    /// ```
    pub fn try_remove(&mut self, value: T) -> Result<bool, AllocError>
    where
        T: Element,
    {
        changed((Self::CALLS.remove)(&mut self.handle, value.rank().into()))
    }

    /// Removes the values of a range and returns whether one of them was a member.
    ///
    /// ```
    /// # use range_set::RangeSet;
    /// let mut set = RangeSet::from(1..=9);
    /// assert!(set.remove_range(3..5));
    /// assert_eq!(set.to_string(), "1..=2, 5..=9");
    /// ```
    ///
    /// # Panics
    ///
    /// Panics if an allocation fails. [`try_remove_range`](Self::try_remove_range) returns an error
    /// instead.
    #[track_caller]
    pub fn remove_range(&mut self, range: impl RangeBounds<T>) -> bool
    where
        T: Element,
    {
        allocated(self.try_remove_range(range))
    }

    /// Removes the values of a range and returns whether one of them was a member.
    ///
    /// Does not allocate if none was a member, or if the value after the range is not a member.
    ///
    /// ```
    /// # use range_set::RangeSet;
    /// let mut set = RangeSet::from(1..=9);
    /// assert_eq!(set.try_remove_range(7..), Ok(true));
    /// ```
    pub fn try_remove_range(&mut self, range: impl RangeBounds<T>) -> Result<bool, AllocError>
    where
        T: Element,
    {
        let Some(span) = span_of(range) else {
            return Ok(false);
        };
        let (first, last) = (span.first.into(), span.last.into());
        changed((Self::CALLS.remove_range)(&mut self.handle, first, last))
    }

    /// Removes all members, but keeps a block of memory for later ones.
    ///
    /// ```
    /// # use range_set::RangeSet;
    /// let mut set = RangeSet::from(1..=9);
    /// set.clear();
    /// assert!(set.is_empty());
    /// ```
    pub fn clear(&mut self)
    where
        T: Element,
    {
        (Self::CALLS.clear)(&mut self.handle);
    }

    /// Removes the least member and returns it.
    ///
    /// ```
    /// # use range_set::RangeSet;
    /// let mut set = RangeSet::from([5, -3]);
    /// assert_eq!((set.pop_first(), set.pop_first(), set.pop_first()), (Some(-3), Some(5), None));
    /// ```
    ///
    /// # Panics
    ///
    /// Panics if an allocation fails. [`try_pop_first`](Self::try_pop_first) returns an error
    /// instead.
    #[track_caller]
    pub fn pop_first(&mut self) -> Option<T>
    where
        T: Element,
    {
        allocated(self.try_pop_first())
    }

    /// Removes the least member and returns it.
    ///
    /// ```
    /// # use range_set::RangeSet;
    /// assert_eq!(RangeSet::from(7..=9).try_pop_first(), Ok(Some(7)));
    /// ```
    pub fn try_pop_first(&mut self) -> Result<Option<T>, AllocError>
    where
        T: Element,
    {
        let first = self.first();
        if let Some(value) = first {
            self.try_remove(value)?;
        }
        Ok(first)
    }

    /// Removes the greatest member and returns it.
    ///
    /// ```
    /// # use range_set::RangeSet;
    /// let mut set = RangeSet::from('a'..='e');
    /// assert_eq!((set.pop_last(), set.pop_last()), (Some('e'), Some('d')));
    /// ```
    ///
    /// # Panics
    ///
    /// Panics if an allocation fails. [`try_pop_last`](Self::try_pop_last) returns an error
    /// instead.
    #[track_caller]
    pub fn pop_last(&mut self) -> Option<T>
    where
        T: Element,
    {
        allocated(self.try_pop_last())
    }

    /// Removes the greatest member and returns it.
    ///
    /// ```
    /// # use range_set::RangeSet;
    /// assert_eq!(RangeSet::from(7..=9).try_pop_last(), Ok(Some(9)));
    /// ```
    pub fn try_pop_last(&mut self) -> Result<Option<T>, AllocError>
    where
        T: Element,
    {
        let last = self.last();
        if let Some(value) = last {
            self.try_remove(value)?;
        }
        Ok(last)
    }

    /// Removes the members from `value` on, and returns the set of them.
    ///
    /// ```
    /// # use range_set::RangeSet;
    /// let mut low = RangeSet::from_iter([1..=4, 8..=13]);
    /// let high = low.split_off(10);
    /// assert_eq!((low.to_string(), high.to_string()), ("1..=4, 8..=9".into(), "10..=13".into()));
    /// ```
    ///
    /// # Panics
    ///
    /// Panics if an allocation fails. [`try_split_off`](Self::try_split_off) returns an error
    /// instead.
    #[must_use = "the members from `value` on are dropped otherwise; `remove_range` does that"]
    #[track_caller]
    pub fn split_off(&mut self, value: T) -> Self
    where
        T: Element,
    {
        allocated(self.try_split_off(value))
    }

    /// Removes the members from `value` on, and returns the set of them.
    ///
    /// ```
    /// # use range_set::RangeSet;
    /// let mut low = RangeSet::from(1..=9);
    /// assert_eq!(low.try_split_off(4), Ok(RangeSet::from(4..=9)));
    /// ```
    pub fn try_split_off(&mut self, value: T) -> Result<Self, AllocError>
    where
        T: Element,
    {
        let mut high = Self::new();
        high.try_insert_range(value..)?;
        high.try_intersect_with(self)?;
        self.try_remove_range(value..)?;
        Ok(high)
    }

    /// Moves all members of another set to this one. The other set is then empty.
    ///
    /// ```
    /// # use range_set::RangeSet;
    /// let (mut all, mut more) = (RangeSet::from(1..=4), RangeSet::from(5..=9));
    /// all.append(&mut more);
    /// assert!(all.to_string() == "1..=9" && more.is_empty());
    /// ```
    ///
    /// # Panics
    ///
    /// Panics if an allocation fails. [`try_append`](Self::try_append) returns an error instead.
    #[track_caller]
    pub fn append(&mut self, other: &mut Self)
    where
        T: Element,
    {
        allocated(self.try_append(other));
    }

    /// Moves all members of another set to this one. The other set is then empty.
    ///
    /// ```
    /// # use range_set::RangeSet;
    /// let (mut all, mut more) = (RangeSet::from(1..=4), RangeSet::from(5..=9));
    /// assert_eq!(all.try_append(&mut more), Ok(()));
    /// ```
    pub fn try_append(&mut self, other: &mut Self) -> Result<(), AllocError>
    where
        T: Element,
    {
        if self.is_empty() {
            core::mem::swap(self, other);
            return Ok(());
        }
        self.try_union_with(other)?;
        other.clear();
        Ok(())
    }
}
