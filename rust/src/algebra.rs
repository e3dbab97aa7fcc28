//! Calls that combine two sets, and that change one by another.

use core::ptr;

use crate::calls::Handle;
use crate::span::Span;
use crate::width::Number;
use crate::{allocated, changed, AllocError, Element, RangeSet};

/// Calls that change a set.
impl<T> RangeSet<T> {
    /// Adds all members of another set and returns whether one of them was new.
    ///
    /// ```
    /// # use range_set::RangeSet;
    /// let mut set = RangeSet::from(1..=3);
    /// assert!(set.union_with(&RangeSet::from(3..=5)));
    /// assert_eq!(set.to_string(), "1..=5");
    /// ```
    ///
    /// # Panics
    ///
    /// Panics if an allocation fails. [`try_union_with`](Self::try_union_with) returns an error
    /// instead.
    #[track_caller]
    pub fn union_with(&mut self, other: &Self) -> bool
    where
        T: Element,
    {
        allocated(self.try_union_with(other))
    }

    /// Adds all members of another set and returns whether one of them was new. Does not allocate
    /// if none was.
    ///
    /// ```
    /// # use range_set::RangeSet;
    /// let mut set = RangeSet::from(1..=3);
    /// assert_eq!(set.try_union_with(&RangeSet::from(3..=5)), Ok(true));
    /// ```
    pub fn try_union_with(&mut self, other: &Self) -> Result<bool, AllocError>
    where
        T: Element,
    {
        changed((Self::CALLS.union_with)(&mut self.handle, &other.handle))
    }

    /// Removes the members that another set does not have, and returns whether there were any.
    ///
    /// ```
    /// # use range_set::RangeSet;
    /// let mut set = RangeSet::from(1..=3);
    /// assert!(set.intersect_with(&RangeSet::from(3..=5)));
    /// assert_eq!(set.to_string(), "3..=3");
    /// ```
    ///
    /// # Panics
    ///
    /// Panics if an allocation fails. [`try_intersect_with`](Self::try_intersect_with) returns an error
    /// instead.
    #[track_caller]
    pub fn intersect_with(&mut self, other: &Self) -> bool
    where
        T: Element,
    {
        allocated(self.try_intersect_with(other))
    }

    /// Removes the members that another set does not have, and returns whether there were any. Does
    /// not allocate if there were none, or if the other set is empty.
    ///
    /// ```
    /// # use range_set::RangeSet;
    /// let mut set = RangeSet::from(1..=3);
    /// assert_eq!(set.try_intersect_with(&RangeSet::from(3..=5)), Ok(true));
    /// ```
    pub fn try_intersect_with(&mut self, other: &Self) -> Result<bool, AllocError>
    where
        T: Element,
    {
        changed((Self::CALLS.intersect_with)(
            &mut self.handle,
            &other.handle,
        ))
    }

    /// Removes all members of another set, and returns whether one of them was a member.
    ///
    /// ```
    /// # use range_set::RangeSet;
    /// let mut set = RangeSet::from(1..=3);
    /// assert!(set.subtract(&RangeSet::from(3..=5)));
    /// assert_eq!(set.to_string(), "1..=2");
    /// ```
    ///
    /// # Panics
    ///
    /// Panics if an allocation fails. [`try_subtract`](Self::try_subtract) returns an error
    /// instead.
    #[track_caller]
    pub fn subtract(&mut self, other: &Self) -> bool
    where
        T: Element,
    {
        allocated(self.try_subtract(other))
    }

    /// Removes all members of another set, and returns whether one of them was a member. Does not
    /// allocate if none was.
    ///
    /// ```
    /// # use range_set::RangeSet;
    /// let mut set = RangeSet::from(1..=3);
    /// assert_eq!(set.try_subtract(&RangeSet::from(3..=5)), Ok(true));
    /// ```
    pub fn try_subtract(&mut self, other: &Self) -> Result<bool, AllocError>
    where
        T: Element,
    {
        changed((Self::CALLS.subtract)(&mut self.handle, &other.handle))
    }

    /// Removes the members that another set has too, and adds the members that only the other set
    /// has. Returns whether the other set has any member.
    ///
    /// ```
    /// # use range_set::RangeSet;
    /// let mut set = RangeSet::from(1..=3);
    /// assert!(set.xor_with(&RangeSet::from(3..=5)));
    /// assert_eq!(set.to_string(), "1..=2, 4..=5");
    /// ```
    ///
    /// # Panics
    ///
    /// Panics if an allocation fails. [`try_xor_with`](Self::try_xor_with) returns an error
    /// instead.
    #[track_caller]
    pub fn xor_with(&mut self, other: &Self) -> bool
    where
        T: Element,
    {
        allocated(self.try_xor_with(other))
    }

    /// Removes the members that another set has too, and adds the members that only the other set
    /// has. Returns whether the other set has any member, and does not allocate if it has none.
    ///
    /// ```
    /// # use range_set::RangeSet;
    /// let mut set = RangeSet::from(1..=3);
    /// assert_eq!(set.try_xor_with(&RangeSet::from(3..=5)), Ok(true));
    /// ```
    pub fn try_xor_with(&mut self, other: &Self) -> Result<bool, AllocError>
    where
        T: Element,
    {
        changed((Self::CALLS.xor_with)(&mut self.handle, &other.handle))
    }
}

/// Calls that return a new set.
impl<T> RangeSet<T> {
    /// Returns the values that are in at least one of two sets, as `&a | &b` does.
    ///
    /// ```
    /// # use range_set::RangeSet;
    /// let (a, b) = (RangeSet::from(1..=3), RangeSet::from(3..=5));
    /// assert_eq!(a.union(&b).to_string(), "1..=5");
    /// ```
    ///
    /// # Panics
    ///
    /// Panics if an allocation fails. [`try_union`](Self::try_union) returns an error instead.
    #[must_use]
    #[track_caller]
    pub fn union(&self, other: &Self) -> Self
    where
        T: Element,
    {
        allocated(self.try_union(other))
    }

    /// Returns the values that are in at least one of two sets.
    ///
    /// ```
    /// # use range_set::RangeSet;
    /// let (a, b) = (RangeSet::from(1..=3), RangeSet::from(3..=5));
    /// assert_eq!(a.try_union(&b)?.to_string(), "1..=5");
    /// # Ok::<(), range_set::AllocError>(())
    /// ```
    pub fn try_union(&self, other: &Self) -> Result<Self, AllocError>
    where
        T: Element,
    {
        if self.is_same(other) {
            return self.try_clone();
        }
        // SAFETY: the handles are of three sets.
        Self::built(|out| unsafe { (Self::CALLS.union)(out, &self.handle, &other.handle) })
    }

    /// Returns the values that are in both sets, as `&a & &b` does.
    ///
    /// ```
    /// # use range_set::RangeSet;
    /// let (a, b) = (RangeSet::from(1..=3), RangeSet::from(3..=5));
    /// assert_eq!(a.intersection(&b).to_string(), "3..=3");
    /// ```
    ///
    /// # Panics
    ///
    /// Panics if an allocation fails. [`try_intersection`](Self::try_intersection) returns an error
    /// instead.
    #[must_use]
    #[track_caller]
    pub fn intersection(&self, other: &Self) -> Self
    where
        T: Element,
    {
        allocated(self.try_intersection(other))
    }

    /// Returns the values that are in both sets.
    ///
    /// ```
    /// # use range_set::RangeSet;
    /// let (a, b) = (RangeSet::from(1..=3), RangeSet::from(3..=5));
    /// assert_eq!(a.try_intersection(&b)?.to_string(), "3..=3");
    /// # Ok::<(), range_set::AllocError>(())
    /// ```
    pub fn try_intersection(&self, other: &Self) -> Result<Self, AllocError>
    where
        T: Element,
    {
        if self.is_same(other) {
            return self.try_clone();
        }
        // SAFETY: the handles are of three sets.
        Self::built(|out| unsafe { (Self::CALLS.intersection)(out, &self.handle, &other.handle) })
    }

    /// Returns the members that the other set does not have, as `&a - &b` does.
    ///
    /// ```
    /// # use range_set::RangeSet;
    /// let (a, b) = (RangeSet::from(1..=3), RangeSet::from(3..=5));
    /// assert_eq!(a.difference(&b).to_string(), "1..=2");
    /// ```
    ///
    /// # Panics
    ///
    /// Panics if an allocation fails. [`try_difference`](Self::try_difference) returns an error
    /// instead.
    #[must_use]
    #[track_caller]
    pub fn difference(&self, other: &Self) -> Self
    where
        T: Element,
    {
        allocated(self.try_difference(other))
    }

    /// Returns the members that the other set does not have.
    ///
    /// ```
    /// # use range_set::RangeSet;
    /// let (a, b) = (RangeSet::from(1..=3), RangeSet::from(3..=5));
    /// assert_eq!(a.try_difference(&b)?.to_string(), "1..=2");
    /// # Ok::<(), range_set::AllocError>(())
    /// ```
    pub fn try_difference(&self, other: &Self) -> Result<Self, AllocError>
    where
        T: Element,
    {
        if self.is_same(other) {
            return Ok(Self::new());
        }
        // SAFETY: the handles are of three sets.
        Self::built(|out| unsafe { (Self::CALLS.difference)(out, &self.handle, &other.handle) })
    }

    /// Returns the values that are in exactly one of two sets, as `&a ^ &b` does.
    ///
    /// ```
    /// # use range_set::RangeSet;
    /// let (a, b) = (RangeSet::from(1..=3), RangeSet::from(3..=5));
    /// assert_eq!(a.symmetric_difference(&b).to_string(), "1..=2, 4..=5");
    /// ```
    ///
    /// # Panics
    ///
    /// Panics if an allocation fails. [`try_symmetric_difference`](Self::try_symmetric_difference) returns an error
    /// instead.
    #[must_use]
    #[track_caller]
    pub fn symmetric_difference(&self, other: &Self) -> Self
    where
        T: Element,
    {
        allocated(self.try_symmetric_difference(other))
    }

    /// Returns the values that are in exactly one of two sets.
    ///
    /// ```
    /// # use range_set::RangeSet;
    /// let (a, b) = (RangeSet::from(1..=3), RangeSet::from(3..=5));
    /// assert_eq!(a.try_symmetric_difference(&b)?.to_string(), "1..=2, 4..=5");
    /// # Ok::<(), range_set::AllocError>(())
    /// ```
    pub fn try_symmetric_difference(&self, other: &Self) -> Result<Self, AllocError>
    where
        T: Element,
    {
        if self.is_same(other) {
            return Ok(Self::new());
        }
        // SAFETY: the handles are of three sets.
        Self::built(|out| unsafe {
            (Self::CALLS.symmetric_difference)(out, &self.handle, &other.handle)
        })
    }

    /// Returns the values of the type that are not members, as `!&a` does.
    ///
    /// ```
    /// # use range_set::RangeSet;
    /// assert_eq!(RangeSet::<u8>::from(5..=9).complement().to_string(), "0..=4, 10..=255");
    /// ```
    ///
    /// # Panics
    ///
    /// Panics if an allocation fails. [`try_complement`](Self::try_complement) returns an error
    /// instead.
    #[must_use]
    #[track_caller]
    pub fn complement(&self) -> Self
    where
        T: Element,
    {
        allocated(self.try_complement())
    }

    /// Returns the values of the type that are not members.
    ///
    /// ```
    /// # use range_set::RangeSet;
    /// let others = RangeSet::<i8>::from(0..=127).try_complement()?;
    /// assert_eq!(others.to_string(), "-128..=-1");
    /// # Ok::<(), range_set::AllocError>(())
    /// ```
    pub fn try_complement(&self) -> Result<Self, AllocError>
    where
        T: Element,
    {
        let has_all_ranks = Span {
            first: T::Rank::LEAST,
            last: T::Rank::GREATEST,
        };
        if Span::of_type::<T>() == Some(has_all_ranks) {
            return Self::built(|out| (Self::CALLS.complement)(out, &self.handle));
        }
        Self::try_universe()?.try_difference(self)
    }

    /// Returns a copy. `clone` is the same, but panics if an allocation fails.
    ///
    /// ```
    /// # use range_set::RangeSet;
    /// let set = RangeSet::from(1..=3);
    /// assert_eq!(set.try_clone(), Ok(set));
    /// ```
    pub fn try_clone(&self) -> Result<Self, AllocError>
    where
        T: Element,
    {
        Self::built(|out| (Self::CALLS.clone)(out, &self.handle))
    }

    /// Returns the set that a call makes.
    pub(crate) fn built(call: impl FnOnce(&mut Handle) -> u32) -> Result<Self, AllocError>
    where
        T: Element,
    {
        let mut out = Self::new();
        changed(call(&mut out.handle))?;
        Ok(out)
    }
}

/// Calls that compare two sets.
impl<T> RangeSet<T> {
    /// Returns whether each member is a member of another set.
    ///
    /// ```
    /// # use range_set::RangeSet;
    /// assert!(RangeSet::from(2..=3).is_subset(&RangeSet::from(1..=5)));
    /// ```
    #[must_use]
    pub fn is_subset(&self, other: &Self) -> bool
    where
        T: Element,
    {
        // SAFETY: the handles are of two sets.
        self.is_same(other) || unsafe { (Self::CALLS.is_subset)(&self.handle, &other.handle) }
    }

    /// Returns whether each member of another set is a member.
    ///
    /// ```
    /// # use range_set::RangeSet;
    /// assert!(RangeSet::from(1..=5).is_superset(&RangeSet::from(2..=3)));
    /// ```
    #[must_use]
    pub fn is_superset(&self, other: &Self) -> bool
    where
        T: Element,
    {
        other.is_subset(self)
    }

    /// Returns whether no value is a member of both sets.
    ///
    /// ```
    /// # use range_set::RangeSet;
    /// assert!(RangeSet::from(1..=5).is_disjoint(&RangeSet::from(6..=7)));
    /// ```
    #[must_use]
    pub fn is_disjoint(&self, other: &Self) -> bool
    where
        T: Element,
    {
        if self.is_same(other) {
            return self.is_empty();
        }
        // SAFETY: the handles are of two sets.
        unsafe { (Self::CALLS.is_disjoint)(&self.handle, &other.handle) }
    }

    /// Returns whether both references are to one set. The library's exports do not take the same
    /// set twice.
    pub(crate) fn is_same(&self, other: &Self) -> bool
    where
        T: Element,
    {
        ptr::eq(self, other)
    }
}
