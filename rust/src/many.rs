//! Calls that combine any number of sets.

use core::borrow::Borrow;
use core::marker::PhantomData;

use crate::calls::List;
use crate::{allocated, changed, AllocError, Element, RangeSet};

/// Copies of sets, in a list of the C library.
struct Copies<T: Element> {
    list: List,
    count: usize,
    values: PhantomData<T>,
}

impl<T: Element> Copies<T> {
    fn of(sets: impl IntoIterator<Item: Borrow<RangeSet<T>>>) -> Result<Self, AllocError> {
        let mut copies = Copies {
            list: List::empty(),
            count: 0,
            values: PhantomData,
        };
        for set in sets {
            let handle = &set.borrow().handle;
            changed((RangeSet::<T>::CALLS.sets_add)(&mut copies.list, handle))?;
            copies.count += 1;
        }
        Ok(copies)
    }

    fn union(&self) -> Result<RangeSet<T>, AllocError> {
        RangeSet::built(|out| (RangeSet::<T>::CALLS.sets_union)(out, &self.list))
    }

    /// Returns the intersection. That of no sets has all values of the type, and no other ranks.
    fn intersection(&self) -> Result<RangeSet<T>, AllocError> {
        if self.count == 0 {
            return RangeSet::try_universe();
        }
        RangeSet::built(|out| (RangeSet::<T>::CALLS.sets_intersection)(out, &self.list))
    }

    fn symmetric_difference(&self) -> Result<RangeSet<T>, AllocError> {
        let call = RangeSet::<T>::CALLS.sets_symmetric_difference;
        RangeSet::built(|out| call(out, &self.list))
    }

    /// Returns the values that are in at least `k` of the sets. If `k` is 0, these are all values
    /// of the type, and no other ranks.
    fn at_least(&self, k: usize) -> Result<RangeSet<T>, AllocError> {
        if k == 0 {
            return RangeSet::try_universe();
        }
        RangeSet::built(|out| (RangeSet::<T>::CALLS.sets_at_least)(out, &self.list, k))
    }
}

impl<T: Element> Drop for Copies<T> {
    fn drop(&mut self) {
        (RangeSet::<T>::CALLS.sets_free)(&mut self.list);
    }
}

impl<T> RangeSet<T> {
    /// Returns the values that are in at least one of the sets.
    ///
    /// ```
    /// # use range_set::RangeSet;
    /// let (a, b, c) = (RangeSet::from(1..=5), RangeSet::from(4..=9), RangeSet::from([5, 9, 10, 11, 12]));
    /// assert_eq!(RangeSet::union_of([&a, &b, &c]).to_string(), "1..=12");
    /// ```
    ///
    /// # Panics
    ///
    /// Panics if an allocation fails. [`try_union_of`](Self::try_union_of) returns an
    /// error instead.
    #[must_use]
    #[track_caller]
    pub fn union_of<'a>(sets: impl IntoIterator<Item = &'a Self>) -> Self
    where
        T: Element + 'a,
    {
        allocated(Self::try_union_of(sets))
    }

    /// Returns the values that are in at least one of the sets.
    ///
    /// ```
    /// # use range_set::RangeSet;
    /// let (a, b, c) = (RangeSet::from(1..=5), RangeSet::from(4..=9), RangeSet::from([5, 9, 10, 11, 12]));
    /// assert_eq!(RangeSet::try_union_of([&a, &b, &c])?.to_string(), "1..=12");
    /// # Ok::<(), range_set::AllocError>(())
    /// ```
    pub fn try_union_of<'a>(sets: impl IntoIterator<Item = &'a Self>) -> Result<Self, AllocError>
    where
        T: Element + 'a,
    {
        Copies::of(sets)?.union()
    }

    /// Returns the values that are in all of the sets. If there are no sets, it returns every value.
    ///
    /// ```
    /// # use range_set::RangeSet;
    /// let (a, b, c) = (RangeSet::from(1..=5), RangeSet::from(4..=9), RangeSet::from([5, 9, 10, 11, 12]));
    /// assert_eq!(RangeSet::intersection_of([&a, &b, &c]).to_string(), "5..=5");
    /// ```
    ///
    /// # Panics
    ///
    /// Panics if an allocation fails. [`try_intersection_of`](Self::try_intersection_of) returns an
    /// error instead.
    #[must_use]
    #[track_caller]
    pub fn intersection_of<'a>(sets: impl IntoIterator<Item = &'a Self>) -> Self
    where
        T: Element + 'a,
    {
        allocated(Self::try_intersection_of(sets))
    }

    /// Returns the values that are in all of the sets. If there are no sets, it returns every value.
    ///
    /// ```
    /// # use range_set::RangeSet;
    /// let (a, b, c) = (RangeSet::from(1..=5), RangeSet::from(4..=9), RangeSet::from([5, 9, 10, 11, 12]));
    /// assert_eq!(RangeSet::try_intersection_of([&a, &b, &c])?.to_string(), "5..=5");
    /// # Ok::<(), range_set::AllocError>(())
    /// ```
    pub fn try_intersection_of<'a>(
        sets: impl IntoIterator<Item = &'a Self>,
    ) -> Result<Self, AllocError>
    where
        T: Element + 'a,
    {
        Copies::of(sets)?.intersection()
    }

    /// Returns the values that are in an odd number of the sets.
    ///
    /// ```
    /// # use range_set::RangeSet;
    /// let (a, b, c) = (RangeSet::from(1..=5), RangeSet::from(4..=9), RangeSet::from([5, 9, 10, 11, 12]));
    /// assert_eq!(RangeSet::symmetric_difference_of([&a, &b, &c]).to_string(), "1..=3, 5..=8, 10..=12");
    /// ```
    ///
    /// # Panics
    ///
    /// Panics if an allocation fails.
    /// [`try_symmetric_difference_of`](Self::try_symmetric_difference_of) returns an error instead.
    #[must_use]
    #[track_caller]
    pub fn symmetric_difference_of<'a>(sets: impl IntoIterator<Item = &'a Self>) -> Self
    where
        T: Element + 'a,
    {
        allocated(Self::try_symmetric_difference_of(sets))
    }

    /// Returns the values that are in an odd number of the sets.
    ///
    /// ```
    /// # use range_set::RangeSet;
    /// let (a, b, c) = (RangeSet::from(1..=5), RangeSet::from(4..=9), RangeSet::from([5, 9, 10, 11, 12]));
    /// assert_eq!(RangeSet::try_symmetric_difference_of([&a, &b, &c])?.to_string(), "1..=3, 5..=8, 10..=12");
    /// # Ok::<(), range_set::AllocError>(())
    /// ```
    pub fn try_symmetric_difference_of<'a>(
        sets: impl IntoIterator<Item = &'a Self>,
    ) -> Result<Self, AllocError>
    where
        T: Element + 'a,
    {
        Copies::of(sets)?.symmetric_difference()
    }

    /// Returns the values that are in at least `k` of the sets: every value if `k` is 0. A set that
    /// comes twice counts twice.
    ///
    /// ```
    /// # use range_set::RangeSet;
    /// let (a, b, c) = (RangeSet::from(1..=5), RangeSet::from(4..=9), RangeSet::from([5, 9, 10, 11, 12]));
    /// assert_eq!(RangeSet::at_least(2, [&a, &b, &c]).to_string(), "4..=5, 9..=9");
    /// ```
    ///
    /// # Panics
    ///
    /// Panics if an allocation fails. [`try_at_least`](Self::try_at_least) returns an error instead.
    #[must_use]
    #[track_caller]
    pub fn at_least<'a>(k: usize, sets: impl IntoIterator<Item = &'a Self>) -> Self
    where
        T: Element + 'a,
    {
        allocated(Self::try_at_least(k, sets))
    }

    /// Returns the values that are in at least `k` of the sets: every value if `k` is 0. A set that
    /// comes twice counts twice.
    ///
    /// ```
    /// # use range_set::RangeSet;
    /// let (a, b, c) = (RangeSet::from(1..=5), RangeSet::from(4..=9), RangeSet::from([5, 9, 10, 11, 12]));
    /// assert_eq!(RangeSet::try_at_least(3, [&a, &b, &c])?.to_string(), "5..=5");
    /// # Ok::<(), range_set::AllocError>(())
    /// ```
    pub fn try_at_least<'a>(
        k: usize,
        sets: impl IntoIterator<Item = &'a Self>,
    ) -> Result<Self, AllocError>
    where
        T: Element + 'a,
    {
        Copies::of(sets)?.at_least(k)
    }
}

/// Combines any number of sets, as a method of an array, a `Vec` or an iterator of sets or of
/// references to sets.
///
/// ```
/// use range_set::{Multiway, RangeSet};
///
/// let sets = [1..=5, 4..=9, 8..=12].map(RangeSet::<u8>::from);
/// assert_eq!(sets.iter().union().to_string(), "1..=12");
/// assert_eq!([&sets[0], &sets[1]].intersection().to_string(), "4..=5");
/// assert_eq!(sets.symmetric_difference().to_string(), "1..=3, 6..=7, 10..=12");
/// ```
///
/// Each call panics if an allocation fails. [`RangeSet::try_union_of`] and its like return an error
/// instead.
pub trait Multiway<T: Element>: IntoIterator<Item: Borrow<RangeSet<T>>> + Sized {
    /// Returns the values that are in at least one of the sets.
    ///
    /// ```
    /// use range_set::{Multiway, RangeSet};
    ///
    /// let sets = vec![RangeSet::from(1..=5), RangeSet::from(4..=9)];
    /// assert_eq!(sets.union().to_string(), "1..=9");
    /// ```
    #[must_use]
    #[track_caller]
    fn union(self) -> RangeSet<T> {
        allocated(Copies::of(self).and_then(|copies| copies.union()))
    }

    /// Returns the values that are in all of the sets. If there are no sets, it returns every value.
    ///
    /// ```
    /// use range_set::{Multiway, RangeSet};
    ///
    /// let sets = vec![RangeSet::from(1..=5), RangeSet::from(4..=9)];
    /// assert_eq!(sets.intersection().to_string(), "4..=5");
    /// ```
    #[must_use]
    #[track_caller]
    fn intersection(self) -> RangeSet<T> {
        allocated(Copies::of(self).and_then(|copies| copies.intersection()))
    }

    /// Returns the values that are in an odd number of the sets.
    ///
    /// ```
    /// use range_set::{Multiway, RangeSet};
    ///
    /// let sets = vec![RangeSet::from(1..=5), RangeSet::from(4..=9)];
    /// assert_eq!(sets.symmetric_difference().to_string(), "1..=3, 6..=9");
    /// ```
    #[must_use]
    #[track_caller]
    fn symmetric_difference(self) -> RangeSet<T> {
        allocated(Copies::of(self).and_then(|copies| copies.symmetric_difference()))
    }

    /// Returns the values that are in at least `k` of the sets: every value if `k` is 0.
    ///
    /// ```
    /// use range_set::{Multiway, RangeSet};
    ///
    /// let sets = [1..=5, 4..=9, 8..=12].map(RangeSet::<u8>::from);
    /// assert_eq!(sets.at_least(2).to_string(), "4..=5, 8..=9");
    /// ```
    #[must_use]
    #[track_caller]
    fn at_least(self, k: usize) -> RangeSet<T> {
        allocated(Copies::of(self).and_then(|copies| copies.at_least(k)))
    }
}

impl<T: Element, I: IntoIterator<Item: Borrow<RangeSet<T>>>> Multiway<T> for I {}
