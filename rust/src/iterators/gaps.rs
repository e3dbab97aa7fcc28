//! The iterator over gaps.

use core::iter::FusedIterator;
use core::ops::RangeInclusive;

use crate::span::Span;
use crate::width::Number;
use crate::{Element, RangeSet};

impl<T> RangeSet<T> {
    /// Iterates over the gaps, from both ends.
    ///
    /// ```
    /// let set = range_set::RangeSet::<u8>::from_iter([0..=3, 7..=8]);
    /// assert!(set.gaps().eq([4..=6, 9..=255]));
    /// assert_eq!(set.gaps().next_back(), Some(9..=255));
    /// ```
    pub fn gaps(&self) -> Gaps<'_, T>
    where
        T: Element,
    {
        let at_ends = usize::from(self.contains(T::MIN)) + usize::from(self.contains(T::MAX));
        Gaps {
            set: self,
            left: Span::of_type::<T>(),
            count: (self.run_count() + 1).saturating_sub(at_ends),
        }
    }
}

/// Iterates over the gaps of a set, from both ends. [`RangeSet::gaps`] makes it.
#[must_use]
#[derive(Clone, Debug)]
pub struct Gaps<'a, T: Element> {
    set: &'a RangeSet<T>,
    /// The ranks that no end has reached.
    left: Option<Span<T::Rank>>,
    /// The number of gaps that are left.
    count: usize,
}

impl<T: Element> Iterator for Gaps<'_, T> {
    type Item = RangeInclusive<T>;

    fn next(&mut self) -> Option<RangeInclusive<T>> {
        let left = self.left.take()?;
        let gap = self.set.gap_from(left.first)?.cut(left)?;
        self.left = gap
            .last
            .successor()
            .and_then(|next| Span::new(next, left.last));
        self.count = self.count.saturating_sub(1);
        Some(gap.values())
    }

    fn size_hint(&self) -> (usize, Option<usize>) {
        (self.count, Some(self.count))
    }
}

impl<T: Element> DoubleEndedIterator for Gaps<'_, T> {
    fn next_back(&mut self) -> Option<RangeInclusive<T>> {
        let left = self.left.take()?;
        let gap = self.set.gap_to(left.last)?.cut(left)?;
        self.left = gap
            .first
            .predecessor()
            .and_then(|previous| Span::new(left.first, previous));
        self.count = self.count.saturating_sub(1);
        Some(gap.values())
    }
}

impl<T: Element> ExactSizeIterator for Gaps<'_, T> {}
impl<T: Element> FusedIterator for Gaps<'_, T> {}
