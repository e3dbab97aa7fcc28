//! Iterators over runs.

use core::iter::FusedIterator;
use core::ops::{RangeBounds, RangeInclusive};

use crate::calls::RunOf;
use crate::span::{span_of, Span};
use crate::width::Number;
use crate::{Element, RangeSet};

impl<T> RangeSet<T> {
    /// Iterates over the runs, from both ends.
    ///
    /// ```
    /// let set = range_set::RangeSet::from_iter([8, 1, 2, 3, 7]);
    /// assert!(set.runs().eq([1..=3, 7..=8]));
    /// assert_eq!(set.runs().next_back(), Some(7..=8));
    /// assert_eq!(set.runs().len(), 2);
    /// ```
    pub fn runs(&self) -> Runs<'_, T>
    where
        T: Element,
    {
        Runs {
            set: self,
            spans: Spans::between(Span::of_type::<T>()),
            left: self.run_count(),
        }
    }

    /// Iterates over the runs of the members in a range, from both ends. A run that crosses a bound
    /// of the range is shortened to its values in it.
    ///
    /// ```
    /// let set = range_set::RangeSet::from_iter([1..=5, 8..=9, 20..=30]);
    /// assert!(set.runs_in(4..25).eq([4..=5, 8..=9, 20..=24]));
    /// assert_eq!(set.runs_in(..=3).next_back(), Some(1..=3));
    /// assert_eq!(set.runs_in(10..20).next(), None);
    /// ```
    pub fn runs_in(&self, range: impl RangeBounds<T>) -> RunsIn<'_, T>
    where
        T: Element,
    {
        RunsIn {
            set: self,
            spans: Spans::between(span_of(range)),
        }
    }

    /// Iterates over the runs, from both ends, and takes the set by value.
    ///
    /// ```
    /// fn busy() -> impl Iterator<Item = std::ops::RangeInclusive<u32>> {
    ///     range_set::RangeSet::from_iter([1..=3, 7..=8]).into_runs()
    /// }
    /// assert!(busy().eq([1..=3, 7..=8]));
    /// ```
    pub fn into_runs(self) -> IntoRuns<T>
    where
        T: Element,
    {
        IntoRuns {
            spans: Spans::between(Span::of_type::<T>()),
            left: self.run_count(),
            set: self,
        }
    }

    /// Stores the first runs between two ranks in a slice, until it is full or no run is left, and
    /// returns how many it stored. A run that crosses one of the ranks is shortened.
    fn store_runs(&self, between: Span<T::Rank>, runs: &mut [RunOf<T::Rank>]) -> usize
    where
        T: Element,
    {
        let (first, last) = (between.first.into(), between.last.into());
        let (array, count) = (runs.as_mut_ptr(), runs.len());
        // SAFETY: the array is a slice, and no other reference reaches it.
        unsafe { (Self::CALLS.runs_in)(&self.handle, first, last, array, count) }
    }
}

/// How many runs a walk reads at once.
const AHEAD: usize = 16;

/// Runs that a walk from the front has read, but not yet given.
#[derive(Clone, Debug)]
struct Ahead<R: Number> {
    runs: [RunOf<R>; AHEAD],
    read: usize,
    given: usize,
}

impl<R: Number> Ahead<R> {
    fn none() -> Self {
        let (first, last) = (R::LEAST, R::LEAST);
        Ahead {
            runs: [Span { first, last }.to_run(); AHEAD],
            read: 0,
            given: 0,
        }
    }

    /// Gives the next run. If all were given, it first reads those between two ranks.
    fn next<T>(&mut self, set: &RangeSet<T>, between: Span<R>) -> Option<Span<R>>
    where
        T: Element<Rank = R>,
    {
        if self.given == self.read {
            self.read = set.store_runs(between, &mut self.runs).min(AHEAD);
            self.given = 0;
        }
        let run = *self.runs[..self.read].get(self.given)?;
        self.given += 1;
        Some(Span::from_run(run))
    }
}

/// The runs of a set between two ranks, as far as no end of a walk has reached them. The set does
/// not change meanwhile, so the front reads several runs at once.
#[derive(Clone, Debug)]
pub struct Spans<R: Number> {
    /// The ranks that no end has reached.
    left: Option<Span<R>>,
    ahead: Ahead<R>,
}

impl<R: Number> Spans<R> {
    /// Returns a walk over the runs between two ranks.
    pub fn between(ranks: Option<Span<R>>) -> Self {
        Spans {
            left: ranks,
            ahead: Ahead::none(),
        }
    }

    pub fn next<T>(&mut self, set: &RangeSet<T>) -> Option<Span<R>>
    where
        T: Element<Rank = R>,
    {
        let left = self.left.take()?;
        // What was read ahead may lie in what the back has given since.
        let run = self.ahead.next(set, left)?.cut(left)?;
        self.left = run
            .last
            .successor()
            .and_then(|next| Span::new(next, left.last));
        Some(run)
    }

    pub fn next_back<T>(&mut self, set: &RangeSet<T>) -> Option<Span<R>>
    where
        T: Element<Rank = R>,
    {
        let left = self.left.take()?;
        let run = set
            .run_by(RangeSet::<T>::CALLS.prev_run, left.last)?
            .cut(left)?;
        self.left = run
            .first
            .predecessor()
            .and_then(|previous| Span::new(left.first, previous));
        Some(run)
    }
}

/// Iterates over the runs of a set, from both ends. [`RangeSet::runs`] makes it.
#[must_use]
#[derive(Clone, Debug)]
pub struct Runs<'a, T: Element> {
    set: &'a RangeSet<T>,
    spans: Spans<T::Rank>,
    left: usize,
}

/// Iterates over the runs of a set that it owns, from both ends. [`RangeSet::into_runs`] makes it.
#[must_use]
#[derive(Clone, Debug)]
pub struct IntoRuns<T: Element> {
    set: RangeSet<T>,
    spans: Spans<T::Rank>,
    left: usize,
}

/// Iterates over the runs of a set in a range, from both ends. [`RangeSet::runs_in`] makes it.
#[must_use]
#[derive(Clone, Debug)]
pub struct RunsIn<'a, T: Element> {
    set: &'a RangeSet<T>,
    spans: Spans<T::Rank>,
}

/// Iterators that count the runs that are left.
macro_rules! counted_runs {
    ($($name:ident $(, $lifetime:lifetime)?;)*) => {
        $(
            impl<T: Element> Iterator for $name<$($lifetime,)? T> {
                type Item = RangeInclusive<T>;

                fn next(&mut self) -> Option<RangeInclusive<T>> {
                    let span = self.spans.next(&self.set)?;
                    self.left = self.left.saturating_sub(1);
                    Some(span.values())
                }

                fn size_hint(&self) -> (usize, Option<usize>) {
                    (self.left, Some(self.left))
                }
            }

            impl<T: Element> DoubleEndedIterator for $name<$($lifetime,)? T> {
                fn next_back(&mut self) -> Option<RangeInclusive<T>> {
                    let span = self.spans.next_back(&self.set)?;
                    self.left = self.left.saturating_sub(1);
                    Some(span.values())
                }
            }

            impl<T: Element> ExactSizeIterator for $name<$($lifetime,)? T> {}
            impl<T: Element> FusedIterator for $name<$($lifetime,)? T> {}
        )*
    };
}

counted_runs! {
    Runs, '_;
    IntoRuns;
}

impl<T: Element> Iterator for RunsIn<'_, T> {
    type Item = RangeInclusive<T>;

    fn next(&mut self) -> Option<RangeInclusive<T>> {
        Some(self.spans.next(self.set)?.values())
    }
}

impl<T: Element> DoubleEndedIterator for RunsIn<'_, T> {
    fn next_back(&mut self) -> Option<RangeInclusive<T>> {
        Some(self.spans.next_back(self.set)?.values())
    }
}

impl<T: Element> FusedIterator for RunsIn<'_, T> {}
