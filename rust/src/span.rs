//! Ranges of ranks, which runs and gaps are to the library.

use core::ops::{Bound, RangeBounds, RangeInclusive};

use crate::calls::{Run, RunOf};
use crate::width::Number;
use crate::Element;

/// The ranks from `first` to `last`, both included. There is at least one.
#[derive(Clone, Copy, Debug, PartialEq, Eq)]
pub struct Span<R> {
    pub first: R,
    pub last: R,
}

impl<R: Number> Span<R> {
    /// Returns the ranks from one to another, or `None` if there are none.
    pub fn new(first: R, last: R) -> Option<Self> {
        (first <= last).then_some(Span { first, last })
    }

    /// Returns the ranks of all values of a type.
    pub fn of_type<T: Element<Rank = R>>() -> Option<Self> {
        Span::new(T::MIN.rank(), T::MAX.rank())
    }

    /// Returns the ranks that are also in another range.
    pub fn cut(self, other: Self) -> Option<Self> {
        Span::new(self.first.max(other.first), self.last.min(other.last))
    }

    /// Returns the number of ranks, less one.
    pub fn len_less_one(self) -> u128 {
        self.last.above(self.first)
    }

    /// Returns whether there are at least so many ranks.
    pub fn has(self, number: u128) -> bool {
        number <= 1 || self.len_less_one() >= number - 1
    }

    /// Extends the range by another that starts in it or just after it, and returns whether it does.
    pub fn join(&mut self, other: Self) -> bool {
        let touches = self.first <= other.first
            && self.last.successor().is_none_or(|next| other.first <= next);
        if touches {
            self.last = self.last.max(other.last);
        }
        touches
    }

    /// Returns the ranks without the first.
    pub fn after_first(self) -> Option<Self> {
        Span::new(self.first.successor()?, self.last)
    }

    /// Returns the ranks without the last.
    pub fn before_last(self) -> Option<Self> {
        Span::new(self.first, self.last.predecessor()?)
    }

    /// Returns the values of the ranks.
    pub fn values<T: Element<Rank = R>>(self) -> RangeInclusive<T> {
        T::from_rank(self.first)..=T::from_rank(self.last)
    }

    /// Returns the ranks as C has them.
    pub fn to_run(self) -> RunOf<R> {
        Run {
            first: self.first.into(),
            last: self.last.into(),
        }
    }

    /// Returns the ranks that C has stored.
    pub fn from_run(run: RunOf<R>) -> Self {
        Span {
            first: run.first.into(),
            last: run.last.into(),
        }
    }
}

/// Returns the ranks of the values of a range, or `None` if the range is empty.
pub fn span_of<T: Element>(range: impl RangeBounds<T>) -> Option<Span<T::Rank>> {
    let first = match range.start_bound() {
        Bound::Included(first) => first.rank(),
        Bound::Excluded(before) => before.rank().successor()?,
        Bound::Unbounded => T::MIN.rank(),
    };
    let last = match range.end_bound() {
        Bound::Included(last) => last.rank(),
        Bound::Excluded(after) => after.rank().predecessor()?,
        Bound::Unbounded => T::MAX.rank(),
    };
    Span::new(first, last)
}
