//! Iterators over members.

use core::iter::FusedIterator;
use core::ops::RangeBounds;

use super::runs::Spans;
use crate::count::Count;
use crate::span::{span_of, Span};
use crate::width::Number;
use crate::{Element, RangeSet};

impl<T> RangeSet<T> {
    /// Iterates over the members, from both ends.
    ///
    /// ```
    /// let set = range_set::RangeSet::from_iter([1..=3, 7..=8]);
    /// assert!(set.iter().eq([1, 2, 3, 7, 8]));
    /// assert_eq!(set.iter().next_back(), Some(8));
    /// ```
    pub fn iter(&self) -> Iter<'_, T>
    where
        T: Element,
    {
        Iter {
            set: self,
            members: Members::between(Span::of_type::<T>()),
            left: self.count(),
        }
    }

    /// Iterates over the members in a range, from both ends.
    ///
    /// ```
    /// let set = range_set::RangeSet::from_iter([1..=3, 7..=8]);
    /// assert!(set.range(2..8).eq([2, 3, 7]));
    /// assert_eq!(set.range(..7).next_back(), Some(3));
    /// ```
    pub fn range(&self, range: impl RangeBounds<T>) -> IterIn<'_, T>
    where
        T: Element,
    {
        IterIn {
            set: self,
            members: Members::between(span_of(range)),
        }
    }

    fn count(&self) -> Count
    where
        T: Element,
    {
        (Self::CALLS.len)(&self.handle).into()
    }
}

/// The members of a set that no end of a walk has reached.
#[derive(Clone, Debug)]
struct Members<R: Number> {
    /// The runs that no end has reached.
    spans: Spans<R>,
    /// What is left of the run that the front has reached, and of the one that the back has
    /// reached.
    front: Option<Span<R>>,
    back: Option<Span<R>>,
}

/// Takes the first rank of a range.
fn take_first<R: Number>(span: &mut Option<Span<R>>) -> Option<R> {
    let ranks = span.take()?;
    *span = ranks.after_first();
    Some(ranks.first)
}

/// Takes the last rank of a range.
fn take_last<R: Number>(span: &mut Option<Span<R>>) -> Option<R> {
    let ranks = span.take()?;
    *span = ranks.before_last();
    Some(ranks.last)
}

impl<R: Number> Members<R> {
    /// Returns a walk over the members between two ranks.
    fn between(ranks: Option<Span<R>>) -> Self {
        Members {
            spans: Spans::between(ranks),
            front: None,
            back: None,
        }
    }

    fn next<T: Element<Rank = R>>(&mut self, set: &RangeSet<T>) -> Option<T> {
        if self.front.is_none() {
            self.front = self.spans.next(set);
        }
        let rank = take_first(&mut self.front).or_else(|| take_first(&mut self.back))?;
        Some(T::from_rank(rank))
    }

    fn next_back<T: Element<Rank = R>>(&mut self, set: &RangeSet<T>) -> Option<T> {
        if self.back.is_none() {
            self.back = self.spans.next_back(set);
        }
        let rank = take_last(&mut self.back).or_else(|| take_last(&mut self.front))?;
        Some(T::from_rank(rank))
    }

    /// Skips so many members, or all if there are fewer. Takes a step for each run that it skips.
    fn skip<T: Element<Rank = R>>(&mut self, set: &RangeSet<T>, mut number: u128) {
        while number > 0 {
            let next = self.front.take().or_else(|| self.spans.next(set));
            let Some(span) = next.or_else(|| self.back.take()) else {
                return;
            };
            if span.len_less_one() >= number {
                self.front = Span::new(span.first.plus(number), span.last);
                return;
            }
            number -= span.len_less_one() + 1;
        }
    }
}

/// Iterates over the members of a set, from both ends. [`RangeSet::iter`] makes it.
#[must_use]
#[derive(Clone, Debug)]
pub struct Iter<'a, T: Element> {
    set: &'a RangeSet<T>,
    members: Members<T::Rank>,
    left: Count,
}

/// Iterates over the members of a set that it owns, from both ends. `into_iter` makes it.
#[must_use]
#[derive(Clone, Debug)]
pub struct IntoIter<T: Element> {
    set: RangeSet<T>,
    members: Members<T::Rank>,
    left: Count,
}

/// Iterates over the members of a set in a range, from both ends. [`RangeSet::range`] makes it.
#[must_use]
#[derive(Clone, Debug)]
pub struct IterIn<'a, T: Element> {
    set: &'a RangeSet<T>,
    members: Members<T::Rank>,
}

/// Iterators that count the members that are left.
macro_rules! counted_members {
    ($($name:ident $(, $lifetime:lifetime)?;)*) => {
        $(
            impl<T: Element> Iterator for $name<$($lifetime,)? T> {
                type Item = T;

                fn next(&mut self) -> Option<T> {
                    let value = self.members.next(&self.set)?;
                    self.left = self.left.less(1);
                    Some(value)
                }

                fn nth(&mut self, n: usize) -> Option<T> {
                    self.members.skip(&self.set, n as u128);
                    self.left = self.left.less(n as u128);
                    self.next()
                }

                fn size_hint(&self) -> (usize, Option<usize>) {
                    self.left.size_hint()
                }

                fn count(self) -> usize {
                    let exact = self.size_hint().1;
                    exact.expect("the set has more members than a usize can say")
                }

                fn last(mut self) -> Option<T> {
                    self.next_back()
                }

                fn min(mut self) -> Option<T> {
                    self.next()
                }

                fn max(mut self) -> Option<T> {
                    self.next_back()
                }
            }

            impl<T: Element> DoubleEndedIterator for $name<$($lifetime,)? T> {
                fn next_back(&mut self) -> Option<T> {
                    let value = self.members.next_back(&self.set)?;
                    self.left = self.left.less(1);
                    Some(value)
                }
            }

            impl<T: Element> FusedIterator for $name<$($lifetime,)? T> {}

            /// A set has at most 2^32 members then, so a `usize` can say how many are left.
            #[cfg(target_pointer_width = "64")]
            impl<T: Element<Rank = u32>> ExactSizeIterator for $name<$($lifetime,)? T> {}
        )*
    };
}

counted_members! {
    Iter, '_;
    IntoIter;
}

impl<T: Element> Iterator for IterIn<'_, T> {
    type Item = T;

    fn next(&mut self) -> Option<T> {
        self.members.next(self.set)
    }

    fn nth(&mut self, n: usize) -> Option<T> {
        self.members.skip(self.set, n as u128);
        self.next()
    }

    fn last(mut self) -> Option<T> {
        self.next_back()
    }

    fn min(mut self) -> Option<T> {
        self.next()
    }

    fn max(mut self) -> Option<T> {
        self.next_back()
    }
}

impl<T: Element> DoubleEndedIterator for IterIn<'_, T> {
    fn next_back(&mut self) -> Option<T> {
        self.members.next_back(self.set)
    }
}

impl<T: Element> FusedIterator for IterIn<'_, T> {}

impl<'a, T: Element> IntoIterator for &'a RangeSet<T> {
    type Item = T;
    type IntoIter = Iter<'a, T>;

    fn into_iter(self) -> Iter<'a, T> {
        self.iter()
    }
}

impl<T: Element> IntoIterator for RangeSet<T> {
    type Item = T;
    type IntoIter = IntoIter<T>;

    fn into_iter(self) -> IntoIter<T> {
        IntoIter {
            members: Members::between(Span::of_type::<T>()),
            left: self.count(),
            set: self,
        }
    }
}
