//! The traits of the standard library, except operators and iterators.

use core::cmp::Ordering;
use core::hash::{Hash, Hasher};
use core::ops::{Range, RangeInclusive};

use crate::build::Joining;
use crate::iterators::Spans;
use crate::span::{span_of, Span};
use crate::{allocated, changed, Element, RangeSet};

impl<T: Element> Default for RangeSet<T> {
    fn default() -> Self {
        Self::new()
    }
}

/// Panics if an allocation fails. [`RangeSet::try_clone`] returns an error instead.
impl<T: Element> Clone for RangeSet<T> {
    #[track_caller]
    fn clone(&self) -> Self {
        allocated(self.try_clone())
    }

    #[track_caller]
    fn clone_from(&mut self, source: &Self) {
        allocated(changed((Self::CALLS.clone)(
            &mut self.handle,
            &source.handle,
        )));
    }
}

impl<T: Element> PartialEq for RangeSet<T> {
    fn eq(&self, other: &Self) -> bool {
        // SAFETY: the handles are of two sets.
        self.is_same(other) || unsafe { (Self::CALLS.equal)(&self.handle, &other.handle) }
    }
}

impl<T: Element> Eq for RangeSet<T> {}

/// Compares sets as the ascending lists of their members.
impl<T: Element> Ord for RangeSet<T> {
    fn cmp(&self, other: &Self) -> Ordering {
        if self.is_same(other) {
            return Ordering::Equal;
        }
        // SAFETY: the handles are of two sets.
        unsafe { (Self::CALLS.order)(&self.handle, &other.handle) }.cmp(&0)
    }
}

impl<T: Element> PartialOrd for RangeSet<T> {
    fn partial_cmp(&self, other: &Self) -> Option<Ordering> {
        Some(self.cmp(other))
    }
}

impl<T: Element> Hash for RangeSet<T> {
    fn hash<H: Hasher>(&self, state: &mut H) {
        self.run_count().hash(state);
        let mut runs = Spans::between(Span::of_type::<T>());
        while let Some(run) = runs.next(self) {
            (run.first, run.last).hash(state);
        }
    }
}

/// Values, ranges, and references to either make a set, or extend one. They may come in any order,
/// and more than once.
macro_rules! collected {
    ($($item:ty $(, $lifetime:lifetime)?; $given:ident => $range:expr;)*) => {
        $(
            impl<$($lifetime,)? T: Element> FromIterator<$item> for RangeSet<T> {
                #[track_caller]
                fn from_iter<I: IntoIterator<Item = $item>>(items: I) -> Self {
                    let mut set = Self::new();
                    set.extend(items);
                    set
                }
            }

            impl<$($lifetime,)? T: Element> Extend<$item> for RangeSet<T> {
                #[track_caller]
                fn extend<I: IntoIterator<Item = $item>>(&mut self, items: I) {
                    let mut joining = Joining::new(self);
                    for $given in items {
                        allocated(joining.add(span_of($range)));
                    }
                    allocated(joining.finish());
                }
            }
        )*
    };
}

collected! {
    T; value => value..=value;
    &'a T, 'a; value => *value..=*value;
    RangeInclusive<T>; range => range;
    &'a RangeInclusive<T>, 'a; range => range.clone();
    Range<T>; range => range;
    &'a Range<T>, 'a; range => range.clone();
}

/// One value or range, or an array of them, makes a set.
macro_rules! from {
    ($($given:ty $(, $count:ident)?;)*) => {
        $(
            impl<T: Element $(, const $count: usize)?> From<$given> for RangeSet<T> {
                #[track_caller]
                fn from(given: $given) -> Self {
                    Self::from_iter(from!(@items given $(, $count)?))
                }
            }
        )*
    };
    (@items $given:ident) => { [$given] };
    (@items $given:ident, $count:ident) => { $given };
}

from! {
    [T; N], N;
    [RangeInclusive<T>; N], N;
    [Range<T>; N], N;
    RangeInclusive<T>;
    Range<T>;
}
