//! The operators on sets.

use core::ops::{
    BitAnd, BitAndAssign, BitOr, BitOrAssign, BitXor, BitXorAssign, Not, Sub, SubAssign,
};

use crate::{allocated, Element, RangeSet};

/// An operator on sets, from the call that returns a new set and the call that changes the left
/// one.
macro_rules! operator {
    (
        $operator:ident, $method:ident, $try_call:ident;
        $assign:ident, $assign_method:ident, $call_with:ident
    ) => {
        impl<T: Element> $operator for &RangeSet<T> {
            type Output = RangeSet<T>;

            #[track_caller]
            fn $method(self, other: Self) -> RangeSet<T> {
                allocated(self.$try_call(other))
            }
        }

        impl<T: Element> $operator<RangeSet<T>> for &RangeSet<T> {
            type Output = RangeSet<T>;

            #[track_caller]
            fn $method(self, other: RangeSet<T>) -> RangeSet<T> {
                allocated(self.$try_call(&other))
            }
        }

        impl<T: Element> $operator<&RangeSet<T>> for RangeSet<T> {
            type Output = RangeSet<T>;

            #[track_caller]
            fn $method(mut self, other: &RangeSet<T>) -> RangeSet<T> {
                self.$call_with(other);
                self
            }
        }

        impl<T: Element> $operator for RangeSet<T> {
            type Output = RangeSet<T>;

            #[track_caller]
            fn $method(mut self, other: RangeSet<T>) -> RangeSet<T> {
                self.$call_with(&other);
                self
            }
        }

        impl<T: Element> $assign<&RangeSet<T>> for RangeSet<T> {
            #[track_caller]
            fn $assign_method(&mut self, other: &RangeSet<T>) {
                self.$call_with(other);
            }
        }

        impl<T: Element> $assign for RangeSet<T> {
            #[track_caller]
            fn $assign_method(&mut self, other: RangeSet<T>) {
                self.$call_with(&other);
            }
        }
    };
}

operator!(BitOr, bitor, try_union; BitOrAssign, bitor_assign, union_with);
operator!(BitAnd, bitand, try_intersection; BitAndAssign, bitand_assign, intersect_with);
operator!(Sub, sub, try_difference; SubAssign, sub_assign, subtract);
operator!(BitXor, bitxor, try_symmetric_difference; BitXorAssign, bitxor_assign, xor_with);

impl<T: Element> Not for &RangeSet<T> {
    type Output = RangeSet<T>;

    #[track_caller]
    fn not(self) -> RangeSet<T> {
        allocated(self.try_complement())
    }
}

impl<T: Element> Not for RangeSet<T> {
    type Output = RangeSet<T>;

    #[track_caller]
    fn not(self) -> RangeSet<T> {
        !&self
    }
}
