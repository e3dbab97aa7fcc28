//! The unsigned types that ranks are of.

use core::fmt::{Debug, Display};
use core::hash::Hash;

use crate::calls::{self, CallsOf, Halves, Thirds};
use crate::count::Count;

/// An unsigned type whose numbers the C library keeps: `u32`, `u64` or `u128`. No other type
/// implements it.
///
/// It says of which type the numbers of members are. [`Len`](crate::Len) names it for an element
/// type.
#[diagnostic::on_unimplemented(
    message = "`{Self}` is no type of ranks",
    label = "not u32, u64 or u128",
    note = "`Element::Rank` is u32, u64 or u128: take the least one that has a number for each value"
)]
pub trait Width: Number {
    /// A number of members: `u128`, or [`Count`] if ranks have 128 bits.
    type Len: Copy
        + Ord
        + Hash
        + Debug
        + Display
        + Send
        + Sync
        + From<u64>
        + PartialEq<u128>
        + PartialOrd<u128>
        + TryInto<u128, Error: Debug>
        + TryInto<u64, Error: Debug>
        + TryInto<usize, Error: Debug>;

    #[doc(hidden)]
    fn len(count: Count) -> Self::Len;
}

/// What this crate uses of such a type. It is public, but has no public name, so no other crate
/// can implement it.
pub trait Number: Copy + Ord + Hash + Debug + Display + Send + Sync + 'static {
    const LEAST: Self;
    const GREATEST: Self;

    /// A number as C passes it.
    type Value: Copy + Debug + From<Self> + Into<Self> + Send + Sync;
    /// A number of members as C passes it.
    type Count: Into<Count>;
    /// A number of members below a value, as C passes it.
    type Place;
    /// The functions of the library.
    const CALLS: &'static CallsOf<Self>;

    /// Returns the next number, or `None` after the greatest.
    fn successor(self) -> Option<Self>;

    /// Returns the number before this one, or `None` before 0.
    fn predecessor(self) -> Option<Self>;

    /// Returns how far this number is above another that is not greater.
    fn above(self, other: Self) -> u128;

    /// Returns a number of members as C passes it, or `None` if it cannot.
    fn place(number: u128) -> Option<Self::Place>;

    /// Returns the number so far above this one, or the greatest one if it is not so far.
    fn plus(self, distance: u128) -> Self;
}

macro_rules! width {
    ($width:ty, $calls:ident, $value:ty, $count:ty, $place:ty; $len:ty, $made:expr) => {
        impl Number for $width {
            const LEAST: Self = 0;
            const GREATEST: Self = <$width>::MAX;

            type Value = $value;
            type Count = $count;
            type Place = $place;
            const CALLS: &'static CallsOf<Self> = calls::$calls::CALLS;

            fn successor(self) -> Option<Self> {
                self.checked_add(1)
            }

            fn predecessor(self) -> Option<Self> {
                self.checked_sub(1)
            }

            fn above(self, other: Self) -> u128 {
                u128::from(self.saturating_sub(other))
            }

            fn place(number: u128) -> Option<$place> {
                number.try_into().ok()
            }

            fn plus(self, distance: u128) -> Self {
                let distance = <$width>::try_from(distance).unwrap_or(<$width>::MAX);
                self.saturating_add(distance)
            }
        }

        impl Width for $width {
            type Len = $len;

            fn len(count: Count) -> $len {
                $made(count)
            }
        }
    };
}

/// Returns a number that is known to be at most `u128::MAX`.
pub fn fitting(count: Count) -> u128 {
    count.to_u128().unwrap_or(u128::MAX)
}

width!(u32, u32_calls, u32, u64, u64; u128, fitting);
width!(u64, u64_calls, u64, Halves, u64; u128, fitting);
width!(u128, u128_calls, Halves, Thirds, Halves; Count, |count| count);
