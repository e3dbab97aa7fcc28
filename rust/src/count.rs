//! How many values a set of a 128-bit type has.

use core::fmt;

/// A number of values of a type with 128 bits: from 0 to 2^128.
///
/// It compares with a `u128`, and `try_from` makes a number of it. Only the set of all values has
/// more members than a `u128` can say.
///
/// ```
/// use range_set::{Count, RangeSet};
///
/// let few = RangeSet::<u128>::from(1..=5);
/// assert_eq!(few.len(), 5);
/// assert_eq!(u128::try_from(few.len()), Ok(5));
/// let all = RangeSet::<u128>::universe();
/// assert_eq!(all.len(), Count::MAX);
/// assert_eq!(all.len().to_string(), "340282366920938463463374607431768211456");
/// assert!(u128::try_from(all.len()).is_err());
/// ```
#[derive(Clone, Copy, Default, PartialEq, Eq, PartialOrd, Ord, Hash)]
pub struct Count {
    /// Whether the number is 2^128. Then `low` is 0.
    is_greatest: bool,
    low: u128,
}

impl Count {
    /// 2^128, the number of all values of a 128-bit type.
    pub const MAX: Count = Count {
        is_greatest: true,
        low: 0,
    };

    /// Returns the number as a `u128`, or `None` if it is 2^128.
    ///
    /// ```
    /// assert_eq!(range_set::Count::from(7_u64).to_u128(), Some(7));
    /// assert_eq!(range_set::Count::MAX.to_u128(), None);
    /// ```
    #[must_use]
    pub const fn to_u128(self) -> Option<u128> {
        if self.is_greatest {
            None
        } else {
            Some(self.low)
        }
    }

    /// Subtracts a number, or returns 0 if that is less.
    pub(crate) fn less(self, number: u128) -> Self {
        if self.is_greatest && number > 0 {
            return Count::from(u128::MAX - (number - 1));
        }
        Count {
            low: self.low.saturating_sub(number),
            ..self
        }
    }

    /// Returns the number if it fits in a `usize`, and the greatest `usize` below it otherwise.
    pub(crate) fn size_hint(self) -> (usize, Option<usize>) {
        let exact = usize::try_from(self).ok();
        (exact.unwrap_or(usize::MAX), exact)
    }
}

impl From<u64> for Count {
    fn from(number: u64) -> Self {
        Count::from(u128::from(number))
    }
}

impl From<u128> for Count {
    fn from(number: u128) -> Self {
        Count {
            is_greatest: false,
            low: number,
        }
    }
}

impl PartialEq<u128> for Count {
    fn eq(&self, number: &u128) -> bool {
        *self == Count::from(*number)
    }
}

impl PartialOrd<u128> for Count {
    fn partial_cmp(&self, number: &u128) -> Option<core::cmp::Ordering> {
        Some(self.cmp(&Count::from(*number)))
    }
}

/// The error of a number of values that does not fit in the type that was asked for.
#[derive(Clone, Copy, Debug, PartialEq, Eq)]
pub struct TooGreat;

impl fmt::Display for TooGreat {
    fn fmt(&self, f: &mut fmt::Formatter<'_>) -> fmt::Result {
        f.write_str("the number of values does not fit in the type")
    }
}

impl std::error::Error for TooGreat {}

macro_rules! try_from_count {
    ($($number:ty)*) => {
        $(
            impl TryFrom<Count> for $number {
                type Error = TooGreat;

                fn try_from(count: Count) -> Result<Self, TooGreat> {
                    let number = count.to_u128().ok_or(TooGreat)?;
                    <$number>::try_from(number).map_err(|_| TooGreat)
                }
            }
        )*
    };
}

try_from_count!(u32 u64 u128 usize);

impl fmt::Display for Count {
    fn fmt(&self, f: &mut fmt::Formatter<'_>) -> fmt::Result {
        match self.to_u128() {
            Some(number) => number.fmt(f),
            None => f.pad_integral(true, "", "340282366920938463463374607431768211456"),
        }
    }
}

/// Writes what `Display` writes.
impl fmt::Debug for Count {
    fn fmt(&self, f: &mut fmt::Formatter<'_>) -> fmt::Result {
        fmt::Display::fmt(self, f)
    }
}

#[cfg(test)]
mod tests {
    use super::*;

    #[test]
    fn less_goes_down_from_the_greatest() {
        let greatest = Count::MAX;
        assert_eq!(greatest.less(0), Count::MAX);
        assert_eq!(greatest.less(1), u128::MAX);
        assert_eq!(greatest.less(u128::MAX), 1);
        assert_eq!(greatest.less(u128::MAX).less(1), 0);
        assert_eq!(Count::from(5_u64).less(7), 0);
    }

    #[test]
    fn counts_compare_and_convert() {
        assert!(Count::MAX > u128::MAX && Count::from(u128::MAX) < Count::MAX);
        assert!(Count::from(3_u64) > 2 && Count::from(3_u64) == 3);
        assert_eq!(u32::try_from(Count::from(1_u64 << 32)), Err(TooGreat));
        assert_eq!(u64::try_from(Count::from(1_u64 << 32)), Ok(1 << 32));
        assert_eq!(Count::MAX.size_hint(), (usize::MAX, None));
        assert_eq!(
            format!("{:>40}|{:?}", Count::MAX, Count::from(8_u64)).len(),
            42
        );
    }
}
