//! The types of values, whose ranks the library keeps (docs/DECISIONS.md, rust-by-ranks).

use core::fmt;
use core::net::{Ipv4Addr, Ipv6Addr};
use core::str::FromStr;

use crate::text;
use crate::width::Width;

/// A type whose values a [`RangeSet`](crate::RangeSet) can hold.
///
/// The integer types, `char`, `Ipv4Addr` and `Ipv6Addr` implement it. Implement it for a type of
/// your own by two functions: the rank of a value, and the value of a rank. The values from `MIN` to
/// `MAX` have consecutive ranks, in the order of the values.
///
/// ```
/// use range_set::{Element, RangeSet};
///
/// /// A day, counted from a Monday.
/// #[derive(Clone, Copy, Debug, PartialEq, Eq, PartialOrd, Ord)]
/// struct Day(u16);
///
/// impl Element for Day {
///     type Rank = u32;
///     const MIN: Self = Day(1);
///     const MAX: Self = Day(9999);
///
///     fn rank(self) -> u32 {
///         self.0.into()
///     }
///
///     fn from_rank(rank: u32) -> Self {
///         Day(rank as u16)
///     }
/// }
///
/// let mut open = RangeSet::from([Day(1), Day(2), Day(4)]);
/// open.insert(Day(3));
/// assert!(open.runs().eq([Day(1)..=Day(4)]));
/// assert!(open.gaps().eq([Day(5)..=Day(9999)]));
/// ```
///
/// Each call relies on these rules, but none relies on them for memory safety. If an implementation
/// breaks them, calls return wrong results, and may panic.
#[diagnostic::on_unimplemented(
    message = "a `RangeSet` cannot hold values of type `{Self}`",
    label = "not an element type",
    note = "element types are the integer types, `char`, `Ipv4Addr`, `Ipv6Addr`, and each type for \
            which you implement `range_set::Element` by two functions",
    note = "to make one of a type of another crate, put it into a struct of your own"
)]
pub trait Element: Copy + Ord {
    /// The type of ranks: `u32`, `u64` or `u128`.
    type Rank: Width;

    /// The least value.
    const MIN: Self;

    /// The greatest value.
    const MAX: Self;

    /// Returns the rank of the value. A greater value has a greater rank.
    fn rank(self) -> Self::Rank;

    /// Returns the value of a rank from that of `MIN` to that of `MAX`.
    fn from_rank(rank: Self::Rank) -> Self;

    /// Writes the value as the text of a set has it: as `Display` does, unless a type says
    /// otherwise. `char` writes it in quotes.
    fn write_text(self, f: &mut fmt::Formatter<'_>) -> fmt::Result
    where
        Self: fmt::Display,
    {
        fmt::Display::fmt(&self, f)
    }

    /// Reads a value at the start of the text of a set, and returns it with the number of bytes
    /// that it takes. If there is none, it returns the position of the first unexpected byte.
    ///
    /// Unless a type says otherwise, a value extends to the next comma or `..=`, without blanks
    /// around it, and is read by `FromStr`. The position of a bad value is then that of its start.
    fn read_text(text: &str) -> Result<(Self, usize), usize>
    where
        Self: FromStr,
    {
        let word = text::first_word(text);
        let value = word.parse().map_err(|_| 0_usize)?;
        Ok((value, word.len()))
    }
}

macro_rules! unsigned {
    ($($value:ty => $rank:ty),*) => {
        $(
            impl Element for $value {
                type Rank = $rank;
                const MIN: Self = <$value>::MIN;
                const MAX: Self = <$value>::MAX;

                fn rank(self) -> $rank {
                    self as $rank
                }

                fn from_rank(rank: $rank) -> Self {
                    rank as $value
                }

                fn read_text(text: &str) -> Result<(Self, usize), usize> {
                    text::read_number(text, 0, |number: $value, is_negative, digit| {
                        let longer = number.checked_mul(10)?.checked_add(digit as $value)?;
                        (!is_negative || longer == 0).then_some(longer)
                    })
                }
            }
        )*
    };
}

macro_rules! signed {
    ($($value:ty as $unsigned:ty => $rank:ty),*) => {
        $(
            // The sign bit is set in the ranks of the values from 0 on, and not in the others.
            impl Element for $value {
                type Rank = $rank;
                const MIN: Self = <$value>::MIN;
                const MAX: Self = <$value>::MAX;

                fn rank(self) -> $rank {
                    ((self ^ <$value>::MIN) as $unsigned) as $rank
                }

                fn from_rank(rank: $rank) -> Self {
                    rank as $value ^ <$value>::MIN
                }

                fn read_text(text: &str) -> Result<(Self, usize), usize> {
                    text::read_number(text, 0, |number: $value, is_negative, digit| {
                        let longer = number.checked_mul(10)?;
                        if is_negative {
                            longer.checked_sub(digit as $value)
                        } else {
                            longer.checked_add(digit as $value)
                        }
                    })
                }
            }
        )*
    };
}

unsigned!(u8 => u32, u16 => u32, u32 => u32, u64 => u64, u128 => u128);
signed!(i8 as u8 => u32, i16 as u16 => u32, i32 as u32 => u32, i64 as u64 => u64, i128 as u128 => u128);

#[cfg(target_pointer_width = "64")]
unsigned!(usize => u64);
#[cfg(target_pointer_width = "64")]
signed!(isize as usize => u64);
#[cfg(not(target_pointer_width = "64"))]
unsigned!(usize => u32);
#[cfg(not(target_pointer_width = "64"))]
signed!(isize as usize => u32);

/// The first code point that is no `char`, and the number of those up to the next `char`.
const SURROGATES: u32 = 0xD800;
const SURROGATE_COUNT: u32 = 0x800;

/// The values have no gap where code points have the surrogates: U+D7FF and U+E000 touch.
impl Element for char {
    type Rank = u32;
    const MIN: Self = '\0';
    const MAX: Self = char::MAX;

    fn rank(self) -> u32 {
        let code = u32::from(self);
        if code < SURROGATES {
            code
        } else {
            code - SURROGATE_COUNT
        }
    }

    fn from_rank(rank: u32) -> Self {
        let code = if rank < SURROGATES {
            rank
        } else {
            rank.saturating_add(SURROGATE_COUNT)
        };
        char::from_u32(code).unwrap_or(char::MAX)
    }

    fn write_text(self, f: &mut fmt::Formatter<'_>) -> fmt::Result {
        write!(f, "{self:?}")
    }

    /// Reads a character in quotes, such as `'a'` or `'\u{1F600}'`, or as it is.
    fn read_text(text: &str) -> Result<(Self, usize), usize> {
        text::read_char(text)
    }
}

impl Element for Ipv4Addr {
    type Rank = u32;
    const MIN: Self = Ipv4Addr::UNSPECIFIED;
    const MAX: Self = Ipv4Addr::BROADCAST;

    fn rank(self) -> u32 {
        u32::from(self)
    }

    fn from_rank(rank: u32) -> Self {
        Ipv4Addr::from(rank)
    }
}

impl Element for Ipv6Addr {
    type Rank = u128;
    const MIN: Self = Ipv6Addr::UNSPECIFIED;
    const MAX: Self = Ipv6Addr::new(
        0xFFFF, 0xFFFF, 0xFFFF, 0xFFFF, 0xFFFF, 0xFFFF, 0xFFFF, 0xFFFF,
    );

    fn rank(self) -> u128 {
        u128::from(self)
    }

    fn from_rank(rank: u128) -> Self {
        Ipv6Addr::from(rank)
    }
}
