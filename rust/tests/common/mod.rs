//! What the tests share.
#![allow(dead_code)] // No test uses all of it.

use std::fmt::{Debug, Display};
use std::net::{Ipv4Addr, Ipv6Addr};
use std::ops::{Add, Sub};
use std::str::FromStr;

use range_set::Element;

/// An unsigned type that tests can count in.
pub trait Unsigned:
    Element + From<u8> + Add<Output = Self> + Sub<Output = Self> + Debug + Display + FromStr
{
}

impl Unsigned for u8 {}
impl Unsigned for u16 {}
impl Unsigned for u32 {}
impl Unsigned for u64 {}
impl Unsigned for u128 {}
impl Unsigned for usize {}

/// Returns the value that is so far below the greatest one.
pub fn below_greatest<T: Unsigned>(by: u8) -> T {
    T::MAX - T::from(by)
}

/// The number of places that a test uses.
pub const PLACES: i16 = 48;

/// Where the places of a test are.
#[derive(Clone, Copy, Debug, PartialEq, Eq)]
pub enum Base {
    /// The first place is the least value.
    Least,
    /// The places are about the middle: where signs change, and on both sides of the surrogates.
    Middle,
    /// The last place is the greatest value.
    Greatest,
}

pub const BASES: [Base; 3] = [Base::Least, Base::Middle, Base::Greatest];

/// A type of values whose consecutive values tests can list, without its ranks.
pub trait Value: Element + Debug + Display + FromStr + Send + Sync {
    /// Returns the value at a place, or beside the first or the last place.
    fn at(base: Base, place: i16) -> Self;
}

macro_rules! integers {
    ($($value:ty)*) => {
        $(
            impl Value for $value {
                fn at(base: Base, place: i16) -> Self {
                    match base {
                        Base::Least => <$value>::MIN + place as $value,
                        Base::Middle => {
                            let middle = <$value>::MIN / 2 + <$value>::MAX / 2 + 1;
                            if place < PLACES / 2 {
                                middle - (PLACES / 2 - place) as $value
                            } else {
                                middle + (place - PLACES / 2) as $value
                            }
                        }
                        Base::Greatest => <$value>::MAX - (PLACES - 1 - place) as $value,
                    }
                }
            }
        )*
    };
}

integers!(u8 u16 u32 u64 u128 usize i8 i16 i32 i64 i128 isize);

impl Value for char {
    fn at(base: Base, place: i16) -> Self {
        let code = match base {
            Base::Least => i32::from(place),
            Base::Middle if place < PLACES / 2 => 0xD800 - i32::from(PLACES / 2 - place),
            Base::Middle => 0xE000 + i32::from(place - PLACES / 2),
            Base::Greatest => 0x10_FFFF - i32::from(PLACES - 1 - place),
        };
        char::from_u32(code.try_into().unwrap()).unwrap()
    }
}

impl Value for Ipv4Addr {
    fn at(base: Base, place: i16) -> Self {
        let byte = |number: i16| u8::try_from(number).unwrap();
        match base {
            Base::Least => Ipv4Addr::new(0, 0, 0, byte(place)),
            Base::Middle if place < PLACES / 2 => {
                Ipv4Addr::new(127, 255, 255, byte(256 - PLACES / 2 + place))
            }
            Base::Middle => Ipv4Addr::new(128, 0, 0, byte(place - PLACES / 2)),
            Base::Greatest => Ipv4Addr::new(255, 255, 255, byte(256 - PLACES + place)),
        }
    }
}

impl Value for Ipv6Addr {
    fn at(base: Base, place: i16) -> Self {
        let all = u16::MAX;
        let below = |place: i16| all - (PLACES - 1 - place) as u16;
        match base {
            Base::Least => Ipv6Addr::from([0, 0, 0, 0, 0, 0, 0, place as u16]),
            // Where the lower half of an address is full.
            Base::Middle if place < PLACES / 2 => {
                Ipv6Addr::from([0x2001, 0, 0, 7, all, all, all, below(place + PLACES / 2)])
            }
            Base::Middle => Ipv6Addr::from([0x2001, 0, 0, 8, 0, 0, 0, (place - PLACES / 2) as u16]),
            Base::Greatest => Ipv6Addr::from([all, all, all, all, all, all, all, below(place)]),
        }
    }
}

/// A type of a user: the years from -50 to 1999. The ranks start above 0.
#[derive(Clone, Copy, Debug, PartialEq, Eq, PartialOrd, Ord)]
pub struct Year(pub i32);

impl Element for Year {
    type Rank = u64;
    const MIN: Self = Year(-50);
    const MAX: Self = Year(1999);

    fn rank(self) -> u64 {
        (self.0 + 5000) as u64
    }

    fn from_rank(rank: u64) -> Self {
        assert!((4950..=6999).contains(&rank), "no year has rank {rank}");
        Year(rank as i32 - 5000)
    }
}

impl Display for Year {
    fn fmt(&self, f: &mut std::fmt::Formatter<'_>) -> std::fmt::Result {
        write!(f, "year {}", self.0)
    }
}

impl FromStr for Year {
    type Err = ();

    fn from_str(text: &str) -> Result<Self, ()> {
        let number = text.strip_prefix("year ").ok_or(())?;
        number.parse().map(Year).map_err(|_| ())
    }
}

impl Value for Year {
    fn at(base: Base, place: i16) -> Self {
        let place = i32::from(place);
        match base {
            Base::Least => Year(-50 + place),
            Base::Middle => Year(1000 + place),
            Base::Greatest => Year(1999 - i32::from(PLACES - 1) + place),
        }
    }
}

/// Makes a test for each element type, which calls a generic function of the module `checks`.
#[macro_export]
macro_rules! for_each_type {
    ($name:ident) => {
        mod $name {
            $crate::for_each_type! {
                $name;
                u8: u8, u16: u16, u32: u32, u64: u64, u128: u128, usize: usize,
                i8: i8, i16: i16, i32: i32, i64: i64, i128: i128, isize: isize,
                char: char, ipv4: std::net::Ipv4Addr, ipv6: std::net::Ipv6Addr,
                type_of_a_user: $crate::common::Year
            }
        }
    };
    ($check:ident; $($name:ident: $value:ty),*) => {
        $(
            #[test]
            fn $name() {
                $crate::checks::$check::<$value>();
            }
        )*
    };
}
