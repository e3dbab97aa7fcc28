//! Sets of integers, characters or IP addresses, kept as sorted runs that never touch.
//!
//! This crate calls the C library that `tools/c/build` makes. Each function of that library does
//! what its header, `include/range_set.h`, says, and this is proved. This crate itself is only
//! tested.
//!
//! A run is a maximal range of members, and a gap is a maximal range of other values. A set uses
//! memory for each run, not for each member.
//!
//! ```
//! use range_set::RangeSet;
//!
//! let mut open = RangeSet::<u16>::from_iter([9..=11, 13..=18]);
//! assert!(open.insert(12)); // joins both runs
//! let busy = RangeSet::from(10..=14);
//! let free = &open - &busy;
//! assert_eq!(free.to_string(), "9..=9, 15..=18");
//! assert_eq!(free.len(), 5);
//! assert!(free.contains(17));
//! assert!(free.runs().eq([9..=9, 15..=18]));
//! ```
//!
//! # Element types
//!
//! A set can hold values of `i8` to `i128`, `u8` to `u128`, `isize`, `usize`, `char`, `Ipv4Addr`
//! and `Ipv6Addr`, and of each type of your own that implements [`Element`] by two functions. No
//! other type has sets:
//!
//! ```compile_fail,E0277
//! let set = range_set::RangeSet::<f64>::new();
//! ```
//!
//! # If an allocation fails
//!
//! A call whose name begins with `try_` returns [`AllocError`] if an allocation fails, and
//! `from_str` returns [`ParseError`], and `from_bytes` [`BytesError`]. Every other call that allocates panics, so that a program may
//! catch the panic and go on. Either way, each set that was passed by reference is unchanged, except
//! that `extend` may have added some values.
//!
//! # Mistakes
//!
//! A range whose end is below its start has no values, as in the standard library: inserting it
//! changes nothing. Text that does not list values is an error with its position. The compiler
//! refuses a value that is too great, and a change of a set while a loop goes over it:
//!
//! ```compile_fail
//! let set = range_set::RangeSet::<u8>::from([300]);
//! ```
//!
//! ```compile_fail,E0502
//! let mut set = range_set::RangeSet::from(1..=3);
//! for value in &set {
//!     set.insert(value + 1);
//! }
//! ```
//!
//! A number of members is a `u128`, or a [`Count`] for types with 128 bits. So name the element
//! type if all of your values are literals:
//!
//! ```
//! let set = range_set::RangeSet::<i32>::from(1..=3);
//! assert_eq!(set.len(), 3);
//! ```
//!
//! # How to link the library
//!
//! Add this crate by its path, as in `range_set = { path = "wooljasper/rust" }`. For `Serialize`
//! and `Deserialize`, write `wooljasper/rust/serde` instead: this is the same crate, which depends
//! on the crate `serde`.
//!
//! The build script looks for the C library in the folder that the variable `RANGE_SET_LIB_DIR`
//! names. If that is not set, it asks `pkg-config`, and then looks in `out/lib` of the repository.
//!
//! It links the static library if it finds both. To choose, set `RANGE_SET_LINK` to `static` or to
//! `shared`. `cargo run` and `cargo test` find the shared library, also for a crate that depends on
//! this one. A program that is started without cargo must find it, for example by
//! `LD_LIBRARY_PATH`.
//!
//! # What stays your duty
//!
//! The types guarantee what the header asks of its callers, except for two duties. The program has
//! one allocator for `malloc`, `realloc` and `free`. It does not call the library from a signal
//! handler, or from the forked child of a process with threads.
#![warn(missing_docs)]

mod algebra;
mod build;
mod bytes;
mod calls;
mod changes;
mod count;
mod element;
mod gaps;
mod iterators;
mod look_up;
mod many;
mod names;
mod operators;
#[cfg(feature = "serde")]
mod serde;
mod span;
mod std_traits;
mod text;
mod width;

use core::fmt;
use core::marker::PhantomData;

pub use bytes::{BytesError, BytesReason};
pub use count::{Count, TooGreat};
pub use element::Element;
pub use iterators::{Gaps, IntoIter, IntoRuns, Iter, IterIn, Runs, RunsIn};
pub use many::Multiway;
pub use names::Integer;
pub use text::ParseError;
pub use width::Width;

use width::Number;

/// What most programs use, for `use range_set::prelude::*`.
pub mod prelude {
    pub use crate::{Element, Multiway, RangeSet};
}

/// The type of numbers of members: `u128`, or [`Count`] for element types with 128 bits.
///
/// ```
/// let set = range_set::RangeSet::<u32>::from(1..=9);
/// let len: range_set::Len<u32> = set.len();
/// assert_eq!(len, 9_u128);
/// ```
pub type Len<T> = <<T as Element>::Rank as Width>::Len;

/// A set of values, kept as sorted runs that never touch.
///
/// [`Element`] says which types of values there are. Threads may read a set at the same time, and
/// a set may pass from one thread to another.
pub struct RangeSet<T> {
    handle: calls::Handle,
    /// The function of the library that frees the memory of the handle.
    free: extern "C" fn(&mut calls::Handle),
    /// A set makes values from their ranks, and holds none.
    values: PhantomData<fn() -> T>,
}

impl<T: Element> RangeSet<T> {
    /// The functions of the library for the ranks of the values.
    const CALLS: &'static calls::CallsOf<T::Rank> = <T::Rank as Number>::CALLS;
}

// Each method has the bound itself, so that the message of the trait reaches a user whose type has
// no sets (docs/DECISIONS.md, rust-bound-on-methods).
impl<T> RangeSet<T> {
    /// Returns the empty set, which owns no memory.
    ///
    /// ```
    /// let set = range_set::RangeSet::<i64>::new();
    /// assert!(set.is_empty());
    /// ```
    #[must_use]
    pub const fn new() -> Self
    where
        T: Element,
    {
        RangeSet {
            handle: calls::Handle::empty(),
            free: Self::CALLS.free,
            values: PhantomData,
        }
    }
}

impl<T> Drop for RangeSet<T> {
    fn drop(&mut self) {
        (self.free)(&mut self.handle);
    }
}

/// The error of a call whose allocation failed. Each set of the call is unchanged.
#[derive(Clone, Copy, Debug, PartialEq, Eq)]
pub struct AllocError;

impl fmt::Display for AllocError {
    fn fmt(&self, f: &mut fmt::Formatter<'_>) -> fmt::Result {
        f.write_str("a memory allocation failed")
    }
}

impl std::error::Error for AllocError {}

/// Returns whether a call changed its set, from what the library returns.
fn changed(answer: u32) -> Result<bool, AllocError> {
    match answer {
        calls::UNCHANGED => Ok(false),
        calls::CHANGED => Ok(true),
        _ => Err(AllocError),
    }
}

/// Panics if an allocation failed.
#[track_caller]
fn allocated<V>(result: Result<V, AllocError>) -> V {
    result.unwrap_or_else(|error| panic!("{error}"))
}
