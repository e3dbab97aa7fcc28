//! The functions of `include/range_set.h`.
//!
//! References stand for the header's pointers, so most of its duties hold by their types: each
//! pointer is valid, and while a call changes a set, no other call uses its handle. A call is
//! `unsafe` here if two of its references may be equal, which only the header's own functions allow,
//! or if it takes an array.

use core::ffi::c_void;
use core::ptr;

use crate::count::Count;
use crate::width::Number;

/// What the C library keeps of a set. Null is the empty set.
#[repr(C)]
#[derive(Debug)]
pub struct Handle {
    private: *mut c_void,
}

// SAFETY: the header lets a set pass from one thread to another. The pointer leads to memory that
// no other handle reaches.
unsafe impl Send for Handle {}

// SAFETY: the header lets threads share a handle as long as all of them only read. A call writes
// nothing to a set that it gets as `&Handle`.
unsafe impl Sync for Handle {}

impl Handle {
    pub const fn empty() -> Self {
        Handle {
            private: ptr::null_mut(),
        }
    }
}

/// What the C library keeps of a list of sets. Null is the empty list. No thread gets one from
/// another.
#[repr(C)]
pub struct List {
    private: *mut c_void,
}

impl List {
    pub const fn empty() -> Self {
        List {
            private: ptr::null_mut(),
        }
    }
}

/// The ranks from `first` to `last`, both included.
#[repr(C)]
#[derive(Clone, Copy, Debug)]
pub struct Run<V> {
    pub first: V,
    pub last: V,
}

/// The number low + 2^64 * high, as C passes 128 bits.
#[repr(C)]
#[derive(Clone, Copy, Debug)]
pub struct Halves {
    low: u64,
    high: u64,
}

impl From<u128> for Halves {
    fn from(number: u128) -> Self {
        Halves {
            low: number as u64,
            high: (number >> 64) as u64,
        }
    }
}

impl From<Halves> for u128 {
    fn from(halves: Halves) -> u128 {
        u128::from(halves.low) | u128::from(halves.high) << 64
    }
}

impl From<Halves> for Count {
    fn from(halves: Halves) -> Count {
        Count::from(u128::from(halves))
    }
}

/// The number low + 2^64 * high + 2^128 * top.
#[repr(C)]
#[derive(Clone, Copy)]
pub struct Thirds {
    low: u64,
    high: u64,
    top: u64,
}

impl From<Thirds> for Count {
    fn from(thirds: Thirds) -> Count {
        if thirds.top > 0 {
            return Count::MAX;
        }
        let (low, high) = (thirds.low, thirds.high);
        Count::from(Halves { low, high })
    }
}

/// What a call that changes or makes a set returns. The only other value says that an allocation
/// failed.
pub const UNCHANGED: u32 = 0;
pub const CHANGED: u32 = 1;

/// What `from_bytes` returns for bytes that are those of no set.
pub const BAD_BYTES: u32 = 5;

/// The functions for sets whose ranks are of type `R`.
pub type CallsOf<R> = Calls<<R as Number>::Value, <R as Number>::Count, <R as Number>::Place>;

/// A run of ranks of type `R`, as C has it.
pub type RunOf<R> = Run<<R as Number>::Value>;

macro_rules! calls {
    (
        safe: $(fn $name:ident($($argument:ident: $type:ty),*) $(-> $result:ty)?;)*
        unsafe: $(fn $on_two:ident($($argument_of_two:ident: $type_of_two:ty),*) -> $answer:ty;)*
    ) => {
        /// The functions for sets whose ranks C passes as `V`. They return numbers of members as
        /// `N`, and take those that a value may have below it as `P`.
        pub struct Calls<V, N, P> {
            $(pub $name: extern "C" fn($($argument: $type),*) $(-> $result)?,)*
            $(pub $on_two: unsafe extern "C" fn($($argument_of_two: $type_of_two),*) -> $answer,)*
        }

        calls! {
            u32_calls, u32, u64, u64, "rsb_u32_";
            $(safe fn $name($($argument: $type),*) $(-> $result)?;)*
            $(unsafe fn $on_two($($argument_of_two: $type_of_two),*) -> $answer;)*
        }
        calls! {
            u64_calls, u64, Halves, u64, "rsb_u64_";
            $(safe fn $name($($argument: $type),*) $(-> $result)?;)*
            $(unsafe fn $on_two($($argument_of_two: $type_of_two),*) -> $answer;)*
        }
        calls! {
            u128_calls, Halves, Thirds, Halves, "rsb_u128_";
            $(safe fn $name($($argument: $type),*) $(-> $result)?;)*
            $(unsafe fn $on_two($($argument_of_two: $type_of_two),*) -> $answer;)*
        }
    };

    // The functions for one width.
    (
        $width:ident, $value:ty, $count:ty, $place:ty, $prefix:literal;
        $($safety:tt fn $name:ident($($argument:ident: $type:ty),*) $(-> $result:ty)?;)*
    ) => {
        pub mod $width {
            use super::*;

            type V = $value;
            type N = $count;
            type P = $place;

            // SAFETY: these are the declarations of the header.
            unsafe extern "C" {
                $(
                    #[link_name = concat!($prefix, stringify!($name))]
                    $safety fn $name($($argument: $type),*) $(-> $result)?;
                )*
            }

            pub const CALLS: &Calls<V, N, P> = &Calls { $($name),* };
        }
    };
}

calls! {
    safe:
    fn insert_range(set: &mut Handle, first: V, last: V) -> u32;
    fn insert(set: &mut Handle, value: V) -> u32;
    fn remove(set: &mut Handle, value: V) -> u32;
    fn remove_range(set: &mut Handle, first: V, last: V) -> u32;
    fn union_with(set: &mut Handle, other: &Handle) -> u32;
    fn intersect_with(set: &mut Handle, other: &Handle) -> u32;
    fn subtract(set: &mut Handle, other: &Handle) -> u32;
    fn xor_with(set: &mut Handle, other: &Handle) -> u32;
    fn clear(set: &mut Handle);
    fn free(set: &mut Handle);
    fn contains(set: &Handle, value: V) -> bool;
    fn contains_range(set: &Handle, first: V, last: V) -> bool;
    fn is_disjoint_range(set: &Handle, first: V, last: V) -> bool;
    fn len(set: &Handle) -> N;
    fn len_in(set: &Handle, first: V, last: V) -> N;
    fn rank(set: &Handle, value: V) -> N;
    fn nth(set: &Handle, n: P, value: &mut V) -> bool;
    fn run_count(set: &Handle) -> usize;
    fn first(set: &Handle, value: &mut V) -> bool;
    fn last(set: &Handle, value: &mut V) -> bool;
    fn run_or_gap(set: &Handle, value: V, block: &mut Run<V>) -> bool;
    fn next_run(set: &Handle, from: V, run: &mut Run<V>) -> bool;
    fn prev_run(set: &Handle, from: V, run: &mut Run<V>) -> bool;
    fn run_after(set: &Handle, value: V, run: &mut Run<V>) -> bool;
    fn run_before(set: &Handle, value: V, run: &mut Run<V>) -> bool;
    fn first_gap(set: &Handle, from: V, len: P, gap: &mut Run<V>) -> bool;
    fn first_run_of(set: &Handle, from: V, len: P, run: &mut Run<V>) -> bool;
    fn complement(out: &mut Handle, set: &Handle) -> u32;
    fn clone(out: &mut Handle, set: &Handle) -> u32;
    fn sets_add(list: &mut List, set: &Handle) -> u32;
    fn sets_union(out: &mut Handle, list: &List) -> u32;
    fn sets_intersection(out: &mut Handle, list: &List) -> u32;
    fn sets_symmetric_difference(out: &mut Handle, list: &List) -> u32;
    fn sets_at_least(out: &mut Handle, list: &List, k: usize) -> u32;
    fn sets_free(list: &mut List);

    unsafe:
    fn union(out: &mut Handle, left: &Handle, right: &Handle) -> u32;
    fn intersection(out: &mut Handle, left: &Handle, right: &Handle) -> u32;
    fn difference(out: &mut Handle, left: &Handle, right: &Handle) -> u32;
    fn symmetric_difference(out: &mut Handle, left: &Handle, right: &Handle) -> u32;
    fn equal(left: &Handle, right: &Handle) -> bool;
    fn order(left: &Handle, right: &Handle) -> i32;
    fn is_subset(left: &Handle, right: &Handle) -> bool;
    fn is_disjoint(left: &Handle, right: &Handle) -> bool;
    fn runs_in(set: &Handle, first: V, last: V, runs: *mut Run<V>, count: usize) -> usize;
    fn to_bytes(set: &Handle, buffer: *mut u8, capacity: usize, length: &mut usize) -> u32;
    fn from_bytes(out: &mut Handle, bytes: *const u8, length: usize, position: &mut usize, reason: &mut u32) -> u32;
}
