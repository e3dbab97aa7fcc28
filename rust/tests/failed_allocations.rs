//! The allocations of a call fail, from each one on. The call then returns an error, or panics, and
//! its sets are unchanged.
//!
//! No block stays allocated.
//!
//! The test replaces `malloc` and its like, which only works with the GNU C library.
#![cfg(all(target_os = "linux", target_env = "gnu"))]

use std::cell::Cell;
use std::ffi::c_void;
use std::fmt::{Debug, Display};
use std::panic;
use std::ptr;
use std::str::FromStr;

use range_set::{AllocError, BytesError, Element, ParseError, RangeSet};

extern "C" {
    fn __libc_malloc(size: usize) -> *mut c_void;
    fn __libc_realloc(block: *mut c_void, size: usize) -> *mut c_void;
    fn __libc_free(block: *mut c_void);
}

thread_local! {
    /// The number of allocations until they fail, or `None` if none is to fail.
    static LEFT: Cell<Option<usize>> = const { Cell::new(None) };
    /// Whether only one allocation is to fail.
    static ONCE: Cell<bool> = const { Cell::new(false) };
    /// Whether an allocation failed.
    static FAILED: Cell<bool> = const { Cell::new(false) };
    /// The number of blocks that this thread has allocated, less those that it has freed.
    static BLOCKS: Cell<isize> = const { Cell::new(0) };
}

/// Returns whether this allocation fails.
fn fails() -> bool {
    let left = LEFT.get();
    let fails = left == Some(0);
    if fails {
        FAILED.set(true);
    }
    LEFT.set(match left {
        Some(0) if ONCE.get() => None,
        _ => left.map(|left| left.saturating_sub(1)),
    });
    fails
}

#[no_mangle]
unsafe extern "C" fn malloc(size: usize) -> *mut c_void {
    if fails() {
        return ptr::null_mut();
    }
    BLOCKS.set(BLOCKS.get() + 1);
    unsafe { __libc_malloc(size) }
}

#[no_mangle]
unsafe extern "C" fn realloc(block: *mut c_void, size: usize) -> *mut c_void {
    if fails() {
        return ptr::null_mut();
    }
    BLOCKS.set(BLOCKS.get() + isize::from(block.is_null()));
    unsafe { __libc_realloc(block, size) }
}

#[no_mangle]
unsafe extern "C" fn free(block: *mut c_void) {
    BLOCKS.set(BLOCKS.get() - isize::from(!block.is_null()));
    unsafe { __libc_free(block) }
}

/// Returns what a call returns if its allocations fail from one number on, and whether it got so far.
fn with_failures<V>(number: usize, call: impl FnOnce() -> V) -> (V, bool) {
    LEFT.set(Some(number));
    FAILED.set(false);
    let result = call();
    LEFT.set(None);
    (result, FAILED.get())
}

/// A type of values with numbers up to 255.
trait Value: Element + From<u8> + Debug + Display + FromStr {}

impl Value for u8 {}
impl Value for u32 {}
impl Value for i64 {}
impl Value for u128 {}

fn set<T: Value>(ranges: &[(u8, u8)]) -> RangeSet<T> {
    ranges
        .iter()
        .map(|&(first, last)| T::from(first)..=T::from(last))
        .collect()
}

fn ten_runs<T: Value>() -> RangeSet<T> {
    set(&[0, 10, 20, 30, 40, 50, 60, 70, 80, 90].map(|first| (first, first + 4)))
}

type Call<T> = fn(&mut RangeSet<T>, &mut RangeSet<T>) -> Result<bool, AllocError>;

/// Calls that change the first set, and of which one changes the second.
fn changes<T: Value>() -> Vec<(&'static str, Call<T>)> {
    vec![
        ("insert", |set, _| set.try_insert(7.into())),
        ("insert_range", |set, _| {
            set.try_insert_range(T::from(200)..=T::from(250))
        }),
        ("remove", |set, _| set.try_remove(12.into())),
        ("remove_range", |set, _| {
            set.try_remove_range(T::from(12)..=T::from(13))
        }),
        ("union_with", |set, other| set.try_union_with(other)),
        ("intersect_with", |set, other| set.try_intersect_with(other)),
        ("subtract", |set, other| set.try_subtract(other)),
        ("xor_with", |set, other| set.try_xor_with(other)),
        ("pop_first", |set, _| Ok(set.try_pop_first()?.is_some())),
        ("pop_last", |set, _| Ok(set.try_pop_last()?.is_some())),
        ("split_off", |set, _| {
            Ok(!set.try_split_off(T::from(42))?.is_empty())
        }),
        ("append", |set, other| set.try_append(other).map(|()| true)),
        ("retain", |set, _| {
            set.try_retain(|value| *value != T::from(33)).map(|()| true)
        }),
        ("retain_runs", |set, _| {
            set.try_retain_runs(|run| *run.start() > T::from(9))
                .map(|()| true)
        }),
    ]
}

type Build<T> = fn(&RangeSet<T>, &RangeSet<T>) -> Result<RangeSet<T>, AllocError>;

/// Calls that make a new set.
fn builds<T: Value>() -> Vec<(&'static str, Build<T>)> {
    vec![
        ("union", |a, b| a.try_union(b)),
        ("intersection", |a, b| a.try_intersection(b)),
        ("difference", |a, b| a.try_difference(b)),
        ("symmetric_difference", |a, b| a.try_symmetric_difference(b)),
        ("complement", |a, _| a.try_complement()),
        ("clone", |a, _| a.try_clone()),
        ("universe", |_, _| RangeSet::try_universe()),
        ("from_runs", |a, _| RangeSet::try_from_runs(a.runs())),
        ("from_values", |a, _| RangeSet::try_from_values(a)),
        ("union_of", |a, b| RangeSet::try_union_of([a, b, a])),
        ("intersection_of", |a, b| {
            RangeSet::try_intersection_of([a, b])
        }),
        ("intersection_of no sets", |_, _| {
            RangeSet::try_intersection_of([])
        }),
        ("symmetric_difference_of", |a, b| {
            RangeSet::try_symmetric_difference_of([a, b])
        }),
        ("at_least", |a, b| RangeSet::try_at_least(2, [a, b, a])),
        ("at_least 0", |a, b| RangeSet::try_at_least(0, [a, b])),
    ]
}

fn change_each<T: Value>() {
    let other: RangeSet<T> = set(&[(3, 11), (23, 70), (95, 200)]);
    for (name, call) in changes::<T>() {
        let mut wanted = (ten_runs(), other.clone());
        assert_eq!(call(&mut wanted.0, &mut wanted.1), Ok(true), "{name}");
        for number in 0.. {
            let mut sets = (ten_runs(), other.clone());
            let (result, has_failed) = with_failures(number, || call(&mut sets.0, &mut sets.1));
            if !has_failed {
                assert_eq!((result, sets), (Ok(true), wanted), "{name}");
                break;
            }
            let unchanged = (ten_runs(), other.clone());
            assert_eq!(
                (result, sets),
                (Err(AllocError), unchanged),
                "{name}, allocation {number}"
            );
        }
    }
}

#[test]
fn a_failed_change_leaves_the_sets_unchanged() {
    change_each::<u8>();
    change_each::<u32>();
    change_each::<i64>();
    change_each::<u128>();
}

fn build_each<T: Value>() {
    let (set, other) = (ten_runs::<T>(), set(&[(3, 11), (23, 70)]));
    for (name, call) in builds::<T>() {
        let wanted = call(&set, &other).unwrap();
        let mut failures = 0;
        loop {
            let (result, has_failed) = with_failures(failures, || call(&set, &other));
            if !has_failed {
                assert_eq!(result, Ok(wanted), "{name}");
                break;
            }
            assert_eq!(result, Err(AllocError), "{name}, allocation {failures}");
            failures += 1;
        }
        assert!(failures > 0, "{name} does not allocate");
    }
}

#[test]
fn a_failed_build_returns_an_error() {
    build_each::<u8>();
    build_each::<u32>();
    build_each::<i64>();
    build_each::<u128>();
}

fn parse<T: Value>() {
    let mut failures = 0;
    loop {
        let (result, has_failed) = with_failures(failures, || "1..=5, 7".parse::<RangeSet<T>>());
        if !has_failed {
            assert_eq!(result, Ok(set(&[(1, 5), (7, 7)])));
            break;
        }
        let no_memory = Err(ParseError::NoMemory(AllocError));
        assert_eq!(result, no_memory, "allocation {failures}");
        failures += 1;
    }
    assert!(failures > 0);
}

#[test]
fn a_failed_parse_returns_an_error() {
    parse::<u8>();
    parse::<u32>();
    parse::<i64>();
    parse::<u128>();
}

fn bytes<T: Value>() {
    let set = ten_runs::<T>();
    let bytes = set.to_bytes();
    for failures in 0.. {
        let (result, has_failed) = with_failures(failures, || set.try_to_bytes());
        if !has_failed {
            assert_eq!(result, Ok(bytes.clone()));
            assert!(failures >= 3);
            break;
        }
        assert_eq!(result, Err(AllocError), "allocation {failures}");
    }
    for failures in 0.. {
        let (result, has_failed) = with_failures(failures, || RangeSet::from_bytes(&bytes));
        if !has_failed {
            assert_eq!(result, Ok(set));
            assert!(failures > 0);
            break;
        }
        let no_memory = Err(BytesError::NoMemory(AllocError));
        assert_eq!(result, no_memory, "allocation {failures}");
    }
}

#[test]
fn failed_bytes_return_an_error() {
    bytes::<u8>();
    bytes::<u32>();
    bytes::<i64>();
    bytes::<u128>();
}

/// Makes every call, with failed allocations and without, and drops what it returns.
fn make_and_drop<T: Value>() {
    change_each::<T>();
    build_each::<T>();
    parse::<T>();
    bytes::<T>();
    let set = ten_runs::<T>();
    let (mut runs, mut members) = (set.clone().into_runs(), set.clone().into_iter());
    assert!(runs.next().is_some() && members.next_back().is_some());
    assert!("1, 2..".parse::<RangeSet<T>>().is_err());
    let mut other = set.clone();
    other.clone_from(&set);
    other.clear();
    other = !set;
    drop(std::mem::take(&mut other));
}

#[test]
fn no_block_stays_allocated() {
    let before = BLOCKS.get();
    make_and_drop::<u8>();
    make_and_drop::<u32>();
    make_and_drop::<i64>();
    make_and_drop::<u128>();
    assert_eq!(BLOCKS.get(), before);
}

/// Returns whether a call panics if its first allocation fails.
fn panics(call: impl FnOnce() + panic::UnwindSafe) -> bool {
    let result = panic::catch_unwind(|| {
        // A panic allocates too.
        ONCE.set(true);
        LEFT.set(Some(0));
        call();
    });
    LEFT.set(None);
    ONCE.set(false);
    result.is_err()
}

#[test]
fn calls_without_try_panic() {
    assert!(panics(|| assert!(RangeSet::<u32>::new().insert(1))));
    assert!(panics(|| assert!(RangeSet::<u128>::from(1..=5).len() == 5)));
    assert!(panics(|| assert!(!RangeSet::<char>::universe().is_empty())));
    assert!(panics(|| assert!(
        RangeSet::<i16>::from_iter([1, 2]).len_in(1..) == 2
    )));
    let set = RangeSet::from([1_u8, 2, 9]);
    let before = set.clone();
    assert!(panics(|| drop(set.complement())));
    assert!(panics(|| drop(&set | &before)));
    assert_eq!(set, before);
}
