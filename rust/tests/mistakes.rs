//! What happens if a user makes a mistake that compiles. The documentation of the crate has those
//! that do not (`compile_fail`), and `failed_allocations.rs` those that use up the memory.

use range_set::{ParseError, RangeSet};

#[test]
#[allow(clippy::reversed_empty_ranges)]
fn reversed_bounds_have_no_values() {
    let mut set = RangeSet::from(1..=9_u8);
    assert!(!set.insert_range(20..=15) && !set.remove_range(5..=4) && !set.insert_range(7..3));
    assert_eq!(set, RangeSet::from(1..=9));
    assert!(RangeSet::from(5..=1).is_empty() && RangeSet::from_iter([5..=1, 9..=7]).is_empty());
    assert!(RangeSet::from_runs([5..=1]).is_empty());
    assert_eq!(
        (set.runs_in(9..=1).count(), set.range(9..1).count()),
        (0, 0)
    );
    assert_eq!(set.len_in(9..=1), 0);
    assert_eq!("9..=8".parse(), Ok(RangeSet::<u8>::new()));
}

#[test]
fn a_value_that_is_too_great_is_an_error_with_its_place() {
    let place = |text: &str| match text.parse::<RangeSet<i8>>() {
        Err(ParseError::BadText { position }) => Some(position),
        _ => None,
    };
    assert_eq!(place("1..=127"), None);
    assert_eq!(
        (place("1..=128"), place("-128"), place("5, -129")),
        (Some(6), None, Some(6))
    );
    let error = "300".parse::<RangeSet<u8>>().unwrap_err();
    let wanted = "unexpected text at byte 2: a set is written as in \"1..=5, 7\"";
    assert_eq!(error.to_string(), wanted);
}

#[test]
fn bad_text_of_other_types_has_its_place() {
    fn place<T>(text: &str) -> Option<usize>
    where
        T: range_set::Element + std::str::FromStr,
    {
        match text.parse::<RangeSet<T>>() {
            Err(ParseError::BadText { position }) => Some(position),
            _ => None,
        }
    }
    use std::net::{Ipv4Addr, Ipv6Addr};
    assert_eq!(place::<Ipv4Addr>("10.0.0.1, 10.0.0.256"), Some(10));
    assert_eq!(place::<Ipv4Addr>("10.0.0.1..=10.0.0.9 , 10.0.0.12"), None);
    assert_eq!(place::<Ipv4Addr>("10.0.0.1-10.0.0.9"), Some(0));
    assert_eq!(place::<Ipv6Addr>("::1..=::ffff, g::"), Some(14));
    for (text, position) in [
        ("ab", Some(1)),
        ("'a", Some(2)),
        ("'ab'", Some(2)),
        ("''", Some(1)),
        ("'\\q'", Some(1)),
        ("'\\u{110000}'", Some(1)),
        ("a, ", Some(3)),
        (".", Some(0)),
        ("a..=", Some(4)),
        ("'\\''..='\\\\', é", None),
        ("\u{1F600} ..= '\u{1F602}'", None),
    ] {
        assert_eq!(place::<char>(text), position, "{text}");
    }
}

#[test]
fn a_set_that_is_walked_over_cannot_change() {
    // `for value in &set { set.insert(value + 1); }` does not compile. This is what works.
    let mut set = RangeSet::from(1..=3);
    for value in set.clone() {
        set.insert(value + 10);
    }
    assert_eq!(set.to_string(), "1..=3, 11..=13");
}
