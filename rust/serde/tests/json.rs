//! Sets to JSON and back.

use std::net::{Ipv4Addr, Ipv6Addr};

use range_set::RangeSet;
use serde::{de::DeserializeOwned, Serialize};

fn there_and_back<T>(set: RangeSet<T>, wanted: &str)
where
    T: range_set::Element + std::fmt::Debug + Serialize + DeserializeOwned,
{
    let json = serde_json::to_string(&set).unwrap();
    assert_eq!(json, wanted);
    assert_eq!(serde_json::from_str::<RangeSet<T>>(&json).unwrap(), set);
}

#[test]
fn runs_are_pairs() {
    there_and_back(RangeSet::<u32>::new(), "[]");
    there_and_back(RangeSet::<i8>::universe(), "[[-128,127]]");
    there_and_back(RangeSet::from([1_u64, 2, 5, u64::MAX]), "[[1,2],[5,5],[18446744073709551615,18446744073709551615]]");
    there_and_back(RangeSet::from('a'..='z'), r#"[["a","z"]]"#);
    there_and_back(RangeSet::<Ipv4Addr>::universe(), r#"[["0.0.0.0","255.255.255.255"]]"#);
    there_and_back(RangeSet::from([Ipv6Addr::LOCALHOST]), r#"[["::1","::1"]]"#);
}

#[test]
fn pairs_may_come_in_any_order() {
    let set: RangeSet<u8> = serde_json::from_str("[[7, 9], [1, 3], [4, 4], [8, 8]]").unwrap();
    assert_eq!(set.to_string(), "1..=4, 7..=9");
}

#[test]
fn a_field_of_a_struct_is_read_and_written() {
    // Without the macros of serde_derive, a tuple stands for a struct.
    let text = serde_json::to_string(&("open", RangeSet::from(20_u16..=22))).unwrap();
    assert_eq!(text, r#"["open",[[20,22]]]"#);
    let (name, set): (String, RangeSet<u16>) = serde_json::from_str(&text).unwrap();
    assert_eq!((name.as_str(), set.len()), ("open", 3));
}

#[test]
fn bad_json_is_an_error_that_says_why() {
    for (json, why) in [
        ("[[5, 1]]", "the last value of a pair is below the first"),
        ("[5]", "invalid type: integer `5`"),
        ("{}", "a list of pairs"),
        ("[[1, 300]]", "invalid value: integer `300`, expected u8"),
        ("[[1, 2, 3]]", "trailing characters"),
        ("[[1]]", "invalid length 1"),
    ] {
        let error = serde_json::from_str::<RangeSet<u8>>(json).unwrap_err().to_string();
        assert!(error.contains(why), "{json}: {error}");
    }
}
