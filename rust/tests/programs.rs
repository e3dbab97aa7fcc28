//! Short programs as new users write them, in the names that they guess.

use std::net::{Ipv4Addr, Ipv6Addr};

use range_set::prelude::*;

/// Temperatures: signed values, with ranges on both sides of 0.
#[test]
fn signed_values() {
    let mut freezing = RangeSet::<i32>::new();
    freezing.insert_range(-40..=-5);
    freezing.insert_range(-4..0);
    freezing.remove(-20);
    assert_eq!(freezing.to_string(), "-40..=-21, -19..=-1");
    assert_eq!(freezing.first(), Some(-40));
    let mild = !&freezing;
    assert_eq!(mild.ranges().next(), Some(i32::MIN..=-41));
    assert!(mild.contains(-20) && mild.contains(i32::MAX));
    let text = "-3..=4, 7".parse::<RangeSet<i64>>().unwrap();
    assert_eq!(text.iter().sum::<i64>(), 11);
}

/// Character classes.
#[test]
fn characters() {
    let mut word = RangeSet::from_iter(['a'..='z', 'A'..='Z', '0'..='9']);
    word.insert('_');
    assert!("range_set 2"
        .chars()
        .filter(|c| !word.contains(*c))
        .eq([' ']));
    let vowels: RangeSet<char> = "aeiou".chars().collect();
    let consonants = RangeSet::from('a'..='z') - &vowels;
    assert_eq!(consonants.len(), 21);
    assert_eq!(consonants.ranges().next(), Some('b'..='d'));
    let all = RangeSet::from('\0'..=char::MAX);
    assert!(all.is_universal());
    let mut ends = RangeSet::from(['\u{D7FF}', '\u{E000}']);
    assert!(ends.ranges().eq(['\u{D7FF}'..='\u{E000}']) && ends.len() == 2);
    assert_eq!(ends.pop_last(), Some('\u{E000}'));
    let read: RangeSet<char> = "a..=f, 'x', ',', '\\u{41}'..='C'".parse().unwrap();
    assert_eq!(
        read.to_string(),
        "','..=',', 'A'..='C', 'a'..='f', 'x'..='x'"
    );
    assert_eq!(read.to_string().parse(), Ok(read));
}

/// Lists of addresses of both families, and 128 bits.
#[test]
fn addresses() {
    let mut blocked = RangeSet::<Ipv4Addr>::new();
    blocked.insert_range(Ipv4Addr::new(10, 0, 0, 0)..=Ipv4Addr::new(10, 255, 255, 255));
    blocked.insert("192.168.0.1".parse().unwrap());
    assert!(blocked.contains(Ipv4Addr::new(10, 1, 2, 3)));
    assert_eq!(blocked.len(), (1 << 24) + 1);
    assert_eq!(
        blocked.to_string(),
        "10.0.0.0..=10.255.255.255, 192.168.0.1..=192.168.0.1"
    );
    assert_eq!(blocked.to_string().parse(), Ok(blocked));

    let sites: RangeSet<Ipv6Addr> = "2001:db8::..=2001:db8::ffff, ::1".parse().unwrap();
    assert_eq!(sites.ranges_len(), 2);
    let rest = !&sites;
    assert_eq!(rest.first(), Some(Ipv6Addr::UNSPECIFIED));
    assert_eq!(rest.gaps().count(), 2);

    let ids = RangeSet::<u128>::from_iter([1 << 100..=u128::MAX, 5..=5]);
    assert_eq!(ids.len(), u128::MAX - (1 << 100) + 2);
    assert_eq!(ids.nth(1), Some(1 << 100));
}

/// The names of range-set-blaze.
#[test]
fn names_of_other_crates() {
    let a = RangeSet::from([1..=5, 3..=8, 20..=22]);
    let b: RangeSet<i32> = [4, 5, 6, 100].into_iter().collect();
    assert_eq!(a.ranges().collect::<Vec<_>>(), [1..=8, 20..=22]);
    assert!(a.range(5..21).eq([5, 6, 7, 8, 20]));
    assert_eq!([&a, &b].union().to_string(), "1..=8, 20..=22, 100..=100");
    assert_eq!([a.clone(), b.clone()].intersection(), &a & &b);
    assert_eq!(a.union(&b), &a | &b);
    let mut c = RangeSet::from_iter([1, 2, 3].iter());
    assert!(c.ranges_insert(3..=4) && !c.insert(2) && c.remove(1));
    c.retain(|value| value % 2 == 0);
    assert_eq!(c.into_ranges().collect::<Vec<_>>(), [2..=2, 4..=4]);
    for value in &b {
        assert!(b.contains(value));
    }
    let half_open: RangeSet<u8> = [0..5, 5..7].into_iter().collect();
    assert_eq!(half_open, RangeSet::from(0..7));
}

/// Blocks of a disk: the first free ones that are long enough.
#[test]
fn free_blocks() {
    let mut free = RangeSet::<u64>::from(0..1000);
    let mut allocate = |len: u64| {
        let run = free.first_run_of(0, len.into())?;
        free.remove_range(*run.start()..*run.start() + len);
        Some(*run.start())
    };
    assert_eq!(
        (allocate(600), allocate(500), allocate(400)),
        (Some(0), None, Some(600))
    );
    assert!(free.is_empty());
    free.insert_range(10..20);
    assert_eq!(free.runs_in(15..).next(), Some(15..=19));
}

/// Runs as pairs, for data formats. With the manifest in `rust/serde`, a set does this by itself.
#[test]
fn pairs_and_back() {
    let set = RangeSet::from_iter([1_u16..=5, 9..=9]);
    let pairs: Vec<(u16, u16)> = set.runs().map(|run| run.into_inner()).collect();
    assert_eq!(pairs, [(1, 5), (9, 9)]);
    let back = RangeSet::from_runs(pairs.into_iter().map(|(first, last)| first..=last));
    assert_eq!(back, set);
}

/// A set in a struct of a user that has no bound, and in a map.
#[test]
fn sets_in_other_types() {
    #[derive(Clone, Debug, Default, PartialEq, Eq, Hash, PartialOrd, Ord)]
    struct Named<T: Element> {
        name: String,
        values: RangeSet<T>,
    }
    let one = Named::<u8> {
        values: [1, 2].into(),
        ..Default::default()
    };
    assert_eq!(one.clone(), one);
    assert_eq!(format!("{one:?}"), "Named { name: \"\", values: 1..=2 }");
    let mut by_set = std::collections::BTreeMap::new();
    by_set.insert(one.values.clone(), "low");
    assert_eq!(by_set.get(&RangeSet::from(1..=2)), Some(&"low"));

    struct Unbounded<T>(Option<RangeSet<T>>);
    assert!(Unbounded::<String>(None).0.is_none());

    fn is_sent_and_shared<T: Send + Sync>() {}
    is_sent_and_shared::<RangeSet<u128>>();
    is_sent_and_shared::<range_set::Runs<'_, char>>();
    is_sent_and_shared::<range_set::IntoIter<i8>>();
}
