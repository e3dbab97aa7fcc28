//! Sets as bytes: the rows of `docs/FORMAT.md`, each element type, and bytes that are those of no set.

mod common;

use std::collections::HashSet;

use common::{Value, Year, BASES, PLACES};
use range_set::{BytesError, BytesReason, Element, RangeSet};

/// Appends a number, as `docs/FORMAT.md` says.
fn push_number(bytes: &mut Vec<u8>, mut value: u128) {
    while value > 127 {
        bytes.push(128 + (value % 128) as u8);
        value /= 128;
    }
    bytes.push(value as u8);
}

/// Returns the bytes of the set with these runs of ranks.
fn bytes_of(bits: u8, runs: &[(u128, u128)]) -> Vec<u8> {
    let mut bytes = b"\xF5RSB\x01".to_vec();
    bytes.push(bits);
    push_number(&mut bytes, runs.len() as u128);
    let mut after = 0_u128;
    for &(first, last) in runs {
        push_number(&mut bytes, first - after);
        push_number(&mut bytes, last - first);
        after = last.wrapping_add(1);
    }
    bytes
}

fn fault<T: Element>(bytes: &[u8]) -> (usize, BytesReason) {
    match RangeSet::<T>::from_bytes(bytes) {
        Err(BytesError::BadBytes { position, reason }) => (position, reason),
        _ => panic!("no fault: {bytes:?}"),
    }
}

/// A type of twelve values, of which the first has rank 5.
#[derive(Clone, Copy, Debug, PartialEq, Eq, PartialOrd, Ord)]
struct Small(u32);

impl Element for Small {
    type Rank = u32;
    const MIN: Self = Small(5);
    const MAX: Self = Small(16);

    fn rank(self) -> u32 {
        self.0
    }

    fn from_rank(rank: u32) -> Self {
        assert!((5..=16).contains(&rank));
        Small(rank)
    }
}

/// A type whose ranks are the upper numbers of 128 bits.
#[derive(Clone, Copy, Debug, PartialEq, Eq, PartialOrd, Ord)]
struct Upper(u128);

impl Element for Upper {
    type Rank = u128;
    const MIN: Self = Upper(300);
    const MAX: Self = Upper(u128::MAX);

    fn rank(self) -> u128 {
        self.0
    }

    fn from_rank(rank: u128) -> Self {
        Upper(rank)
    }
}

/// A type whose ranks differ in their low seven bits from most numbers: these are 104 to 114.
#[derive(Clone, Copy, Debug, PartialEq, Eq, PartialOrd, Ord)]
struct Narrow(u64);

impl Element for Narrow {
    type Rank = u64;
    const MIN: Self = Narrow(1000);
    const MAX: Self = Narrow(1010);

    fn rank(self) -> u64 {
        self.0
    }

    fn from_rank(rank: u64) -> Self {
        Narrow(rank)
    }
}

#[test]
fn worked_rows() {
    let set = RangeSet::<u8>::from_iter([3..=7, 10..=10, 200..=255]);
    let whole = "f552534201800100ffffffffffffffffffffffffffffffffffff03";
    for (bytes, wanted) in [
        (set.to_bytes(), "f552534201200303040200bd0137"),
        (
            RangeSet::<i64>::from(-1..=300).to_bytes(),
            "f5525342014001ffffffffffffffff7fad02",
        ),
        (RangeSet::<u128>::universe().to_bytes(), whole),
        (RangeSet::<i128>::new().to_bytes(), "f5525342018000"),
        (
            RangeSet::<i8>::universe().to_bytes(),
            "f552534201200100ff01",
        ),
        (
            RangeSet::from(['\u{E000}']).to_bytes(),
            "f552534201200180b00300",
        ),
    ] {
        let hex: String = bytes.iter().map(|byte| format!("{byte:02x}")).collect();
        assert_eq!(hex, wanted);
    }
}

#[test]
fn worked_rows_of_bad_bytes() {
    use BytesReason::*;
    let rows: [(&[u8], usize, BytesReason); 9] = [
        (b"", 0, CutShort),
        (b"\xF5RS\n", 3, NotMagic),
        (b"\xF5RSB\x02", 4, OtherVersion),
        (b"\xF5RSB\x01\x40\0", 5, OtherWidth),
        (b"\xF5RSB\x01\x20\x80\0", 7, NotShortest),
        (b"\xF5RSB\x01\x20\x02\x03\x04\0", 9, Touching),
        (b"\xF5RSB\x01\x20\x01\xC8\x01\x38", 9, PastGreatest),
        (b"\xF5RSB\x01\x20\x81\x01", 6, PastGreatest),
        (b"\xF5RSB\x01\x20\0\0", 7, TooLong),
    ];
    for (bytes, position, reason) in rows {
        assert_eq!(fault::<u8>(bytes), (position, reason), "{bytes:?}");
    }
    let error = RangeSet::<u8>::from_bytes(b"\xF5RSX").unwrap_err();
    let said = "not the bytes of a set, at byte 3: the bytes of a set begin otherwise";
    assert_eq!(error.to_string(), said);
    assert_eq!(fault::<u64>(b"\xF5RSB\x01\x80\0"), (5, OtherWidth));
}

#[test]
fn a_type_of_upper_ranks() {
    use BytesReason::*;
    assert_eq!(
        fault::<Upper>(&bytes_of(128, &[(299, 400)])),
        (8, BelowLeast)
    );
    assert_eq!(fault::<Upper>(&bytes_of(128, &[(5, 400)])), (7, BelowLeast));
    let whole = RangeSet::<Upper>::universe();
    assert_eq!(whole.to_bytes(), bytes_of(128, &[(300, u128::MAX)]));
    assert_eq!(RangeSet::from_bytes(&whole.to_bytes()), Ok(whole));
    assert_eq!(
        fault::<Year>(&bytes_of(64, &[(4949, 4950)])),
        (8, BelowLeast)
    );
    assert_eq!(
        fault::<Year>(&bytes_of(64, &[(7000, 7000)])),
        (8, PastGreatest)
    );
}

#[test]
fn the_low_bits_of_a_rank_may_be_wrong() {
    use BytesReason::*;
    for rank in 1000..=1010 {
        let bytes = bytes_of(64, &[(rank, rank)]);
        assert_eq!(
            RangeSet::from_bytes(&bytes),
            Ok(RangeSet::from([Narrow(rank as u64)]))
        );
    }
    for rank in [900, 996, 1011, 1023, 1024, 1099] {
        let bytes = bytes_of(64, &[(rank, rank)]);
        assert_eq!(fault::<Narrow>(&bytes), (7, PastGreatest), "{rank}");
    }
    let (below, above) = (1005 - 128, 1005 + 128);
    assert_eq!(
        fault::<Narrow>(&bytes_of(64, &[(below, below)])),
        (8, BelowLeast)
    );
    assert_eq!(
        fault::<Narrow>(&bytes_of(64, &[(above, above)])),
        (8, PastGreatest)
    );
}

mod checks {
    use super::*;

    pub fn there_and_back<T: Value>() {
        let bits = 8 * size_of::<T::Rank>() as u8;
        let rank = |value: T| value.rank().to_string().parse::<u128>().unwrap();
        for base in BASES {
            for pattern in [
                0_u64,
                1,
                0x8000_0000_0001,
                0xFFFF_FFFF_FFFF,
                0x5555_5555_5555,
                0x70E3_21FF_0008,
            ] {
                let values = (0..PLACES).filter(|place| pattern >> place & 1 == 1);
                let set: RangeSet<T> = values.map(|place| T::at(base, place)).collect();
                let runs: Vec<_> = set
                    .runs()
                    .map(|run| (rank(*run.start()), rank(*run.end())))
                    .collect();
                let bytes = set.to_bytes();
                assert_eq!(bytes, bytes_of(bits, &runs));
                assert_eq!(set.try_to_bytes().as_ref(), Ok(&bytes));
                assert_eq!(RangeSet::from_bytes(&bytes), Ok(set));
                let longer = [&bytes[..], &[0]].concat();
                assert_eq!(fault::<T>(&longer), (bytes.len(), BytesReason::TooLong));
                for length in 0..bytes.len() {
                    assert_eq!(
                        fault::<T>(&bytes[..length]),
                        (length, BytesReason::CutShort)
                    );
                }
            }
        }
        let whole = RangeSet::<T>::universe();
        assert_eq!(
            whole.to_bytes(),
            bytes_of(bits, &[(rank(T::MIN), rank(T::MAX))])
        );
        assert_eq!(RangeSet::from_bytes(&whole.to_bytes()), Ok(whole));
    }
}

for_each_type!(there_and_back);

#[test]
fn a_large_set() {
    let set: RangeSet<u64> = (0..50_000)
        .map(|at| at * 1_000_003..=at * 1_000_003 + at)
        .collect();
    let bytes = set.to_bytes();
    assert_eq!(bytes.len(), bytes.capacity());
    assert_eq!(
        fault::<u64>(&bytes[..bytes.len() - 1]),
        (bytes.len() - 1, BytesReason::CutShort)
    );
    assert_eq!(RangeSet::from_bytes(&bytes), Ok(set));
}

/// The position is the greatest number of first bytes that some set's bytes have too.
#[test]
fn positions_by_all_sets_of_a_type() {
    let mut sets = Vec::new();
    let mut prefixes = HashSet::new();
    for members in 0..1_u32 << 12 {
        let set: RangeSet<Small> = (5..=16)
            .filter(|rank| members >> (rank - 5) & 1 == 1)
            .map(Small)
            .collect();
        let bytes = set.to_bytes();
        prefixes.extend((0..=bytes.len()).map(|length| bytes[..length].to_vec()));
        assert_eq!(RangeSet::from_bytes(&bytes), Ok(set));
        sets.push(bytes);
    }
    let all: HashSet<_> = sets.iter().cloned().collect();
    assert_eq!(all.len(), sets.len());

    let mut draws = 1_u64;
    let mut draw = |below: usize| {
        draws ^= draws << 13;
        draws ^= draws >> 7;
        draws ^= draws << 17;
        (draws >> 20) as usize % below
    };
    let mut seen = HashSet::new();
    for _ in 0..20_000 {
        let mut bytes = sets[draw(sets.len())].clone();
        for _ in 0..=draw(2) {
            let start = if draw(10) == 0 { 0 } else { 5 };
            let at = (start + draw(bytes.len() + 1)).min(bytes.len());
            let end = (at + draw(2)).min(bytes.len());
            let new: Vec<u8> = (0..draw(3))
                .map(|_| [0, 1, 2, 4, 5, 6, 7, 11, 16, 17, 127, 128, 133, 255][draw(14)])
                .collect();
            bytes.splice(at..end, new);
        }
        if all.contains(&bytes) {
            continue;
        }
        let fits = |length: &usize| prefixes.contains(&bytes[..*length]);
        let wanted = (0..=bytes.len()).filter(fits).max().unwrap();
        let (position, reason) = fault::<Small>(&bytes);
        assert_eq!(position, wanted, "{bytes:?}");
        assert_eq!(
            reason == BytesReason::CutShort,
            position == bytes.len(),
            "{bytes:?}"
        );
        seen.insert(reason);
    }
    // Each number has one byte, so none has a longer form.
    assert_eq!(seen.len(), 8, "{seen:?}");
    assert!(!seen.contains(&BytesReason::NotShortest));
}
