//! The traits of the crate `serde`: a set is the list of its runs as pairs, or its bytes in a format
//! that is not for people.

use core::fmt;
use core::marker::PhantomData;

use serde::de::{Error, SeqAccess, Visitor};
use serde::{ser, Deserialize, Deserializer, Serialize, Serializer};

use crate::build::Joining;
use crate::span::Span;
use crate::{Element, RangeSet};

/// Writes the runs as pairs of their first and last values, as in `[[1,5],[10,20]]`. A binary format
/// gets the bytes that [`RangeSet::to_bytes`] returns.
impl<T: Element + Serialize> Serialize for RangeSet<T> {
    fn serialize<S: Serializer>(&self, serializer: S) -> Result<S::Ok, S::Error> {
        if !serializer.is_human_readable() {
            let bytes = self.try_to_bytes().map_err(ser::Error::custom)?;
            return serializer.serialize_bytes(&bytes);
        }
        serializer.collect_seq(self.runs().map(|run| run.into_inner()))
    }
}

/// Reads pairs of first and last values, which may come in any order, overlap and touch. A pair
/// whose last value is below its first is an error. From a binary format, reads the bytes as
/// [`RangeSet::from_bytes`] does.
impl<'de, T: Element + Deserialize<'de>> Deserialize<'de> for RangeSet<T> {
    fn deserialize<D: Deserializer<'de>>(deserializer: D) -> Result<Self, D::Error> {
        if !deserializer.is_human_readable() {
            return deserializer.deserialize_bytes(Bytes(PhantomData));
        }
        deserializer.deserialize_seq(Pairs(PhantomData))
    }
}

struct Bytes<T>(PhantomData<T>);

impl<T: Element> Visitor<'_> for Bytes<T> {
    type Value = RangeSet<T>;

    fn expecting(&self, f: &mut fmt::Formatter<'_>) -> fmt::Result {
        f.write_str("the bytes of a set")
    }

    fn visit_bytes<E: Error>(self, bytes: &[u8]) -> Result<RangeSet<T>, E> {
        RangeSet::from_bytes(bytes).map_err(E::custom)
    }
}

struct Pairs<T>(PhantomData<T>);

impl<'de, T: Element + Deserialize<'de>> Visitor<'de> for Pairs<T> {
    type Value = RangeSet<T>;

    fn expecting(&self, f: &mut fmt::Formatter<'_>) -> fmt::Result {
        f.write_str("a list of pairs, each of the first and the last value of a run")
    }

    fn visit_seq<A: SeqAccess<'de>>(self, mut pairs: A) -> Result<RangeSet<T>, A::Error> {
        let mut set = RangeSet::new();
        let mut joining = Joining::new(&mut set);
        while let Some((first, last)) = pairs.next_element::<(T, T)>()? {
            let span = Span::new(first.rank(), last.rank());
            if span.is_none() {
                return Err(Error::custom("the last value of a pair is below the first"));
            }
            joining.add(span).map_err(Error::custom)?;
        }
        joining.finish().map_err(Error::custom)?;
        Ok(set)
    }
}
