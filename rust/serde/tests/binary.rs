//! Sets to a binary format and back: as the bytes of `to_bytes`.

use range_set::RangeSet;
use serde::de::value::{BytesDeserializer, Error};
use serde::de::{Deserialize, Deserializer, IntoDeserializer, Visitor};
use serde::ser::{Error as _, Impossible, Serialize, Serializer};

/// A binary format that writes bytes, and nothing else.
struct Writer;

macro_rules! refused {
    ($($name:ident($($type:ty),*) $(-> $result:ty)?;)*) => {
        $(
            fn $name(self $(, _: $type)*) -> refused!(@ $($result)?) {
                Err(Error::custom("not bytes"))
            }
        )*
    };
    (@) => { Result<Vec<u8>, Error> };
    (@ $result:ty) => { Result<$result, Error> };
}

type Never = Impossible<Vec<u8>, Error>;

impl Serializer for Writer {
    type Ok = Vec<u8>;
    type Error = Error;
    type SerializeSeq = Never;
    type SerializeTuple = Never;
    type SerializeTupleStruct = Never;
    type SerializeTupleVariant = Never;
    type SerializeMap = Never;
    type SerializeStruct = Never;
    type SerializeStructVariant = Never;

    fn is_human_readable(&self) -> bool {
        false
    }

    fn serialize_bytes(self, bytes: &[u8]) -> Result<Vec<u8>, Error> {
        Ok(bytes.to_vec())
    }

    fn serialize_some<T: ?Sized>(self, _: &T) -> Result<Vec<u8>, Error> {
        Err(Error::custom("not bytes"))
    }

    fn serialize_newtype_struct<T: ?Sized>(self, _: &'static str, _: &T) -> Result<Vec<u8>, Error> {
        Err(Error::custom("not bytes"))
    }

    fn serialize_newtype_variant<T: ?Sized>(
        self,
        _: &'static str,
        _: u32,
        _: &'static str,
        _: &T,
    ) -> Result<Vec<u8>, Error> {
        Err(Error::custom("not bytes"))
    }

    refused! {
        serialize_bool(bool);
        serialize_i8(i8);
        serialize_i16(i16);
        serialize_i32(i32);
        serialize_i64(i64);
        serialize_u8(u8);
        serialize_u16(u16);
        serialize_u32(u32);
        serialize_u64(u64);
        serialize_f32(f32);
        serialize_f64(f64);
        serialize_char(char);
        serialize_str(&str);
        serialize_none();
        serialize_unit();
        serialize_unit_struct(&'static str);
        serialize_unit_variant(&'static str, u32, &'static str);
        serialize_seq(Option<usize>) -> Never;
        serialize_tuple(usize) -> Never;
        serialize_tuple_struct(&'static str, usize) -> Never;
        serialize_tuple_variant(&'static str, u32, &'static str, usize) -> Never;
        serialize_map(Option<usize>) -> Never;
        serialize_struct(&'static str, usize) -> Never;
        serialize_struct_variant(&'static str, u32, &'static str, usize) -> Never;
    }
}

/// The same format, read.
struct Reader<'a>(&'a [u8]);

impl<'de> Deserializer<'de> for Reader<'de> {
    type Error = Error;

    fn is_human_readable(&self) -> bool {
        false
    }

    fn deserialize_any<V: Visitor<'de>>(self, visitor: V) -> Result<V::Value, Error> {
        let bytes: BytesDeserializer<'_, Error> = self.0.into_deserializer();
        bytes.deserialize_any(visitor)
    }

    serde::forward_to_deserialize_any! {
        bool i8 i16 i32 i64 u8 u16 u32 u64 f32 f64 char str string bytes byte_buf option unit unit_struct
        newtype_struct seq tuple tuple_struct map struct enum identifier ignored_any
    }
}

#[test]
fn a_binary_format_has_the_bytes() {
    let set = RangeSet::from([1_u64, 2, 5, u64::MAX]);
    let bytes = set.serialize(Writer).unwrap();
    assert_eq!(bytes, set.to_bytes());
    assert_eq!(RangeSet::<u64>::deserialize(Reader(&bytes)).unwrap(), set);
    let letters = RangeSet::from('a'..='z');
    let bytes = letters.serialize(Writer).unwrap();
    assert_eq!(bytes, b"\xF5RSB\x01\x20\x01\x61\x19");
    assert_eq!(
        RangeSet::<char>::deserialize(Reader(&bytes)).unwrap(),
        letters
    );
}

#[test]
fn bad_bytes_are_an_error_that_says_where() {
    let error = RangeSet::<u8>::deserialize(Reader(b"\xF5RSB\x01\x20\x01\xFF\x01\x01"));
    let wanted = "not the bytes of a set, at byte 9: the number is too large";
    assert_eq!(error.unwrap_err().to_string(), wanted);
}
