//! Stand-in for serde: the traits as far as the three files name them. Every type has them,
//! since the derive macros write nothing. Nothing is ever encoded or decoded.
pub use serde_derive::{Deserialize, Serialize};

pub trait Serializer {
    type Ok;
    type Error;
}

pub trait Serialize {
    fn serialize<S: Serializer>(&self, serializer: S) -> Result<S::Ok, S::Error>;
}

impl<T: ?Sized> Serialize for T {
    fn serialize<S: Serializer>(&self, _: S) -> Result<S::Ok, S::Error> {
        unimplemented!("the stand-in encodes nothing")
    }
}

pub trait Deserialize<'de>: Sized {}
impl<'de, T> Deserialize<'de> for T {}

pub trait Deserializer<'de>: Sized {
    type Error: de::Error;
    fn deserialize_bytes<V: de::Visitor<'de>>(self, visitor: V) -> Result<V::Value, Self::Error>;
}

pub mod de {
    pub trait Error {}

    pub trait Visitor<'de>: Sized {
        type Value;
        fn expecting(&self, f: &mut std::fmt::Formatter<'_>) -> std::fmt::Result;
        fn visit_bytes<E: Error>(self, bytes: &[u8]) -> Result<Self::Value, E>;
        fn visit_byte_buf<E: Error>(self, bytes: Vec<u8>) -> Result<Self::Value, E>;
        fn visit_seq<A: SeqAccess<'de>>(self, seq: A) -> Result<Self::Value, A::Error>;
    }

    pub trait SeqAccess<'de> {
        type Error: Error;
        fn next_element<T: super::Deserialize<'de>>(&mut self) -> Result<Option<T>, Self::Error>;
    }
}
