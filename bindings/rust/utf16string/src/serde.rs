//! Strings are serialized as text, like [`String`].

use serde::{Deserialize, Deserializer, Serialize, Serializer};

use crate::{ByteOrder, WStr, WString};

impl<E: ByteOrder> Serialize for WStr<E> {
    fn serialize<S: Serializer>(&self, serializer: S) -> Result<S::Ok, S::Error> {
        serializer.collect_str(self)
    }
}

impl<E: ByteOrder> Serialize for WString<E> {
    fn serialize<S: Serializer>(&self, serializer: S) -> Result<S::Ok, S::Error> {
        self.as_wstr().serialize(serializer)
    }
}

impl<'de, E: ByteOrder> Deserialize<'de> for WString<E> {
    fn deserialize<D: Deserializer<'de>>(deserializer: D) -> Result<Self, D::Error> {
        String::deserialize(deserializer).map(Self::from)
    }
}
