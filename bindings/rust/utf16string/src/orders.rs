//! The constructors that name a byte order.

use crate::{BigEndian, LittleEndian, Utf16Error, WStr, WString};

macro_rules! constructors {
    ($(
        $Order:ident $name:literal $new:ident $new_mut:ident $unchecked:ident $unchecked_mut:ident
    )*) => {$(
        impl WStr<$Order> {
            methods! {
                #[doc = concat!("Like [`from_utf16`](Self::from_utf16), in ", $name, ".")]
                pub fn $new(raw: &[u8]) -> Result<&Self, Utf16Error> = Self::from_utf16(raw);
                #[doc = concat!("Like [`from_utf16_mut`](Self::from_utf16_mut), in ", $name, ".")]
                pub fn $new_mut(raw: &mut [u8]) -> Result<&mut Self, Utf16Error> =
                    Self::from_utf16_mut(raw);
            }

            unchecked! {
                $name;
                $unchecked(raw: &[u8]) -> &Self = Self::from_utf16_unchecked(raw);
                $unchecked_mut(raw: &mut [u8]) -> &mut Self = Self::from_utf16_unchecked_mut(raw);
            }
        }

        impl WString<$Order> {
            methods! {
                #[doc = concat!("Like [`from_utf16`](Self::from_utf16), in ", $name, ".")]
                pub fn $new(buf: Vec<u8>) -> Result<Self, Utf16Error> = Self::from_utf16(buf);
            }

            unchecked! {
                $name;
                $unchecked(buf: Vec<u8>) -> Self = Self::from_utf16_unchecked(buf);
            }
        }
    )*};
}

constructors! {
    LittleEndian "UTF-16LE"
        from_utf16le from_utf16le_mut from_utf16le_unchecked from_utf16le_unchecked_mut
    BigEndian "UTF-16BE"
        from_utf16be from_utf16be_mut from_utf16be_unchecked from_utf16be_unchecked_mut
}
