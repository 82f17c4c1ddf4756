//! What [`String`] and [`str`] implement of std.

use std::borrow::{Borrow, BorrowMut, Cow};
use std::cmp::Ordering;
use std::convert::Infallible;
use std::fmt;
use std::ops::{Add, AddAssign, Deref, DerefMut};
use std::rc::Rc;
use std::str::FromStr;
use std::sync::Arc;

use crate::error::FromUtf16Error;
use crate::proved::{kit::Global, utf16string};
use crate::view::{byte_order, validate};
use crate::{ByteOrder, Utf16Error, WStr, WString, WStringExt};

/// Implementations of traits, of which some have a type in brackets.
macro_rules! impls {
    ($(
        $(#[$doc:meta])* $Trait:path $([$Name:ident = $Made:ty])?, $Type:ty { $($methods:tt)* }
    )*) => {$(
        $(#[$doc])*
        impl<'a, E: ByteOrder> $Trait for $Type {
            $(type $Name = $Made;)?
            methods! { $($methods)* }
        }
    )*};
}

/// Pairs of types whose texts are compared, in both directions.
macro_rules! equal {
    ($($Left:ty, $Right:ty: |$left:ident, $right:ident| $is_equal:expr;)*) => {$(
        impls! {
            PartialEq<$Right>, $Left {
                fn eq(&self, $right: &$Right) -> bool = { let $left = self; $is_equal };
            }
            PartialEq<$Left>, $Right {
                fn eq(&self, $left: &$Left) -> bool = { let $right = self; $is_equal };
            }
        }
    )*};
}

equal! {
    WStr<E>, str: |left, right| left.view().eq_str(right);
    WString<E>, str: |left, right| left.view().eq_str(right);
    WString<E>, WStr<E>: |left, right| **left == *right;
    WString<E>, &WStr<E>: |left, right| **left == **right;
    WString<E>, &str: |left, right| *left == **right;
    WString<E>, String: |left, right| *left == **right;
    WStr<E>, String: |left, right| *left == **right;
    &WStr<E>, String: |left, right| **left == **right;
}

impls! {
    AsRef<[u8]>, WStr<E> {
        fn as_ref(&self) -> &[u8] = self.as_bytes();
    }
    AsRef<[u8]>, WString<E> {
        fn as_ref(&self) -> &[u8] = self.as_bytes();
    }
    AsRef<WStr<E>>, WStr<E> {
        fn as_ref(&self) -> &WStr<E> = self;
    }
    AsRef<WStr<E>>, WString<E> {
        fn as_ref(&self) -> &WStr<E> = self;
    }
    /// Writes the text. Width and fill are ignored.
    fmt::Display, WStr<E> {
        fn fmt(&self, f: &mut fmt::Formatter<'_>) -> fmt::Result =
            dethrux::display(byte_order::<E>(), self.as_bytes()).fmt(f);
    }
    fmt::Display, WString<E> {
        fn fmt(&self, f: &mut fmt::Formatter<'_>) -> fmt::Result = (**self).fmt(f);
    }
    PartialOrd, WStr<E> {
        fn partial_cmp(&self, other: &Self) -> Option<Ordering> = Some(self.cmp(other));
    }
    Ord, WStr<E> {
        fn cmp(&self, other: &Self) -> Ordering = self.view().cmp(&other.view());
    }
    Clone, WString<E> {
        fn clone(&self) -> Self = self.as_wstr().into();
    }
    Clone, Box<WStr<E>> {
        fn clone(&self) -> Self = (**self).into();
    }
    ToOwned[Owned = WString<E>], WStr<E> {
        fn to_owned(&self) -> WString<E> = self.into();
    }
    Borrow<WStr<E>>, WString<E> {
        fn borrow(&self) -> &WStr<E> = self;
    }
    BorrowMut<WStr<E>>, WString<E> {
        fn borrow_mut(&mut self) -> &mut WStr<E> = self;
    }
    Deref[Target = WStr<E>], WString<E> {
        fn deref(&self) -> &WStr<E> = WStr::of(self.text.as_wstr());
    }
    DerefMut, WString<E> {
        fn deref_mut(&mut self) -> &mut WStr<E> =
            // SAFETY: the bytes of a string are well formed.
            unsafe { WStr::from_utf16_unchecked_mut(self.text.raw.as_mut_slice()) };
    }
    Default, WString<E> {
        fn default() -> Self = Self::new();
    }
    Default, &WStr<E> {
        // SAFETY: no bytes are well formed.
        fn default() -> Self = unsafe { WStr::from_utf16_unchecked(&[]) };
    }
    Default, Box<WStr<E>> {
        fn default() -> Self = WString::new().into();
    }
    /// Appends the text.
    fmt::Write, WString<E> {
        fn write_str(&mut self, text: &str) -> fmt::Result = self.text.write_str(text);
        fn write_char(&mut self, character: char) -> fmt::Result = Ok(self.text.push(character)?);
    }
    FromStr[Err = Infallible], WString<E> {
        fn from_str(text: &str) -> Result<Self, Infallible> = Ok(text.into());
    }
    TryFrom<&'a [u8]>[Error = Utf16Error], &'a WStr<E> {
        fn try_from(bytes: &'a [u8]) -> Result<Self, Utf16Error> = WStr::from_utf16(bytes);
    }
    TryFrom<Vec<u8>>[Error = FromUtf16Error], WString<E> {
        fn try_from(bytes: Vec<u8>) -> Result<Self, FromUtf16Error> = match validate::<E>(&bytes) {
            // SAFETY: the bytes are well formed.
            Ok(()) => Ok(unsafe { Self::from_utf16_unchecked(bytes) }),
            Err(error) => Err(FromUtf16Error { bytes, error }),
        };
    }
}

macro_rules! from {
    ($($From:ty => $To:ty: |$from:ident| $made:expr;)*) => {$(
        impls! {
            From<$From>, $To {
                fn from($from: $From) -> Self = $made;
            }
        }
    )*};
}

// SAFETY of each block: the bytes are those of a text, and a `WStr` has the layout of its bytes.
from! {
    &str => WString<E>: |text| unsafe {
        Self::from_utf16_unchecked(dethrux::encode(byte_order::<E>(), text))
    };
    &mut str => WString<E>: |text| Self::from(&*text);
    &String => WString<E>: |text| Self::from(text.as_str());
    String => WString<E>: |text| Self::from(text.as_str());
    char => WString<E>: |character| Self::from_iter([character]);
    &WStr<E> => WString<E>: |text| {
        Self::made(utf16string::WString::from_wstr(Global, text.view()), text.len())
    };
    &mut WStr<E> => WString<E>: |text| Self::from(&*text);
    &WString<E> => WString<E>: |text| text.clone();
    Cow<'_, WStr<E>> => WString<E>: |text| text.into_owned();
    Box<WStr<E>> => WString<E>: |text| unsafe {
        Self::from_utf16_unchecked(Box::from_raw(Box::into_raw(text) as *mut [u8]).into())
    };
    &WStr<E> => Box<WStr<E>>: |text| WString::from(text).into();
    WString<E> => Box<WStr<E>>: |text| unsafe {
        Box::from_raw(Box::into_raw(text.into_bytes().into_boxed_slice()) as *mut WStr<E>)
    };
    &WStr<E> => Rc<WStr<E>>: |text| unsafe {
        Rc::from_raw(Rc::into_raw(Rc::<[u8]>::from(text.as_bytes())) as *const WStr<E>)
    };
    WString<E> => Rc<WStr<E>>: |text| Rc::from(&*text);
    &WStr<E> => Arc<WStr<E>>: |text| unsafe {
        Arc::from_raw(Arc::into_raw(Arc::<[u8]>::from(text.as_bytes())) as *const WStr<E>)
    };
    WString<E> => Arc<WStr<E>>: |text| Arc::from(&*text);
    &'a WStr<E> => Cow<'a, WStr<E>>: |text| Cow::Borrowed(text);
    &'a WString<E> => Cow<'a, WStr<E>>: |text| Cow::Borrowed(text);
    WString<E> => Cow<'_, WStr<E>>: |text| Cow::Owned(text);
    WString<E> => Vec<u8>: |text| text.into_bytes();
    WString<E> => String: |text| text.to_utf8();
}

/// What a string is collected from, and what `+` and `+=` append.
macro_rules! append {
    ($($Item:ty: |$to:ident, $item:ident| $push:expr;)*) => {$(
        impls! {
            Extend<$Item>, WString<E> {
                fn extend[I: IntoIterator<Item = $Item>](&mut self, items: I) =
                    items.into_iter().for_each(|item| *self += item);
            }
            FromIterator<$Item>, WString<E> {
                fn from_iter[I: IntoIterator<Item = $Item>](items: I) -> Self =
                    items.into_iter().fold(Self::new(), |made, item| made + item);
            }
            AddAssign<$Item>, WString<E> {
                fn add_assign(&mut self, $item: $Item) = { let $to = self; $push };
            }
            Add<$Item>[Output = Self], WString<E> {
                fn add(mut self, item: $Item) -> Self = { self += item; self };
            }
        }
    )*};
}

append! {
    char: |to, character| to.push(character);
    &'a char: |to, character| to.push(*character);
    &'a str: |to, string| to.push_str(string);
    String: |to, string| to.push_str(&string);
    &'a WStr<E>: |to, text| to.push_wstr(text);
    &'a WString<E>: |to, text| to.push_wstr(text);
    WString<E>: |to, text| to.push_wstr(&text);
}
