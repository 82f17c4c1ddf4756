#![doc = include_str!("../README.md")]
#![forbid(unsafe_op_in_unsafe_fn)]
#![deny(missing_docs)]
#![warn(missing_debug_implementations)]

extern crate alloc;

/// Methods that are one expression each. What is in brackets are generic parameters.
macro_rules! methods {
    ($(
        $(#[$attribute:meta])* $visibility:vis fn $name:ident $([$($generic:tt)*])?
        ($($argument:tt)*) $(-> $Result:ty)? = $body:expr;
    )*) => {$(
        $(#[$attribute])*
        #[inline]
        $visibility fn $name $(<$($generic)*>)? ($($argument)*) $(-> $Result)? {
            $body
        }
    )*};
}

/// An example of an edit: the text before it, the call, and the text after it.
macro_rules! example {
    ($before:literal, $call:literal, $after:literal) => {
        concat!(
            "\n```\nuse utf16string::*;\n\nlet mut text: WString<LE> = WString::from(",
            stringify!($before),
            ");\n",
            $call,
            "\nassert_eq!(text, ",
            stringify!($after),
            ");\n```"
        )
    };
}

/// Constructors that test nothing.
macro_rules! unchecked {
    ($form:expr; $($name:ident($raw:ident: $Raw:ty) -> $Made:ty = $made:expr;)*) => {$(
        /// Returns the bytes as a string, without testing them.
        ///
        /// # Safety
        ///
        #[doc = concat!("The bytes are well-formed ", $form, ".")]
        #[allow(unused_unsafe)]
        #[inline]
        pub unsafe fn $name($raw: $Raw) -> $Made {
            // SAFETY: the caller says it, and a `WStr` has the layout of its bytes.
            unsafe { $made }
        }
    )*};
}

mod error;
mod ext;
mod index;
mod iter;
mod orders;
mod pattern;
mod proved;
#[cfg(feature = "serde")]
mod serde;
mod std_impls;
mod string;
mod view;

pub use byteorder::{BigEndian, ByteOrder, LittleEndian, BE, LE};

pub use error::{FromUtf16Error, Utf16Error};
pub use ext::{WStrExt, WStringExt};
pub use index::SliceIndex;
pub use iter::{WStrCharIndices, WStrChars};
pub use pattern::{Pattern, Split, TextPattern};
pub use string::WString;
pub use view::WStr;
