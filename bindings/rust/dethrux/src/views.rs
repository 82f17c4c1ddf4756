//! Code units as bytes and as characters, and capacities.

use core::{mem, slice};

use crate::{validate_utf32, Utf32Error};

/// Returns the bytes of code units, without a copy. Their byte order is
/// [`ByteOrder::NATIVE`](crate::ByteOrder::NATIVE).
///
/// ```
/// use dethrux::{count_chars, units_as_bytes, ByteOrder};
///
/// let units = [0x68, 0x4E00, 0xD83D, 0xDE00];
/// assert_eq!(count_chars(ByteOrder::NATIVE, units_as_bytes(&units)), 3);
/// ```
#[must_use]
pub fn units_as_bytes(units: &[u16]) -> &[u8] {
    // SAFETY: the units are this many initialized bytes, and a byte needs no alignment.
    unsafe { slice::from_raw_parts(units.as_ptr().cast(), mem::size_of_val(units)) }
}

/// Returns the bytes of code units, mutable: like [`units_as_bytes`], for calls that write.
#[must_use]
pub fn units_as_bytes_mut(units: &mut [u16]) -> &mut [u8] {
    // SAFETY: the units are this many initialized bytes, a byte needs no alignment, and any two
    // bytes are a unit.
    unsafe { slice::from_raw_parts_mut(units.as_mut_ptr().cast(), mem::size_of_val(units)) }
}

/// Returns the code units of characters, without a copy.
#[must_use]
pub fn chars_as_utf32(chars: &[char]) -> &[u32] {
    // SAFETY: a `char` has the size and the alignment of a `u32`, and each one is its number.
    unsafe { slice::from_raw_parts(chars.as_ptr().cast(), chars.len()) }
}

/// Returns code units of UTF-32 as characters, without a copy, or the error of [`validate_utf32`].
pub fn utf32_as_chars(utf32: &[u32]) -> Result<&[char], Utf32Error> {
    validate_utf32(utf32)?;
    // SAFETY: each is the number of a character, and a `char` has the size and the alignment of a
    // `u32`.
    Ok(unsafe { slice::from_raw_parts(utf32.as_ptr().cast(), utf32.len()) })
}

/// Defines the capacities that suffice for every input of `len` units, and that some input needs.
macro_rules! capacities {
    ($($name:ident($len:ident: $from:literal) -> $to:literal = $capacity:expr;)*) => {$(
        #[doc = concat!("Returns a capacity in ", $to, " that suffices for every input of `len` ")]
        #[doc = concat!($from, ", and that some input needs.")]
        #[must_use]
        pub const fn $name($len: usize) -> usize {
            $capacity
        }
    )*};
}

capacities! {
    to_utf8_max_len(len: "bytes of UTF-16") -> "bytes of UTF-8" = (len / 2 + len % 2).saturating_mul(3);
    from_utf8_max_len(len: "bytes of UTF-8") -> "bytes of UTF-16" = len.saturating_mul(2);
    to_utf32_max_len(len: "bytes of UTF-16") -> "code units of UTF-32" = len / 2 + len % 2;
    from_utf32_max_len(len: "code units of UTF-32") -> "bytes of UTF-16" = len.saturating_mul(4);
    to_wtf8_max_len(len: "bytes of UTF-16") -> "bytes of WTF-8" = (len / 2).saturating_mul(3);
}
