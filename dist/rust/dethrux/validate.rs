// packaging/erase wrote this from crates/dethrux/src/validate.rt: do not edit it.
//! Whether bytes are UTF-16, and what can be said of them without converting them.

use crate::proved::dethrux::byte_order::in_order;
use crate::proved::dethrux::results::{validity_of, Validity};
use crate::proved::utf16_bytes::{count_chars, is_ascii};
use crate::proved::utf16_units::plain::is_short_plain;
use crate::proved::utf16_units::{validate_raw_utf16, Utf16Order};

/// Returns the length of the longest well-formed prefix, and what follows it: nothing, an unpaired
/// surrogate, or an incomplete character at the end. One pass, up to the first error.
///
/// Proved:
///
/// - ensures validity: `IsValidity (is_big byte_order) utf16.now result.valid_up_to (stop_of_status
///   result.status result.error_len)`
/// - ensures numbers: `AreNumbers result.status result.error_len`
pub fn dethrux_validate(byte_order: u32, utf16: &[u8]) -> Validity {
    in_order!(byte_order, validity(utf16))
}

// Does the same for a fixed byte order.
//
// Proved:
//
// - ensures validity: `IsValidity E.BIG utf16.now result.valid_up_to (stop_of_status result.status
//   result.error_len)`
// - ensures numbers: `AreNumbers result.status result.error_len`
#[inline(always)]
fn validity<E: Utf16Order>(utf16: &[u8]) -> Validity {
    if is_short_plain::<E>(utf16) {
        return validity_of(utf16.len(), Ok(()));
    }
    validity_of_many::<E>(utf16)
}

// Does the same. Kept out of line so that short texts do not pay for its stack frame.
//
// Proved:
//
// - ensures validity: `IsValidity E.BIG utf16.now result.valid_up_to (stop_of_status result.status
//   result.error_len)`
// - ensures numbers: `AreNumbers result.status result.error_len`
#[inline(never)]
fn validity_of_many<E: Utf16Order>(utf16: &[u8]) -> Validity {
    validity_of(utf16.len(), validate_raw_utf16::<E>(utf16))
}

/// Returns the number of characters of well-formed bytes, and for ill-formed bytes the number of
/// whole code units that are not trailing surrogates. One pass.
///
/// Proved:
///
/// - ensures units: `result ≡ length utf16.now / 2 - count_by is_low_surrogate (units_of (is_big
///   byte_order) utf16.now)`
/// - ensures count: `IsUtf16 (is_big byte_order) utf16.now → result ≡ length (text_of (is_big
///   byte_order) utf16.now)`
pub fn dethrux_count_chars(byte_order: u32, utf16: &[u8]) -> usize {
    in_order!(byte_order, count_chars(utf16))
}

/// Returns whether the bytes are whole code units that are all ASCII: UTF-16, each character below
/// U+0080. One pass, up to the first block with another unit.
///
/// Proved:
///
/// - ensures are_units: `IsTrue result ↔ ((length utf16.now % 2 ≡ 0) × All (λ unit. unit < 0x80)
///   (units_of (is_big byte_order) utf16.now))`
/// - ensures ascii: `IsUtf16 (is_big byte_order) utf16.now → (IsTrue result ↔ All (λ c. c < 0x80)
///   (text_of (is_big byte_order) utf16.now))`
pub fn dethrux_is_ascii(byte_order: u32, utf16: &[u8]) -> bool {
    in_order!(byte_order, is_ascii(utf16))
}
