// packaging/erase wrote this from crates/utf16_bytes/src/units.rt: do not edit it.
//! Properties of the code units of any bytes.

use crate::proved::utf16_units::text::{has_ascii_units, trailing_units};
use crate::proved::utf16_units::Utf16Order;

/// Returns the number of complete code units that are not trailing surrogates: the number of
/// characters if the bytes are well formed. Any bytes are allowed.
///
/// # Complexity
///
/// One pass.
///
/// Proved:
///
/// - ensures units: `result ≡ length raw.now / 2 - count_by is_low_surrogate (units_of E.BIG
///   raw.now)`
/// - ensures count: `IsUtf16 E.BIG raw.now → result ≡ length (text_of E.BIG raw.now)`
pub fn count_chars<E: Utf16Order>(raw: &[u8]) -> usize {
    raw.len() / 2 - trailing_units::<E>(raw)
}

/// Returns whether the bytes are complete code units that are all ASCII, below U+0080: for
/// well-formed bytes, whether all characters are. Any bytes are allowed.
///
/// # Complexity
///
/// One pass, up to the first block that has another code unit.
///
/// Proved:
///
/// - ensures are_units: `IsTrue result ↔ ((length raw.now % 2 ≡ 0) × All (λ unit. unit < 0x80)
///   (units_of E.BIG raw.now))`
/// - ensures ascii: `IsUtf16 E.BIG raw.now → (IsTrue result ↔ All (λ c. c < 0x80) (text_of E.BIG
///   raw.now))`
pub fn is_ascii<E: Utf16Order>(raw: &[u8]) -> bool {
    raw.len() % 2 == 0 && has_ascii_units::<E>(raw)
}
