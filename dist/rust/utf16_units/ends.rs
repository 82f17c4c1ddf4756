// packaging/erase wrote this from crates/utf16_units/src/ends.rt: do not edit it.
//! The character at either end of a text's bytes.

use crate::proved::utf16_units::{
    decode_surrogates, is_leading_surrogate, is_trailing_surrogate, Utf16Order,
};

/// Returns the first character, and how many bytes it takes.
///
/// # Precondition
///
/// `raw` is not empty, and is well-formed UTF-16 in the byte order `E` (check with
/// `validate_raw_utf16`).
///
/// Proved:
///
/// - requires well_formed: `IsUtf16 E.BIG raw.now`
/// - requires not_empty: `0 < length raw.now`
/// - ensures size: `result.1 ≡ char_size result.0`
/// - ensures within: `result.1 ≤ length raw.now`
/// - ensures joined: `text_of E.BIG raw.now ≡ result.0 ∷ text_of E.BIG (drop result.1 raw.now)`
/// - ensures well_formed: `IsUtf16 E.BIG (drop result.1 raw.now)`
#[inline]
pub fn first_char<E: Utf16Order>(raw: &[u8]) -> (char, usize) {
    let unit = E::read_unit(crate::proved::kit::two(raw, 0));
    if !is_leading_surrogate(unit) {
        return (unsafe { char::from_u32_unchecked(unit as u32) }, 2);
    }
    let trailing = E::read_unit(crate::proved::kit::two(raw, 2));
    (decode_surrogates(unit, trailing), 4)
}

/// Returns the last character, and how many bytes it takes.
///
/// # Precondition
///
/// `raw` is not empty, and is well-formed UTF-16 in the byte order `E` (check with
/// `validate_raw_utf16`).
///
/// Proved:
///
/// - requires well_formed: `IsUtf16 E.BIG raw.now`
/// - requires not_empty: `0 < length raw.now`
/// - ensures size: `result.1 ≡ char_size result.0`
/// - ensures within: `result.1 ≤ length raw.now`
/// - ensures joined: `text_of E.BIG raw.now ≡ text_of E.BIG (take (length raw.now - result.1)
///   raw.now) ++ result.0 ∷ []`
/// - ensures well_formed: `IsUtf16 E.BIG (take (length raw.now - result.1) raw.now)`
#[inline]
pub fn last_char<E: Utf16Order>(raw: &[u8]) -> (char, usize) {
    let end = raw.len();
    let unit = E::read_unit([raw[end - 2], raw[end - 1]]);
    if !is_trailing_surrogate(unit) {
        return (unsafe { char::from_u32_unchecked(unit as u32) }, 2);
    }
    let leading = E::read_unit([raw[end - 4], raw[end - 3]]);
    (decode_surrogates(leading, unit), 4)
}
