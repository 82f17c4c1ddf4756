// packaging/erase wrote this from crates/utf16_bytes/src/boundary.rt: do not edit it.
//! Boundaries between characters in any bytes of UTF-16.

use crate::proved::utf16_units::{is_leading_surrogate, is_trailing_surrogate, Utf16Order};

/// Returns whether an offset is a boundary between characters: the end of the bytes, or an offset
/// between two code units that are not a surrogate pair. Any bytes are allowed: each unpaired
/// surrogate counts as a character, and so does an incomplete character of 1 to 3 bytes at the end.
///
/// # Complexity
///
/// Constant time: reads at most two bytes before the offset and two from it on.
///
/// Proved:
///
/// - ensures `IsTrue result ↔ IsCut E.BIG utf16.now at`
pub fn is_char_boundary<E: Utf16Order>(utf16: &[u8], at: usize) -> bool {
    if at >= utf16.len() {
        return at == utf16.len();
    }
    if at % 2 != 0 {
        return false;
    }
    if at < 2 || !is_leading_surrogate(E::read_unit([utf16[at - 2], utf16[at - 1]])) {
        return true;
    }
    at + 2 <= utf16.len()
        && !is_trailing_surrogate(E::read_unit(crate::proved::kit::two(utf16, at)))
}

/// Returns the greatest boundary at or before an offset, as defined by `is_char_boundary`: at most
/// three bytes before the offset or the length, whichever is smaller.
///
/// # Complexity
///
/// Constant time, like `is_char_boundary`.
///
/// Proved:
///
/// - ensures last: `IsLastCut E.BIG utf16.now at result`
/// - ensures near: `(at ≤ result + 3) ⊎ (length utf16.now ≤ result + 3)`
pub fn floor_char_boundary<E: Utf16Order>(utf16: &[u8], at: usize) -> usize {
    if at >= utf16.len() {
        return utf16.len();
    }
    let even = at / 2 * 2;
    if is_char_boundary::<E>(utf16, even) {
        even
    } else {
        even - 2
    }
}
