// packaging/erase wrote this from crates/utf16_bytes/src/file.rt: do not edit it.
//! Boundaries of a file, from a few of its bytes.

use crate::proved::utf16_bytes::boundary::floor_char_boundary;
use crate::proved::utf16_units::Utf16Order;

/// Returns the greatest boundary at or before an offset of a file, computed only from the bytes
/// around it: the four bytes from `(at / 2 * 2).saturating_sub(2)` on, or as many as the file has.
/// If `around` has these bytes and the offset is at most the file's length, the result is the same
/// as with `floor_char_boundary` on the whole file. For any bytes, it is at most three bytes before
/// the offset.
///
/// # Complexity
///
/// Constant time, like `floor_char_boundary`.
///
/// Proved:
///
/// - ensures near: `(around_start at ≤ result) × (result ≤ at) × (at ≤ result + 3)`
/// - ensures around: `IsLastCutAround E.BIG around.now at result`
/// - ensures file: `IsLastCutOfFile E.BIG around.now at result`
pub fn floor_char_boundary_around<E: Utf16Order>(around: &[u8], at: u64) -> u64 {
    let start = (at / 2 * 2).saturating_sub(2);
    start + floor_char_boundary::<E>(around, (at - start) as usize) as u64
}
