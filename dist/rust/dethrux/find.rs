// packaging/erase wrote this from crates/dethrux/src/find.rt: do not edit it.
//! Search.

use crate::proved::dethrux::byte_order::in_order;
use crate::proved::utf16_bytes::{find, rfind};

/// Returns the least offset at which a pattern occurs in a text, or `usize::MAX` if it occurs
/// nowhere. Both may be any bytes, in the same byte order. The pattern occurs at an offset if its
/// bytes are there, and if the offset and the end of these bytes are boundaries between characters.
/// Linear in both lengths.
///
/// Proved:
///
/// - ensures first: `(found : Option ℕ) × (result ≡ offset_number found) × IsFirst (IsOccurrence
///   (is_big byte_order) utf16.now pattern.now) found`
pub fn dethrux_find(byte_order: u32, utf16: &[u8], pattern: &[u8]) -> usize {
    let found = in_order!(byte_order, find(utf16, pattern));
    offset_of(found)
}

/// Returns the greatest offset at which a pattern occurs in a text, or `usize::MAX` if it occurs
/// nowhere. Occurrences are those of `dethrux_find`. Linear in both lengths.
///
/// Proved:
///
/// - ensures last: `(found : Option ℕ) × (result ≡ offset_number found) × IsLast (IsOccurrence
///   (is_big byte_order) utf16.now pattern.now) found`
pub fn dethrux_rfind(byte_order: u32, utf16: &[u8], pattern: &[u8]) -> usize {
    let found = in_order!(byte_order, rfind(utf16, pattern));
    offset_of(found)
}

// An offset as C gets it: `usize::MAX` if there is none.
//
// Proved:
//
// - ensures `result ≡ offset_number found`
fn offset_of(found: Option<usize>) -> usize {
    found.unwrap_or(usize::MAX)
}
