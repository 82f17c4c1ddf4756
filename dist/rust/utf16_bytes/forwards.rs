// packaging/erase wrote this from crates/utf16_bytes/src/forwards.rt: do not edit it.
//! A search from the front.

use crate::proved::memchr::memmem::Finder;
use crate::proved::utf16_bytes::bytes::{find_bytes, find_near, occurs_at, NEAR};
use crate::proved::utf16_bytes::repeats::next_start;
use crate::proved::utf16_units::{Utf16CharExt, Utf16Order};
use core::mem::ManuallyDrop;

/// Returns the least offset at which the pattern occurs in the text, or `None` if it occurs
/// nowhere. Both may be any bytes, well formed or not.
///
/// The pattern occurs at an offset if its bytes are there, and if the offset and the end of these
/// bytes are boundaries of the text, as defined by `crate::is_char_boundary`. So an
/// occurrence cuts neither a code unit nor a surrogate pair. A pattern of odd length occurs only at
/// the end of a text of odd length. The empty pattern occurs at each boundary.
///
/// # Complexity
///
/// Linear in both lengths. Does not allocate.
///
/// # Source
///
/// For well-formed text and pattern, the offset of `str::find`, counted in bytes of UTF-16.
///
/// Proved:
///
/// - ensures first: `IsFirst (IsOccurrence E.BIG text.now pattern.now) result`
pub fn find<E: Utf16Order>(text: &[u8], pattern: &[u8]) -> Option<usize> {
    // It borrows the pattern, so a drop would free nothing; the C library must not call `free`.
    let finder = ManuallyDrop::new(Finder::new(pattern));
    let mut start = 0;
    let mut last = 0;
    while start <= text.len() {
        let at = find_bytes(&finder, text, start)?;
        if occurs_at::<E>(text, pattern, at) {
            return Some(at);
        }
        start = next_start(text, pattern.len(), last, at);
        last = at;
        if let Some(near) = find_near::<E>(text, pattern, start) {
            return Some(near);
        }
        start += NEAR;
    }
    None
}

/// Returns the least offset at which the character occurs in the text: `find` with its encoding as
/// the pattern.
///
/// # Complexity
///
/// Linear. Does not allocate.
///
/// Proved:
///
/// - ensures first: `IsFirst (IsOccurrence E.BIG text.now (char_bytes E.BIG c)) result`
pub fn find_char<E: Utf16Order>(text: &[u8], c: char) -> Option<usize> {
    let mut bytes = [0; 4];
    let len = c.encode_utf16_into::<E>(&mut bytes);
    find::<E>(text, &bytes[..len])
}
