// packaging/erase wrote this from crates/utf16_bytes/src/backwards.rt: do not edit it.
//! A search from the back.

use crate::proved::memchr::memmem::FinderRev;
use crate::proved::utf16_bytes::bytes::{occurs_at, rfind_bytes, rfind_near, NEAR};
use crate::proved::utf16_bytes::repeats::previous_below;
use crate::proved::utf16_units::{Utf16CharExt, Utf16Order};
use core::mem::ManuallyDrop;

/// Returns the greatest offset at which the pattern occurs in the text, or `None` if it occurs
/// nowhere. Occurrences are those of `find`: the empty pattern occurs last at the length.
///
/// # Complexity
///
/// Linear in both lengths. Does not allocate.
///
/// # Source
///
/// For well-formed text and pattern, the offset of `str::rfind`, counted in bytes of UTF-16.
///
/// Proved:
///
/// - ensures last: `IsLast (IsOccurrence E.BIG text.now pattern.now) result`
pub fn rfind<E: Utf16Order>(text: &[u8], pattern: &[u8]) -> Option<usize> {
    // It borrows the pattern, so a drop would free nothing; the C library must not call `free`.
    let finder = ManuallyDrop::new(FinderRev::new(pattern));
    // Occurrences are looked for below this offset.
    let mut below = text.len() + 1;
    let mut last = text.len();
    while below > 0 {
        let end = text.len().min(below - 1 + pattern.len());
        let at = rfind_bytes(&finder, text, end)?;
        if occurs_at::<E>(text, pattern, at) {
            return Some(at);
        }
        below = previous_below(text, pattern.len(), last, at);
        last = at;
        if let Some(near) = rfind_near::<E>(text, pattern, below) {
            return Some(near);
        }
        below = below.saturating_sub(NEAR);
    }
    None
}

/// Returns the greatest offset at which the character occurs in the text: `rfind` with its encoding
/// as the pattern.
///
/// # Complexity
///
/// Linear. Does not allocate.
///
/// Proved:
///
/// - ensures last: `IsLast (IsOccurrence E.BIG text.now (char_bytes E.BIG c)) result`
pub fn rfind_char<E: Utf16Order>(text: &[u8], c: char) -> Option<usize> {
    let mut bytes = [0; 4];
    let len = c.encode_utf16_into::<E>(&mut bytes);
    rfind::<E>(text, &bytes[..len])
}
