// packaging/erase wrote this from crates/utf16_bytes/src/order.rt: do not edit it.
//! Comparison of any bytes by the scalar values of their text.

use crate::proved::utf16_bytes::first::first_lossy;
use crate::proved::utf16_units::Utf16Order;
use core::cmp::Ordering;

/// Compares two texts by their scalar values, the first in byte order `E`, the second in byte order
/// `F`. Any bytes are allowed: an unpaired surrogate counts as U+FFFD, and so does an incomplete
/// character at the end.
///
/// # Complexity
///
/// Reads both up to the first character that differs.
///
/// Proved:
///
/// - ensures less: `result ≡ Less ↔ IsBefore (lossy_text E.BIG first.now) (lossy_text F.BIG
///   second.now)`
/// - ensures equal: `result ≡ Equal ↔ (lossy_text E.BIG first.now ≡ lossy_text F.BIG second.now)`
/// - ensures greater: `result ≡ Greater ↔ IsBefore (lossy_text F.BIG second.now) (lossy_text E.BIG
///   first.now)`
/// - ensures computed: `result ≡ slice_cmp nat_cmp (lossy_text E.BIG first.now) (lossy_text F.BIG
///   second.now)`
pub fn compare<E: Utf16Order, F: Utf16Order>(first: &[u8], second: &[u8]) -> Ordering {
    compare_chars::<E, F>(first, second)
}

// Compares two texts like std's comparison of lists, character by character.
//
// Proved:
//
// - ensures `result ≡ slice_cmp nat_cmp (lossy_text E.BIG first.now) (lossy_text F.BIG second.now)`
fn compare_chars<E: Utf16Order, F: Utf16Order>(first: &[u8], second: &[u8]) -> Ordering {
    let mut rest = first;
    let mut other = second;
    loop {
        match (first_lossy::<E>(rest), first_lossy::<F>(other)) {
            (None, None) => return Ordering::Equal,
            (None, Some(_)) => return Ordering::Less,
            (Some(_), None) => return Ordering::Greater,
            (Some((c, len)), Some((d, other_len))) => {
                if c != d {
                    return c.cmp(&d);
                }
                rest = &rest[len..];
                other = &other[other_len..];
            }
        }
    }
}
