// packaging/erase wrote this from crates/dethrux/src/order.rt: do not edit it.
//! The order of two texts.

use crate::proved::dethrux::byte_order::is_big_endian;
use crate::proved::utf16_bytes::compare;
use crate::proved::utf16_units::{BE, LE};
use core::cmp::Ordering;

/// Compares two texts by their scalar values, each in its byte order: returns -1, 0 or 1 if the
/// first is less than, equal to or greater than the second. An unpaired surrogate, and an
/// incomplete character at the end, counts as U+FFFD. Reads both up to the first character that
/// differs.
///
/// Proved:
///
/// - ensures less: `(result ≡ negsuc 0) ↔ IsBefore (lossy_text (is_big first_order) first.now)
///   (lossy_text (is_big second_order) second.now)`
/// - ensures equal: `(result ≡ pos 0) ↔ (lossy_text (is_big first_order) first.now ≡ lossy_text
///   (is_big second_order) second.now)`
/// - ensures greater: `(result ≡ pos 1) ↔ IsBefore (lossy_text (is_big second_order) second.now)
///   (lossy_text (is_big first_order) first.now)`
pub fn dethrux_compare(first_order: u32, first: &[u8], second_order: u32, second: &[u8]) -> i32 {
    let order = match (is_big_endian(first_order), is_big_endian(second_order)) {
        (false, false) => compare::<LE, LE>(first, second),
        (false, true) => compare::<LE, BE>(first, second),
        (true, false) => compare::<BE, LE>(first, second),
        (true, true) => compare::<BE, BE>(first, second),
    };
    match order {
        Ordering::Less => -1,
        Ordering::Equal => 0,
        Ordering::Greater => 1,
    }
}
