// packaging/erase wrote this from crates/dethrux/src/in_place.rt: do not edit it.
//! Bytes of UTF-16 rewritten in place.

use crate::proved::dethrux::byte_order::in_order;
use crate::proved::utf16_bytes::swap_byte_order;
use crate::proved::utf16_transcode::make_well_formed;

/// Swaps the two bytes of each code unit in place: UTF-16 becomes the same text in the other byte
/// order. An odd byte at the end is unchanged. One pass.
///
/// Proved:
///
/// - ensures swapped: `utf16.new ≡ swap_bytes utf16.old`
/// - ensures text: `(big : Bool) (text : List ℕ) → Encodes big text utf16.old → Encodes (not big)
///   text utf16.new`
pub fn dethrux_swap_byte_order(utf16: &mut [u8]) {
    swap_byte_order(utf16);
}

/// Replaces each unpaired surrogate by U+FFFD in place, and returns how many there were. Afterwards
/// the whole code units are well formed. A leading surrogate at the end is unpaired; an odd byte at
/// the end is unchanged. In linear time.
///
/// Proved:
///
/// - ensures bytes: `utf16.new ≡ encode (is_big byte_order) (lossy_text (is_big byte_order) (take
///   (length utf16.old / 2 * 2) utf16.old)) ++ drop (length utf16.old / 2 * 2) utf16.old`
/// - ensures count: `result ≡ unpaired (is_big byte_order) (take (length utf16.old / 2 * 2)
///   utf16.old)`
pub fn dethrux_make_well_formed(byte_order: u32, utf16: &mut [u8]) -> usize {
    in_order!(byte_order, make_well_formed(utf16))
}
