// packaging/erase wrote this from crates/utf16_to_utf8/src/lens.rt: do not edit it.
//! The length of a text in UTF-8.

use crate::proved::simd::*;
use crate::proved::utf16_to_utf8::blocks::{are_below, filled_units};
use crate::proved::utf16_to_utf8::pack::ascii_bits;
use crate::proved::utf16_units::blocks::units32;
use crate::proved::utf16_units::surrogates::class_bits;
use crate::proved::utf16_units::Utf16Order;

/// Returns the length of the text in UTF-8, in bytes.
///
/// # Precondition
///
/// `raw` is well-formed UTF-16 in the byte order `E` (check with
/// `utf16_units::validate_raw_utf16`).
///
/// # Complexity
///
/// One pass.
///
/// Proved:
///
/// - requires `IsUtf16 E.BIG raw.now`
/// - ensures `result ≡ length (utf8_of E.BIG raw.now)`
pub fn utf8_len<E: Utf16Order>(raw: &[u8]) -> usize {
    units_len::<E>(raw)
}

// The number of bytes that the units add.
//
// Proved:
//
// - requires `length raw.now % 2 ≡ 0`
// - ensures `result ≡ sum_by added_len (units_of E.BIG raw.now)`
fn units_len<E: Utf16Order>(raw: &[u8]) -> usize {
    let mut at = 0;
    let mut len = 0;
    while raw.len() - at >= 64 {
        len += block_len(units32::<E>(u8x64::from_slice(&raw[at..])));
        at += 64;
    }
    len + rest_len::<E>(&raw[at..])
}

// The number of bytes that the units of at most a block add. The block is padded with zeros, each
// of which adds one byte.
//
// Proved:
//
// - requires few: `length raw.now ≤ 64`
// - requires even: `length raw.now % 2 ≡ 0`
// - ensures `result ≡ sum_by added_len (units_of E.BIG raw.now)`
#[inline(always)]
fn rest_len<E: Utf16Order>(raw: &[u8]) -> usize {
    block_len(filled_units::<E>(raw)) - (32 - raw.len() / 2)
}

// The number of bytes that the units of a block add: three for each, less one if it is below
// U+0800, less another one if it is ASCII, and less one if it is a surrogate.
//
// Proved:
//
// - ensures `result ≡ sum_by added_len units`
#[inline(always)]
fn block_len(units: u16x32) -> usize {
    if are_below(units, 0x80) {
        return 32;
    }
    let low = class_bits(units, 0xF8, 0).count_ones() as usize;
    let surrogates = class_bits(units, 0xF8, 0xD8).count_ones() as usize;
    96 - low - surrogates - ascii_bits(units).count_ones() as usize
}
