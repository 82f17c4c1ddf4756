// packaging/erase wrote this from crates/utf16_bytes/src/swap.rt: do not edit it.
//! The two bytes of each code unit swapped, in place.

use crate::proved::simd::*;

// The number of bytes that are swapped at once.
const SWAP_BLOCK: usize = 64;

/// Swaps the two bytes of each code unit in place: UTF-16 becomes the same text in the other byte
/// order. An odd byte at the end stays. Any bytes are allowed.
///
/// # Complexity
///
/// One pass, with SIMD.
///
/// Proved:
///
/// - ensures swapped: `utf16.new ≡ swap_bytes utf16.old`
/// - ensures text: `(big : Bool) (text : List ℕ) → Encodes big text utf16.old → Encodes (not big)
///   text utf16.new`
pub fn swap_byte_order(utf16: &mut [u8]) {
    let mut at = 0;
    while utf16.len() - at >= SWAP_BLOCK {
        swap_block(utf16, at);
        at += SWAP_BLOCK;
    }
    while utf16.len() - at >= 2 {
        swap_two(utf16, at);
        at += 2;
    }
}

// Swaps the two bytes of each of thirty-two code units, starting at `at`.
//
// Proved:
//
// - requires `at + SWAP_BLOCK ≤ length raw.old`
// - ensures swapped: `take (at + SWAP_BLOCK) raw.new ≡ take at raw.old ++ swap_bytes (take
//   SWAP_BLOCK (drop at raw.old))`
// - ensures rest: `drop (at + SWAP_BLOCK) raw.new ≡ drop (at + SWAP_BLOCK) raw.old`
#[inline]
fn swap_block(raw: &mut [u8], at: usize) {
    let block = u8x64::from_slice(&raw[at..]);
    swapped(block).copy_to_slice(&mut raw[at..]);
}

// Returns the block with the two bytes of each code unit swapped.
//
// Proved:
//
// - ensures `result ≡ swap_bytes block`
#[inline(always)]
fn swapped(block: u8x64) -> u8x64 {
    swizzle!(
        block,
        [
            1, 0, 3, 2, 5, 4, 7, 6, 9, 8, 11, 10, 13, 12, 15, 14, 17, 16, 19, 18, 21, 20, 23, 22,
            25, 24, 27, 26, 29, 28, 31, 30, 33, 32, 35, 34, 37, 36, 39, 38, 41, 40, 43, 42, 45, 44,
            47, 46, 49, 48, 51, 50, 53, 52, 55, 54, 57, 56, 59, 58, 61, 60, 63, 62,
        ]
    )
}

// Swaps the two bytes of the code unit at `at`.
//
// Proved:
//
// - requires `at + 2 ≤ length raw.old`
// - ensures swapped: `take (at + 2) raw.new ≡ take at raw.old ++ (slice_index raw.old (at + 1) ∷
//   slice_index raw.old at ∷ [])`
// - ensures rest: `drop (at + 2) raw.new ≡ drop (at + 2) raw.old`
#[inline]
fn swap_two(raw: &mut [u8], at: usize) {
    let first = raw[at];
    raw[at] = raw[at + 1];
    raw[at + 1] = first;
}
