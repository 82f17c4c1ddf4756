// packaging/erase wrote this from crates/utf16_from_utf8/src/limits.rt: do not edit it.
//! Bounds on the bytes of a block.

use crate::proved::simd::*;
use crate::proved::utf16_from_utf8::lanes::{each, greater, set_bits, where_below};

// The greatest bytes of the next sixty-four, for each place in a group of sixteen.
//
// Proved:
//
// - requires `at + 64 ≤ length bytes.now`
// - ensures `(limit : ℕ) → ((i : ℕ) → i < 16 → slice_index result i < limit) ↔ AreBelow 64
//   bytes.now at limit`
#[inline(always)]
pub(crate) fn greatest(bytes: &[u8], at: usize) -> u8x16 {
    greater(
        greater(
            u8x16::from_slice(&bytes[at..]),
            u8x16::from_slice(&bytes[at + 16..]),
        ),
        greater(
            u8x16::from_slice(&bytes[at + 32..]),
            u8x16::from_slice(&bytes[at + 48..]),
        ),
    )
}

// Whether all bytes are below a limit.
//
// Proved:
//
// - ensures `IsTrue result ↔ ((i : ℕ) → i < 16 → slice_index block i < limit)`
#[inline(always)]
pub(crate) fn are_below(block: u8x16, limit: u8) -> bool {
    set_bits(where_below(block, limit, each(0), each(0xFF))) == 0
}
