// packaging/erase wrote this from crates/utf16_to_utf8/src/places.rt: do not edit it.
//! The source indices of the UTF-8 of eight units that add one or two bytes each.

use crate::proved::simd::*;
use crate::proved::utf16_units::index_rows;

// The source indices for these units, with a bit in `one` for each unit that adds one byte. The
// first byte of a unit is at an even index, and its second byte at the next index.
//
// Proved:
//
// - requires `one < 256`
// - ensures places: `(flags : List Bool) → length flags ≡ 8 → one ≡ mask_l flags → take (16 -
//   count_ones one) result ≡ packed flags (range_with_len 0 16)`
// - ensures below: `Each1 (λ place. place < 16) result`
// - ensures few: `count_ones one ≤ 8`
// - ensures long: `length result ≡ 16`
#[inline(always)]
pub(crate) fn places(one: usize) -> u8x16 {
    u8x16::from_array(PLACES[one])
}

static PLACES: [[u8; 16]; 256] = index_rows!(
    {(0 1) (0)}
    {(2 3) (2)}
    {(4 5) (4)}
    {(6 7) (6)}
    {(8 9) (8)}
    {(10 11) (10)}
    {(12 13) (12)}
    {(14 15) (14)}
);
