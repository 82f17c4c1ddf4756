// packaging/erase wrote this from crates/utf16_to_utf8/src/word_places.rt: do not edit it.
//! The source indices of the UTF-8 of four units, each of which has a word of four bytes.

use crate::proved::simd::*;
use crate::proved::utf16_units::index_rows;

// The source indices for these words, with two bits in `flags` for each: whether its unit adds one
// byte, and whether it adds at most two.
//
// Proved:
//
// - requires `flags < 256`
// - ensures places: `(bits : List Bool) → length bits ≡ 8 → flags ≡ mask_l bits → take (12 -
//   count_ones flags) result ≡ packed_words bits (range_with_len 0 16)`
// - ensures below: `Each1 (λ place. place < 16) result`
// - ensures few: `count_ones flags ≤ 8`
// - ensures long: `length result ≡ 16`
#[inline(always)]
pub(crate) fn word_places(flags: usize) -> u8x16 {
    u8x16::from_array(WORD_PLACES[flags])
}

static WORD_PLACES: [[u8; 16]; 256] = index_rows!(
    {(0 2 3) (0 1) (2 3) (1)}
    {(4 6 7) (4 5) (6 7) (5)}
    {(8 10 11) (8 9) (10 11) (9)}
    {(12 14 15) (12 13) (14 15) (13)}
);
