// packaging/erase wrote this from crates/utf16_from_utf8/src/positions.rt: do not edit it.
//! Shuffle indices that move the pairs whose bit is set, of eight, to the front.

use crate::proved::simd::*;
use crate::proved::utf16_units::index_rows;

// The indices for the pairs in `bits`, which has a bit for each pair.
//
// Proved:
//
// - requires `bits < 256`
// - ensures `Packs bits result`
#[inline(always)]
pub(crate) fn positions(bits: usize) -> u8x16 {
    u8x16::from_array(KEPT[bits])
}

static KEPT: [[u8; 16]; 256] = index_rows!(
    {() (0 1)}
    {() (2 3)}
    {() (4 5)}
    {() (6 7)}
    {() (8 9)}
    {() (10 11)}
    {() (12 13)}
    {() (14 15)}
);
